//! Request [8] of document 02: who may use a page, and how.

mod common;

use common::paging::*;
use common::*;
use reference::status::{MPRV, MXR, SUM, with_mpp};
use reference::sv39::pte;
use reference::{Answer, Hart, MACHINE, Mode, SUPERVISOR, USER};

const MARKED: u64 = pte::V | pte::A | pte::D;
/// The rights an entry can have: never W without R.
const RIGHTS: [u64; 5] =
    [pte::R, pte::X, pte::R | pte::W, pte::R | pte::X, pte::R | pte::W | pte::X];

/// Whether a step is granted on a page with these bits; it must be a page fault else.
fn granted(hart: &Hart, bits: u64, number: u64) -> bool {
    let answer = access(hart, &one_page(entry(0x9000, bits)), number, 0, 4).1;
    let cause = [12, 13, 15][(number - FETCH) as usize];
    match answer {
        Answer::Granted { entry: Some(5) } => true,
        _ => {
            assert_eq!(answer, trapped(cause, Mode::Machine));
            false
        }
    }
}

fn with_status(mode: u64, bits: u64) -> Hart {
    let hart = translating(mode);
    Hart { mstatus: hart.mstatus | bits, ..hart }
}

#[test]
fn rights_are_those_of_the_page() {
    for rights in RIGHTS {
        for (mode, user) in [(SUPERVISOR, 0), (USER, pte::U)] {
            for (status, readable) in [(0, pte::R), (MXR, pte::R | pte::X)] {
                let hart = with_status(mode, status);
                let given = |number| granted(&hart, MARKED | rights | user, number);
                assert_eq!(given(FETCH), rights & pte::X != 0);
                assert_eq!(given(LOAD), rights & readable != 0);
                assert_eq!(given(STORE), rights & pte::W != 0);
            }
        }
    }
}

/// SUM lets S load and store on pages of U, and never fetch; U has no page of S.
#[test]
fn a17_pages_of_user_and_of_supervisor() {
    for number in [FETCH, LOAD, STORE] {
        for status in [0, MXR] {
            assert!(granted(&with_status(USER, status), RWX_USER, number));
            assert!(!granted(&with_status(USER, status | SUM), RWX, number));
            assert!(granted(&with_status(SUPERVISOR, status), RWX, number));
            assert!(!granted(&with_status(SUPERVISOR, status), RWX_USER, number));
            let allowed = granted(&with_status(SUPERVISOR, status | SUM), RWX_USER, number);
            assert_eq!(allowed, number != FETCH);
        }
    }
}

/// MXR and SUM are for the page alone: the byte rule asks for R all the same.
#[test]
fn a17_mxr_does_not_act_on_the_protection_entry() {
    let mut hart = with_status(SUPERVISOR, MXR | SUM);
    let words = one_page(entry(0x9000, MARKED | pte::X));
    assert_eq!(access(&hart, &words, LOAD, 0, 4).1, Answer::Granted { entry: Some(5) });
    (hart.pmpcfg[2], hart.pmpaddr[2]) = (0x14, 0x9000 >> 2);
    assert_eq!(access(&hart, &words, LOAD, 0, 4).1, trapped_by(Some(2), 5, Mode::Machine));
    assert_eq!(access(&hart, &words, FETCH, 0, 4).1, Answer::Granted { entry: Some(2) });
}

/// B26: in M under MPRV the access is judged as MPP, and its fault goes to M, whatever
/// is delegated. A fetch never looks at MPRV.
#[test]
fn b26_mprv_in_machine() {
    for (mpp, bits, denied) in [(USER, RWX_USER, RWX), (SUPERVISOR, RWX, RWX_USER)] {
        let mut hart = with_status(MACHINE, MPRV);
        (hart.mstatus, hart.medeleg) = (with_mpp(hart.mstatus, mpp), 0xB3FF);
        for (number, cause) in [(LOAD, 13), (STORE, 15)] {
            assert!(granted(&hart, bits, number));
            let words = one_page(entry(0x9000, denied));
            let (left, answer) = access(&hart, &words, number, 0x40, 4);
            assert_eq!(answer, trapped(cause, Mode::Machine));
            assert_eq!(left, after_exception_to_machine(&hart, cause, 0x40));
        }
        let (_, answer) = access(&hart, &[], FETCH, 0x40, 4);
        assert_eq!(answer, Answer::Granted { entry: Some(5) }, "a fetch in M is physical");
    }
}

/// A11: MPRV is honoured in any mode: with MPP=M, U loads and stores physically.
#[test]
fn a11_mprv_in_user_and_supervisor() {
    for mode in [USER, SUPERVISOR] {
        let mut hart = with_status(mode, MPRV);
        hart.mstatus = with_mpp(hart.mstatus, MACHINE);
        for number in [LOAD, STORE] {
            let (_, answer) = access(&hart, &[], number, !0 >> 8 & !7, 8);
            assert_eq!(answer, Answer::Granted { entry: Some(5) });
        }
        let (_, answer) = access(&hart, &[], FETCH, 0x40, 4);
        assert_eq!(answer, trapped(1, Mode::Machine), "a fetch walks, and finds no table");
        hart.mstatus = with_mpp(hart.mstatus, USER);
        assert!(granted(&hart, RWX_USER, LOAD) && !granted(&hart, RWX, LOAD));
    }
}

/// Each page fault goes where medeleg sends it.
#[test]
fn page_faults_are_delegated_by_their_own_bits() {
    for (number, cause) in [(FETCH, 12), (LOAD, 13), (STORE, 15)] {
        for medeleg in [1 << 12, 1 << 13, 1 << 15, 0xB3FF, 0xB3FF & !(1 << cause), 0x3FF] {
            for mode in [USER, SUPERVISOR] {
                let hart = Hart { medeleg, ..translating(mode) };
                let (left, answer) = access(&hart, &tables(&[]), number, 0x7000, 4);
                let delegated = medeleg >> cause & 1 == 1;
                let destination = if delegated { Mode::Supervisor } else { Mode::Machine };
                assert_eq!(answer, trapped(cause, destination));
                let trap =
                    if delegated { (left.scause, left.stval) } else { (left.mcause, left.mtval) };
                assert_eq!(trap, (cause, 0x7000));
            }
        }
    }
}
