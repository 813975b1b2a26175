//! Request [8] of document 02: checks of table reads, which entry is told, and
//! refusal 13.

mod common;

use common::paging::*;
use common::*;
use reference::protection::MEMORY;
use reference::status::{MPRV, with_mpp};
use reference::{Answer, Hart, MACHINE, Memory, Mode, Refusal, SUPERVISOR, USER};

const KINDS: [(u64, u64); 3] = [(FETCH, 1), (LOAD, 5), (STORE, 7)];

/// A19: the byte rule with mode S, a load, 8 bytes: W and X are not asked for, and U's
/// own access needs the tables open to S alone. The virtual address is told.
#[test]
fn a19_table_reads_are_checked_as_loads_in_supervisor() {
    let words = one_page(entry(0x9000, RWX_USER));
    for table in 0..3 {
        let place = (BASE + 4096 * table) >> 2;
        for (number, cause) in KINDS {
            let hart = translating(USER);
            let readable = with_entry(&hart, 3, 0x19, place);
            let answer = access(&readable, &words, number, 0x24, 4).1;
            assert_eq!(answer, Answer::Granted { entry: Some(5) });
            for denied in [0x18, 0x1C] {
                let hart = with_entry(&hart, 3, denied, place);
                let (left, answer) = access(&hart, &words, number, 0x24, 4);
                assert_eq!(answer, trapped_by(Some(3), cause, Mode::Machine));
                assert_eq!(left.mtval, 0x24);
            }
            for half in [0, 1] {
                let partial = with_entry(&hart, 4, 0x17, place + half);
                let answer = access(&partial, &words, number, 0x24, 4).1;
                assert_eq!(answer, trapped_by(Some(4), cause, Mode::Machine), "a partial match");
            }
        }
    }
}

/// In M with MPRV the tables are still read as S: an unlocked entry does not let pass.
#[test]
fn a19_table_reads_are_never_those_of_machine() {
    let words = one_page(entry(0x9000, RWX));
    let mut hart = with_entry(&translating(MACHINE), 1, 0x18, BASE >> 2);
    hart.mstatus = with_mpp(hart.mstatus | MPRV, SUPERVISOR);
    let (_, answer) = access(&hart, &words, STORE, 0, 8);
    assert_eq!(answer, trapped_by(Some(1), 7, Mode::Machine));
}

/// Check first, slice second; both are access faults.
#[test]
fn a22_tables_outside_the_slice_and_closed_tables() {
    let words = one_page(entry(0x9000, RWX));
    let hart = translating(SUPERVISOR);
    let open_page = |hart: &Hart| with_entry(hart, 0, 0x17, 0x9000 >> 2);
    for (number, cause) in KINDS {
        for length in [0, 1, 512, 513, 1024] {
            let (left, answer) = access(&hart, &words[..length], number, 0x10, 4);
            assert_eq!(answer, trapped(cause, Mode::Machine), "{length} words");
            assert_eq!(left.mtval, 0x10);
        }
        let (_, answer) = access(&hart, &words[..1025], number, 0x10, 4);
        assert_eq!(answer, Answer::Granted { entry: Some(5) });
        let later = Memory { words: &words[1..], base: BASE + 8 };
        assert_eq!(lent(&hart, later, number, 0x10, 4).1, trapped(cause, Mode::Machine));
        let unmatched = open_page(&Hart { pmpcfg: [0; 16], ..hart });
        for words in [&words[..], &[]] {
            let (_, answer) = access(&unmatched, words, number, 0, 4);
            assert_eq!(answer, trapped(cause, Mode::Machine), "no entry matches the root");
        }
        let denied = with_entry(&hart, 2, 0x18, BASE >> 2);
        assert_eq!(access(&denied, &[], number, 0, 4).1, trapped_by(Some(2), cause, Mode::Machine));
    }
}

#[test]
fn a22_the_entry_of_a_grant_is_that_of_the_access_itself() {
    let words = one_page(entry(0x9000, RWX));
    let hart = with_entry(&translating(SUPERVISOR), 0, 0x1F, BASE >> 2 | 0x7FF);
    for (number, cause) in KINDS {
        let (_, answer) = access(&hart, &words, number, 0x10, 4);
        assert_eq!(answer, Answer::Granted { entry: Some(5) });
        let page = with_entry(&hart, 4, 0x1F, 0x9000 >> 2 | 0x1FF);
        let (_, answer) = access(&page, &words, number, 0x10, 4);
        assert_eq!(answer, Answer::Granted { entry: Some(4) });
        let denied = with_entry(&hart, 4, 0x18, 0x9000 >> 2 | 0x1FF);
        let (left, answer) = access(&denied, &words, number, 0x10, 4);
        assert_eq!(answer, trapped_by(Some(4), cause, Mode::Machine));
        assert_eq!(left.mtval, 0x10, "the virtual address");
        let elsewhere = Hart { pmpcfg: [0; 16], ..hart };
        let elsewhere = with_entry(&elsewhere, 0, 0x1F, BASE >> 2 | 0x7FF);
        assert_eq!(access(&elsewhere, &words, number, 0x10, 4).1, trapped(cause, Mode::Machine));
    }
}

/// A20, B1, B2: after 3, before 1, at steps 14 to 16 alone, translated or not.
#[test]
fn a20_refusal_13() {
    let words = one_page(entry(0x9000, RWX));
    let one = 8 * words.len() as u64;
    for mode in [USER, SUPERVISOR, MACHINE] {
        for satp in [0, translating(mode).satp] {
            let hart = Hart { satp, ..translating(mode) };
            for base in [1, 4, 7, BASE + 4, MEMORY - one + 8, MEMORY, u64::MAX - 7] {
                let memory = Memory { words: &words, base };
                assert!(!memory.is_lawful());
                for (number, size) in [(FETCH, 0), (LOAD, 8), (LOAD, 3), (STORE, 1), (STORE, 0)] {
                    let answer = lent(&hart, memory, number, 0, size).1;
                    assert_eq!(answer, refused(Refusal::Memory));
                }
                let damaged = Hart { mideleg: 1, ..hart };
                assert_eq!(lent(&damaged, memory, LOAD, 0, 3).1, refused(Refusal::State));
                for number in (0..=17).filter(|number| !(14..=16).contains(number)) {
                    let (_, _, answer) = run_with_memory(&hart, &odd_map(), memory, number, 0, 0);
                    assert_ne!(answer, refused(Refusal::Memory), "step {number}");
                }
            }
            for base in [0, 8, MEMORY - one] {
                let memory = Memory { words: &words, base };
                assert!(memory.is_lawful());
                assert_eq!(lent(&hart, memory, LOAD, 0, 3).1, refused(Refusal::Size));
            }
        }
    }
    for (base, lawful) in [(MEMORY, true), (MEMORY + 8, false), (4, false), (0, true)] {
        assert_eq!(Memory { words: &[], base }.is_lawful(), lawful);
    }
}
