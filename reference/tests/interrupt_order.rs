//! Request [2] of document 02: step 7 takes the interrupts bound for M first.

mod common;

use common::*;
use reference::{Answer, Hart, MACHINE, SUPERVISOR, USER};

const BASE: u64 = 0xA_0000_0000;
const SIE: u64 = 0x2;
const MIE: u64 = 0x8;
const YES: Answer = Answer::Decision(true);
const NO: Answer = Answer::Decision(false);

/// What is delegated, then the interrupts bound for M and those bound for S,
/// each in the order in which they are taken.
const DELEGATIONS: [(u64, &[u64], &[u64]); 7] = [
    (0x002, &[11, 3, 7, 9, 5], &[1]),
    (0x020, &[11, 3, 7, 9, 1], &[5]),
    (0x022, &[11, 3, 7, 9], &[1, 5]),
    (0x200, &[11, 3, 7, 1, 5], &[9]),
    (0x202, &[11, 3, 7, 5], &[9, 1]),
    (0x220, &[11, 3, 7, 1], &[9, 5]),
    (0x222, &[11, 3, 7], &[9, 1, 5]),
];

fn take(hart: &Hart) -> (Hart, Answer) {
    run(hart, 7, 0, 0)
}

/// SEI delegated, STI not, both pending and enabled; all that a trap writes
/// holds something else.
fn both_pending(mode: u64, bits: u64) -> Hart {
    Hart {
        mode,
        pc: 0x4000,
        mstatus: BASE | bits,
        mideleg: 0x200,
        mie: 0x220,
        mip: 0x20,
        lines: 0x200,
        mtvec: 0x8000_0001,
        stvec: 0x9000_0001,
        mepc: 0x1110,
        mcause: 0x11,
        mtval: 0x111,
        sepc: 0x2220,
        scause: 0x22,
        stval: 0x222,
        ..Hart::reset()
    }
}

fn all_pending(mode: u64, bits: u64, mideleg: u64) -> Hart {
    let mstatus = BASE | bits;
    Hart { mode, mstatus, mideleg, mie: 0xAAA, mip: 0x222, lines: 0xA88, ..Hart::reset() }
}

/// Each interrupt is taken to `mode`, and enabled no longer.
fn take_in_order(given: &mut Hart, mode: u64, codes: &[u64]) {
    for code in codes {
        let (hart, answer) = take(given);
        let cause = 1 << 63 | code;
        let causes = if mode == MACHINE { (cause, 0) } else { (0, cause) };
        assert_eq!((answer, hart.mode, (hart.mcause, hart.scause)), (YES, mode, causes));
        given.mie &= !(1 << code);
    }
}

#[test]
fn the_timer_bound_for_m_goes_before_the_external_bound_for_s() {
    for (mode, bits, mstatus) in [
        (SUPERVISOR, SIE, 0xA_0000_0802),
        (SUPERVISOR, SIE | MIE, 0xA_0000_0882),
        (SUPERVISOR, 0, 0xA_0000_0800),
        (SUPERVISOR, MIE, 0xA_0000_0880),
        (USER, 0, 0xA_0000_0000),
        (USER, SIE, 0xA_0000_0002),
        (USER, MIE, 0xA_0000_0080),
        (MACHINE, MIE, 0xA_0000_1880),
        (MACHINE, MIE | SIE, 0xA_0000_1882),
    ] {
        let given = both_pending(mode, bits);
        let expected = Hart {
            mode: MACHINE,
            pc: 0x8000_0014,
            mepc: 0x4000,
            mcause: 0x8000_0000_0000_0005,
            mtval: 0,
            mstatus,
            ..given
        };
        assert_eq!(take(&given), (expected, YES));
    }
}

#[test]
fn without_mie_m_takes_neither() {
    for bits in [0, SIE] {
        let given = both_pending(MACHINE, bits);
        assert_eq!(take(&given), (given, NO));
    }
}

/// One bound for M that is pending but not enabled, or enabled but not pending,
/// keeps nothing from S.
#[test]
fn the_external_goes_to_s_where_none_bound_for_m_is_takeable() {
    for (mie, mip, lines) in
        [(0x200, 0x20, 0x200), (0x200, 0x222, 0xA88), (0x220, 0, 0x200), (0xAAA, 0x200, 0)]
    {
        for (mode, bits, mstatus) in [
            (SUPERVISOR, SIE, 0xA_0000_0120),
            (SUPERVISOR, SIE | MIE, 0xA_0000_0128),
            (USER, 0, 0xA_0000_0000),
            (USER, SIE, 0xA_0000_0020),
        ] {
            let given = Hart { mie, mip, lines, ..both_pending(mode, bits) };
            let expected = Hart {
                mode: SUPERVISOR,
                pc: 0x9000_0024,
                sepc: 0x4000,
                scause: 0x8000_0000_0000_0009,
                stval: 0,
                mstatus,
                ..given
            };
            assert_eq!(take(&given), (expected, YES));
        }
    }
}

#[test]
fn all_bound_for_m_are_taken_before_any_bound_for_s() {
    for (mideleg, machine, supervisor) in DELEGATIONS {
        for (mode, bits) in [(USER, 0), (SUPERVISOR, SIE)] {
            let mut given = all_pending(mode, bits, mideleg);
            take_in_order(&mut given, MACHINE, machine);
            take_in_order(&mut given, SUPERVISOR, supervisor);
            assert_eq!(take(&given), (given, NO));
        }
    }
}

#[test]
fn those_bound_for_s_wait_in_m_and_in_s_without_sie() {
    for (mideleg, machine, _) in DELEGATIONS {
        for (mode, bits) in [(SUPERVISOR, 0), (SUPERVISOR, MIE), (MACHINE, MIE | SIE)] {
            let mut given = all_pending(mode, bits, mideleg);
            take_in_order(&mut given, MACHINE, machine);
            assert_eq!(take(&given), (given, NO));
        }
    }
}
