//! Rules easily missed about what CSRs show and keep, numbered as in the list
//! of readings.

mod common;

use common::*;
use reference::{Answer, Hart, MACHINE, SUPERVISOR};

const MSTATUS: u64 = 0x300;
const RESET_MSTATUS: u64 = 0xA_0000_0000;
const LINE_SEIP: u64 = 1 << 9;

fn with_mpp(mpp: u64) -> Hart {
    Hart { mstatus: RESET_MSTATUS | mpp << 11, ..Hart::reset() }
}

#[test]
fn a3_the_old_value_is_what_a_read_shows() {
    let hart = Hart { mip: 2, lines: LINE_SEIP, ..Hart::reset() };
    for operation in [WRITE, SET, CLEAR, READ] {
        assert_eq!(run(&hart, operation, 0x344, 0x20).1, Answer::Value(0x202));
    }
}

#[test]
fn a5_dropped_bits_take_their_only_value() {
    let kept = |number, value| run(&Hart::reset(), WRITE, number, value).0;
    assert_eq!(kept(MSTATUS, u64::MAX).mstatus, 0xA_007E_19AA);
    assert_eq!(kept(MSTATUS, 0).mstatus, RESET_MSTATUS);
    assert_eq!(kept(0x302, u64::MAX).medeleg, 0xB3FF);
    assert_eq!(kept(0x303, u64::MAX).mideleg, 0x222);
    assert_eq!(kept(0x304, u64::MAX).mie, 0xAAA);
    assert_eq!(kept(0x305, u64::MAX - 2).mtvec, u64::MAX - 2);
    assert_eq!(kept(0x306, u64::MAX).mcounteren, 5);
    assert_eq!(kept(0x320, u64::MAX).mcountinhibit, 5);
    assert_eq!(kept(0x340, u64::MAX).mscratch, u64::MAX);
    assert_eq!(kept(0x341, u64::MAX).mepc, u64::MAX - 3);
    assert_eq!(kept(0x342, u64::MAX).mcause, 0x8000_0000_0000_003F);
    assert_eq!(kept(0x343, u64::MAX).mtval, u64::MAX);
    assert_eq!(kept(0x344, u64::MAX).mip, 0x222);
    assert_eq!(kept(0x105, u64::MAX - 3).stvec, u64::MAX - 3);
    assert_eq!(kept(0x106, u64::MAX).scounteren, 5);
    assert_eq!(kept(0x140, u64::MAX).sscratch, u64::MAX);
    assert_eq!(kept(0x141, u64::MAX).sepc, u64::MAX - 3);
    assert_eq!(kept(0x142, u64::MAX).scause, 0x8000_0000_0000_003F);
    assert_eq!(kept(0x143, u64::MAX).stval, u64::MAX);
    assert_eq!(kept(0xB00, u64::MAX).mcycle, u64::MAX);
    assert_eq!(kept(0xB02, u64::MAX).minstret, u64::MAX);
}

#[test]
fn a6_mpp_2_keeps_the_old_field_after_set_or_clear() {
    for (old, operation, operand, new) in [
        (0, SET, 2 << 11, 0),
        (1, SET, 2 << 11, 3),
        (3, CLEAR, 1 << 11, 3),
        (3, CLEAR, 2 << 11, 1),
        (1, WRITE, 2 << 11, 1),
        (3, WRITE, 2 << 11, 3),
        (3, WRITE, 0, 0),
    ] {
        let (hart, answer) = run(&with_mpp(old), operation, MSTATUS, operand);
        assert_eq!(hart.mstatus, RESET_MSTATUS | new << 11);
        assert_eq!(answer, Answer::Value(RESET_MSTATUS | old << 11));
    }
    let (hart, _) = run(&with_mpp(1), WRITE, MSTATUS, 2 << 11 | 0x8 | 0x2_0000);
    assert_eq!(hart.mstatus, RESET_MSTATUS | 1 << 11 | 0x8 | 0x2_0000);
}

#[test]
fn a7_tvec_with_a_reserved_mode_is_ignored_whole() {
    let given = Hart { mtvec: 0x101, stvec: 0x201, ..Hart::reset() };
    for (number, operation, operand) in [
        (0x305, SET, 0x1002),
        (0x305, WRITE, 0x8002),
        (0x305, WRITE, 0x8003),
        (0x105, SET, 0x1002),
        (0x105, WRITE, 0x8002),
    ] {
        let (hart, _) = run(&given, operation, number, operand);
        assert_eq!(hart, Hart { pc: 0x1004, ..given });
    }
    assert_eq!(run(&given, CLEAR, 0x305, 1).0.mtvec, 0x100);
    assert_eq!(run(&given, SET, 0x105, 0x1000).0.stvec, 0x1201);
}

#[test]
fn a8_sie_starts_from_what_it_shows() {
    let given = Hart { mideleg: 0x22, mie: 0xA8A, ..Hart::reset() };
    for (operation, operand, mie) in
        [(WRITE, u64::MAX, 0xAAA), (WRITE, 0, 0xA88), (SET, 0x20, 0xAAA), (CLEAR, u64::MAX, 0xA88)]
    {
        let (hart, answer) = run(&given, operation, 0x104, operand);
        assert_eq!((hart.mie, answer), (mie, Answer::Value(2)));
    }
}

#[test]
fn b8_sstatus_shows_uxl_and_no_sxl() {
    let given = Hart { mstatus: 0xA_007E_19AA, ..Hart::reset() };
    let (hart, answer) = run(&given, WRITE, 0x100, 0);
    assert_eq!(answer, Answer::Value(0x2_000C_0122));
    assert_eq!(hart.mstatus, 0xA_0072_1888);
    let (hart, answer) = run(&Hart::reset(), SET, 0x100, u64::MAX);
    assert_eq!(answer, Answer::Value(0x2_0000_0000));
    assert_eq!(hart.mstatus, 0xA_000C_0122);
}

#[test]
fn b9_the_lines_do_not_stick_in_mip() {
    let given = Hart { mip: 2, lines: 0xA88, ..Hart::reset() };
    for (operation, operand, mip) in [
        (SET, 0x20, 0x22),
        (SET, 0, 2),
        (CLEAR, 2, 0),
        (CLEAR, LINE_SEIP, 2),
        (WRITE, LINE_SEIP, LINE_SEIP),
    ] {
        let (hart, answer) = run(&given, operation, 0x344, operand);
        assert_eq!((hart.mip, hart.lines), (mip, 0xA88));
        assert_eq!(answer, Answer::Value(0xA8A));
    }
}

#[test]
fn b10_sip_writes_bit_1_alone_and_only_if_delegated() {
    for (mideleg, mip, operation, operand, new) in [
        (0x222, 0, WRITE, u64::MAX, 2),
        (0x220, 0, WRITE, u64::MAX, 0),
        (0x222, 0x222, WRITE, 0, 0x220),
        (0x220, 0x222, WRITE, 0, 0x222),
        (0x222, 0x220, SET, 2, 0x222),
        (0x222, 0x222, CLEAR, u64::MAX, 0x220),
        (0, 2, CLEAR, 2, 2),
    ] {
        for mode in [SUPERVISOR, MACHINE] {
            let given = Hart { mideleg, mip, ..in_mode(mode) };
            let (hart, answer) = run(&given, operation, 0x144, operand);
            assert_eq!((hart.mip, answer), (new, Answer::Value(mip & mideleg)));
        }
    }
    let given = Hart { mideleg: 0x200, lines: 0xA88, ..in_mode(SUPERVISOR) };
    assert_eq!(run(&given, READ, 0x144, 0).1, Answer::Value(0x200));
}

#[test]
fn counters_shown_to_unprivileged_code_are_those_of_machine() {
    let given = Hart { mcycle: 5, minstret: 6, ..Hart::reset() };
    for (number, value) in [(0xB00, 5), (0xC00, 5), (0xB02, 6), (0xC02, 6)] {
        assert_eq!(run(&given, READ, number, 0).1, Answer::Value(value));
    }
}
