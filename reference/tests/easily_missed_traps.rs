//! Rules easily missed about traps, returns and time, numbered as in the list
//! of readings.

mod common;

use common::*;
use reference::{Answer, Hart, MACHINE, Mode, SUPERVISOR, USER};

const BASE: u64 = 0xA_0000_0000;
const SIE: u64 = 1 << 1;
const MIE: u64 = 1 << 3;
const SPIE: u64 = 1 << 5;
const MPIE: u64 = 1 << 7;
const SPP: u64 = 1 << 8;
const MPRV: u64 = 1 << 17;
const TW: u64 = 1 << 21;
const TSR: u64 = 1 << 22;

const TAKE: u64 = 7;
const MRET: u64 = 8;
const SRET: u64 = 9;
const WFI: u64 = 10;
const ECALL: u64 = 11;
const EBREAK: u64 = 12;
const ADVANCE: u64 = 13;
const ELAPSED: u64 = 17;

fn mpp(mode: u64) -> u64 {
    mode << 11
}

fn with_status(mode: u64, bits: u64) -> Hart {
    Hart { mstatus: BASE | bits, ..in_mode(mode) }
}

#[test]
fn b17_exceptions_never_vector() {
    let given = Hart { mtvec: 0x101, stvec: 0x201, medeleg: 1 << 3, ..in_mode(USER) };
    assert_eq!(run(&given, EBREAK, 0, 0).0.pc, 0x200);
    assert_eq!(run(&given, ECALL, 0, 0).0.pc, 0x100);
}

#[test]
fn b17_interrupts_vector_in_mode_1_alone_and_wrap() {
    for (stvec, pc) in [(0x200, 0x200), (0x201, 0x224), (u64::MAX - 2, 0x20)] {
        let pending = Hart { mideleg: 0x200, mie: 0x200, lines: 0x200, ..in_mode(USER) };
        let (hart, answer) = run(&Hart { stvec, stval: 7, ..pending }, TAKE, 0, 0);
        assert_eq!(answer, Answer::Decision(true));
        let found = (hart.pc, hart.mode, hart.scause, hart.stval, hart.sepc);
        assert_eq!(found, (pc, SUPERVISOR, 1 << 63 | 9, 0, 0x1000));
    }
}

#[test]
fn b17_pc_wraps() {
    let given = Hart { pc: u64::MAX - 3, ..Hart::reset() };
    assert_eq!(run(&given, READ, 0x340, 0).0.pc, 0);
    assert_eq!(run(&given, WRITE, 0x340, 0).0.pc, 0);
    assert_eq!(run(&given, WFI, 0, 0).0.pc, 0);
}

#[test]
fn b18_mprv() {
    let after = |hart: &Hart, number| run(hart, number, 0, 0).0.mstatus & MPRV;
    for mode in [USER, SUPERVISOR, MACHINE] {
        let given = Hart { medeleg: 0x3FF, ..with_status(mode, MPRV) };
        assert_eq!(after(&given, ECALL), MPRV);
        assert_eq!(after(&given, EBREAK), MPRV);
        let given = Hart { mie: 0x80, lines: 0x80, ..with_status(mode, MPRV | MIE) };
        assert_eq!(after(&given, TAKE), MPRV);
    }
    for (target, kept) in [(USER, 0), (SUPERVISOR, 0), (MACHINE, MPRV)] {
        assert_eq!(after(&with_status(MACHINE, MPRV | mpp(target)), MRET), kept);
    }
    for mode in [SUPERVISOR, MACHINE] {
        for target in [0, SPP] {
            assert_eq!(after(&with_status(mode, MPRV | target), SRET), 0);
        }
    }
}

#[test]
fn mret_and_sret_restore_the_stack_of_enables() {
    for enabled in [0, MPIE] {
        let given = Hart { mepc: 0x88, ..with_status(MACHINE, enabled | MIE | SIE | mpp(3)) };
        let (hart, answer) = run(&given, MRET, 0, 0);
        let mstatus = BASE | SIE | MPIE | enabled >> 4;
        assert_eq!((hart, answer), (Hart { mstatus, pc: 0x88, ..given }, Answer::Done));
    }
    for (mode, target) in [(SUPERVISOR, SPP), (MACHINE, SPP), (SUPERVISOR, 0), (MACHINE, 0)] {
        for enabled in [0, SPIE] {
            let given = Hart { sepc: 0x88, ..with_status(mode, enabled | MIE | SIE | target) };
            let (hart, answer) = run(&given, SRET, 0, 0);
            let mstatus = BASE | MIE | SPIE | enabled >> 4;
            let expected = Hart { mstatus, pc: 0x88, mode: target >> 8, ..given };
            assert_eq!((hart, answer), (expected, Answer::Done));
        }
    }
}

#[test]
fn b19_who_may_return_and_wait() {
    for (number, mode, bits, legal) in [
        (MRET, USER, 0, false),
        (MRET, SUPERVISOR, 0, false),
        (MRET, MACHINE, TSR, true),
        (SRET, USER, 0, false),
        (SRET, SUPERVISOR, 0, true),
        (SRET, SUPERVISOR, TSR, false),
        (SRET, MACHINE, TSR, true),
        (WFI, USER, 0, false),
        (WFI, SUPERVISOR, 0, true),
        (WFI, SUPERVISOR, TW, false),
        (WFI, MACHINE, TW, true),
    ] {
        let given = with_status(mode, bits);
        let (hart, answer) = run(&given, number, 0, 0);
        if legal {
            assert!(matches!(answer, Answer::Done | Answer::Decision(false)));
        } else {
            assert_eq!((hart, answer), (after_exception_to_machine(&given, 2, 0), illegal()));
        }
    }
}

#[test]
fn b20_ecall() {
    for (mode, medeleg, code, destination) in [
        (USER, 0, 8, Mode::Machine),
        (USER, 0x100, 8, Mode::Supervisor),
        (SUPERVISOR, 0x100, 9, Mode::Machine),
        (SUPERVISOR, 0x200, 9, Mode::Supervisor),
        (MACHINE, 0x3FF, 11, Mode::Machine),
    ] {
        let given = Hart { medeleg, mtval: 5, stval: 5, ..with_status(mode, MIE | SIE) };
        let (hart, answer) = run(&given, ECALL, 0, 0);
        assert_eq!(answer, trapped(code, destination));
        if destination == Mode::Machine {
            assert_eq!(hart, after_exception_to_machine(&given, code, 0));
        } else {
            let mstatus = BASE | MIE | SPIE | mode << 8;
            let expected =
                Hart { mode: 1, pc: 0, sepc: 0x1000, scause: code, stval: 0, mstatus, ..given };
            assert_eq!(hart, expected);
        }
    }
}

#[test]
fn b21_what_is_takeable() {
    for (code, delegated, mode, bits, yes) in [
        (7, false, USER, 0, true),
        (7, false, SUPERVISOR, 0, true),
        (7, false, MACHINE, 0, false),
        (7, false, MACHINE, SIE, false),
        (7, false, MACHINE, MIE, true),
        (9, false, MACHINE, MIE, true),
        (9, true, MACHINE, MIE | SIE, false),
        (9, true, SUPERVISOR, MIE, false),
        (9, true, SUPERVISOR, SIE, true),
        (9, true, USER, 0, true),
    ] {
        let bit = 1 << code;
        let mideleg = if delegated { bit } else { 0 };
        let given = Hart { mideleg, mie: bit, lines: bit, ..with_status(mode, bits) };
        let (hart, answer) = run(&given, TAKE, 0, 0);
        assert_eq!(answer, Answer::Decision(yes));
        assert_eq!(hart == given, !yes);
    }
}

#[test]
fn b21_the_order_without_delegation() {
    let mut given = Hart { mie: 0xAAA, mip: 0x222, lines: 0xA88, ..in_mode(USER) };
    for code in [11, 3, 7, 9, 1, 5] {
        let (hart, answer) = run(&given, TAKE, 0, 0);
        assert_eq!((answer, hart.mcause), (Answer::Decision(true), 1 << 63 | code));
        given.mie &= !(1 << code);
    }
    assert_eq!(run(&given, TAKE, 0, 0), (given, Answer::Decision(false)));
}

#[test]
fn b21_one_that_is_not_takeable_is_passed_over() {
    let given = Hart { mie: 0xA, mip: 2, lines: 8, mideleg: 2, ..with_status(SUPERVISOR, SIE) };
    assert_eq!(run(&given, TAKE, 0, 0).0.mcause, 1 << 63 | 3);
    let given = Hart { lines: 0, ..given };
    assert_eq!(run(&given, TAKE, 0, 0).0.scause, 1 << 63 | 1);
    let given = Hart { mideleg: 0x200, mie: 0x202, mip: 0x202, ..with_status(SUPERVISOR, 0) };
    assert_eq!(run(&given, TAKE, 0, 0).0.mcause, 1 << 63 | 1);
}

#[test]
fn b22_wfi_asks_pending_and_enabled_alone() {
    for (mideleg, mie, lines, yes) in
        [(0x222, 0x200, 0x200, true), (0, 0x200, 0x200, true), (0, 0x200, 0x80, false)]
    {
        for mode in [SUPERVISOR, MACHINE] {
            let given = Hart { mideleg, mie, lines, ..in_mode(mode) };
            let expected = Hart { pc: 0x1004, ..given };
            assert_eq!(run(&given, WFI, 0, 0), (expected, Answer::Decision(yes)));
        }
    }
}

#[test]
fn b23_advance() {
    for mode in [USER, SUPERVISOR, MACHINE] {
        let given = in_mode(mode);
        for target in [0, 4, u64::MAX - 3] {
            let expected = Hart { pc: target, ..given };
            assert_eq!(run(&given, ADVANCE, target, 9), (expected, Answer::Done));
        }
        for target in [1, 2, 0x8003, u64::MAX] {
            let (hart, answer) = run(&given, ADVANCE, target, 0);
            assert_eq!(answer, trapped(0, Mode::Machine));
            assert_eq!(hart, after_exception_to_machine(&given, 0, target));
        }
    }
}

#[test]
fn b24_elapsed_and_its_inhibits() {
    for (mcountinhibit, cycles, retired) in [(0, 10, 20), (1, 0, 20), (4, 10, 0), (5, 0, 0)] {
        let given = Hart { mcountinhibit, mcycle: 1, minstret: u64::MAX, ..in_mode(USER) };
        let mcycle = 1 + cycles;
        let minstret = u64::MAX.wrapping_add(retired);
        let expected = Hart { mcycle, minstret, ..given };
        assert_eq!(run(&given, ELAPSED, 10, 20), (expected, Answer::Done));
    }
}

#[test]
fn raise_takes_causes_0_to_7() {
    for code in 0..=7 {
        let given = in_mode(SUPERVISOR);
        let (hart, answer) = run(&given, 5, code, 0xABCD);
        assert_eq!(answer, trapped(code, Mode::Machine));
        assert_eq!(hart, after_exception_to_machine(&given, code, 0xABCD));
    }
}

#[test]
fn lines_are_replaced_whole_and_pc_stays() {
    let given = Hart { lines: 0x88, ..in_mode(USER) };
    let expected = Hart { lines: 0xA00, ..given };
    assert_eq!(run(&given, 6, 0xA00, 5), (expected, Answer::Done));
}
