//! Request [8] of document 02: satp, the wider registers, and what the first form of
//! a text has no room for.

mod common;

use common::*;
use reference::status::{SUM, TVM};
use reference::{
    Answer, Form, HART_WORDS, Hart, MACHINE, Mode, Refusal, SUPERVISOR, USER, restore, save,
};

const TEXT_LENGTH: usize = 1027;
const SATP: u64 = 0x180;
const SV39: u64 = 8 << 60;
const PPN: u64 = (1 << 44) - 1;
const ASID: u64 = 0xFFFF << 44;

fn with_satp(satp: u64) -> Hart {
    Hart { satp, ..Hart::reset() }
}

/// What a CSR step leaves in satp, and the old value it answers.
fn written(satp: u64, operation: u64, operand: u64) -> (u64, u64) {
    let given = with_satp(satp);
    let (left, answer) = run(&given, operation, SATP, operand);
    let Answer::Value(old) = answer else { panic!("{answer:?}") };
    assert_eq!(left, Hart { satp: left.satp, pc: 0x1004, ..given });
    (left.satp, old)
}

#[test]
fn satp_is_the_last_word_but_one_and_0_at_reset() {
    assert_eq!((HART_WORDS, Hart::reset().satp), (43, 0));
    assert_eq!(with_satp(SV39 | 5).to_words()[41], SV39 | 5);
    let (left, map, answer) = run_with_map(&with_satp(SV39 | 5), &odd_map(), 0, 0, 0);
    assert_eq!((left, map, answer), (Hart::reset(), Hart::reset().compile(), Answer::Done));
}

#[test]
fn a9_mode_0_or_8_else_the_write_is_ignored_whole() {
    for mode in 0..16 {
        let value = mode << 60 | 0x123;
        let kept = if mode == 0 || mode == 8 { value } else { SV39 | 7 };
        assert_eq!(written(SV39 | 7, WRITE, value), (kept, SV39 | 7), "MODE {mode}");
    }
}

#[test]
fn a9_mode_is_judged_after_set_and_clear() {
    assert_eq!(written(7, SET, SV39 | 8), (SV39 | 15, 7));
    assert_eq!(written(SV39 | 7, SET, 8), (SV39 | 15, SV39 | 7));
    assert_eq!(written(SV39 | 7, SET, 1 << 60 | 8), (SV39 | 7, SV39 | 7));
    assert_eq!(written(7, SET, 1 << 60 | 8), (7, 7));
    assert_eq!(written(SV39 | 7, CLEAR, u64::MAX), (0, SV39 | 7));
    assert_eq!(written(SV39 | 7, CLEAR, SV39 | 2), (5, SV39 | 7));
    assert_eq!(written(SV39 | 7, CLEAR, 7 << 60 | 1), (SV39 | 6, SV39 | 7));
    assert_eq!(written(SV39 | 7, READ, u64::MAX), (SV39 | 7, SV39 | 7));
}

#[test]
fn a9_asid_is_dropped_and_ppn_has_44_bits() {
    assert_eq!(written(0, WRITE, SV39 | ASID | PPN), (SV39 | PPN, 0));
    assert_eq!(written(0, WRITE, ASID | PPN), (PPN, 0));
    assert_eq!(written(0, SET, ASID), (0, 0));
    assert_eq!(written(PPN, SET, SV39 | ASID), (SV39 | PPN, PPN));
    for bit in 0..64 {
        let kept = if bit < 44 || bit == 63 { 1 << bit } else { 0 };
        assert_eq!(written(0, SET, 1 << bit), (kept, 0), "bit {bit}");
        assert_eq!(with_satp(1 << bit).can_hold(), kept != 0, "bit {bit}");
    }
}

#[test]
fn tvm_closes_satp_in_supervisor() {
    for operation in [WRITE, SET, CLEAR, READ] {
        for (mode, tvm, open) in [
            (USER, 0, false),
            (SUPERVISOR, 0, true),
            (SUPERVISOR, TVM, false),
            (MACHINE, TVM, true),
        ] {
            let hart = Hart { mode, ..with_satp(SV39 | 3) };
            let hart = Hart { mstatus: hart.mstatus | tvm, ..hart };
            let (left, answer) = run(&hart, operation, SATP, 0);
            assert_eq!(answer, if open { Answer::Value(SV39 | 3) } else { illegal() });
            let cleared = open && operation == WRITE;
            assert_eq!(left.satp, if cleared { 0 } else { SV39 | 3 });
        }
    }
}

#[test]
fn b27_sum_and_the_page_faults_can_be_written() {
    let hart = Hart { mode: SUPERVISOR, ..Hart::reset() };
    let (left, answer) = run(&hart, SET, 0x100, SUM);
    assert_eq!((answer, left.mstatus), (Answer::Value(2 << 32), 0xA_0004_0000));
    assert_eq!(run(&left, READ, 0x100, 0).1, Answer::Value(2 << 32 | SUM));
    assert_eq!(run(&left, CLEAR, 0x100, SUM).0.mstatus, 0xA_0000_0000);
    assert_eq!(run(&Hart::reset(), WRITE, 0x300, SUM).0.mstatus, 0xA_0004_0000);
    assert_eq!(run(&Hart::reset(), WRITE, 0x302, 0xFFFF).0.medeleg, 0xB3FF);
}

#[test]
fn raise_still_takes_causes_0_to_7() {
    for mode in [USER, SUPERVISOR, MACHINE] {
        let hart = Hart { medeleg: 0xB3FF, ..in_mode(mode) };
        for cause in 8..20 {
            assert_eq!(run(&hart, 5, cause, 0), (hart, refused(Refusal::Argument)));
        }
        let destination = if mode == MACHINE { Mode::Machine } else { Mode::Supervisor };
        assert_eq!(run(&hart, 5, 7, 0).1, trapped(7, destination));
    }
}

/// States that a hart can hold and the first form cannot.
fn without_text() -> Vec<Hart> {
    let reset = Hart::reset();
    let sum = Hart { mstatus: reset.mstatus | SUM, ..reset };
    let delegating = |medeleg| Hart { medeleg, ..reset };
    let mut harts = vec![sum, with_satp(1), with_satp(SV39), with_satp(SV39 | PPN)];
    harts.extend([1 << 12, 1 << 13, 1 << 15, 0xB3FF].map(delegating));
    harts
}

#[test]
fn b29_saving_is_refusal_12_after_3_and_6() {
    for hart in without_text() {
        assert!(hart.can_hold() && !hart.has_text(Form::First));
        for length in [0, TEXT_LENGTH - 1, TEXT_LENGTH, TEXT_LENGTH + 5] {
            let mut buffer = vec![0xEE; length];
            let refusal = if length < TEXT_LENGTH { Refusal::Buffer } else { Refusal::NoText };
            assert_eq!(save(Form::First, &hart, &mut buffer), Err(refusal));
            let damaged = Hart { lines: 1, ..hart };
            assert_eq!(save(Form::First, &damaged, &mut buffer), Err(Refusal::State));
            assert!(buffer.iter().all(|&byte| byte == 0xEE));
        }
    }
    assert_eq!(Refusal::NoText.number(), 12);
    let narrow = Hart { medeleg: 0x3FF, mstatus: 0xA_007A_19AA, ..Hart::reset() };
    assert_eq!(save(Form::First, &narrow, &mut [0; TEXT_LENGTH]), Ok(()));
}

/// B27: satp has no line there, so a text is read with satp 0; the other two are refusal 5.
#[test]
fn b27_reading_keeps_to_the_narrow_masks() {
    for hart in without_text() {
        let read = restore(Form::First, &Form::First.text(&hart.to_words()));
        if hart.satp == 0 {
            assert_eq!(read, Err(Refusal::TextState));
        } else {
            assert_eq!(read, Ok((Hart::reset(), Hart::reset().compile())));
        }
    }
}
