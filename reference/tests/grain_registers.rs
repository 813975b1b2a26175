//! Request [9] of document 02 and source document 002: what the protection registers
//! show and take with a coarser grain, worked out by hand.

mod common;

use common::*;
use reference::protection::{NAPOT, OFF, TOR};
use reference::{
    Access, Answer, Form, Hart, Map, Mode, Refusal, Verdict, make, query, restore, save,
};

const TEXT_LENGTH: usize = 1027;
const PMPCFG0: u64 = 0x3A0;
const PMPADDR0: u64 = 0x3B0;
const ALL_ONES: u64 = (1 << 54) - 1;

/// The old value that a CSR step answers, and what it leaves.
fn csr(hart: &Hart, operation: u64, number: u64, operand: u64) -> (u64, Hart) {
    let (left, _, answer) = run_with_map(hart, &odd_map(), operation, number, operand);
    let Answer::Value(old) = answer else { panic!("{answer:?}") };
    (old, left)
}

fn read(hart: &Hart, entry: u64) -> u64 {
    csr(hart, READ, PMPADDR0 + entry, 0).0
}

#[test]
fn what_pmpaddr_reads_under_each_a() {
    for (grain, stored, off_or_tor, napot) in [
        (0, 0x5A5, 0x5A5, 0x5A5),
        (0, ALL_ONES, ALL_ONES, ALL_ONES),
        (1, 0x5A5, 0x5A4, 0x5A5),
        (1, 0x5A6, 0x5A6, 0x5A6),
        (1, ALL_ONES, ALL_ONES - 1, ALL_ONES),
        (1, 0, 0, 0),
        (2, 0x5A5, 0x5A4, 0x5A5),
        (2, 0x5A6, 0x5A4, 0x5A7),
        (2, ALL_ONES, ALL_ONES - 3, ALL_ONES),
        (2, 0, 0, 1),
        (3, 0x5A6, 0x5A0, 0x5A7),
        (10, 0x5A5, 0x400, 0x5FF),
        (10, 0x3FF, 0, 0x3FF),
        (10, 0x200, 0, 0x3FF),
        (10, ALL_ONES, ALL_ONES - 0x3FF, ALL_ONES),
        (10, 0, 0, 0x1FF),
    ] {
        for (matching, expected) in [(OFF, off_or_tor), (TOR, off_or_tor), (NAPOT, napot)] {
            for entry in [0, 7, 15] {
                let mut hart = make(grain).0;
                (hart.pmpcfg[entry], hart.pmpaddr[entry]) = (matching << 3 | 7, stored);
                let told = format!("G {grain}, A {matching}, stored {stored:x}");
                assert_eq!(read(&hart, entry as u64), expected, "{told}");
                assert_eq!(csr(&hart, WRITE, PMPADDR0 + entry as u64, 9).0, expected, "{told}");
            }
        }
    }
}

/// The last sentence of 002: here bit 2, that is G-1, is kept.
#[test]
fn the_stored_value_is_kept_over_changes_of_a() {
    let mut hart = hart_with(3, &[(0x1F, 0)]);
    hart = csr(&hart, WRITE, PMPADDR0, 0x1F4).1;
    assert_eq!((read(&hart, 0), hart.pmpaddr[0]), (0x1F7, 0x1F4));
    for (byte, shown) in [(0, 0x1F0), (0x18, 0x1F7), (0x08, 0x1F0), (0x0F, 0x1F0), (0x1F, 0x1F7)] {
        hart = csr(&hart, WRITE, PMPCFG0, byte).1;
        assert_eq!((read(&hart, 0), hart.pmpaddr[0]), (shown, 0x1F4), "byte {byte:x}");
    }
}

/// Software may write zero to pmp0cfg and all ones to pmpaddr0: G is the index of the
/// lowest bit set in what it reads back.
#[test]
fn software_finds_the_grain_as_002_says() {
    for grain in 0..=10 {
        let hart = hart_with(grain, &[(0x1F, 0x123)]);
        let hart = csr(&hart, WRITE, PMPCFG0, 0).1;
        let hart = csr(&hart, WRITE, PMPADDR0, u64::MAX).1;
        assert_eq!(hart.pmpaddr[0], ALL_ONES);
        assert_eq!(u64::from(read(&hart, 0).trailing_zeros()), grain);
    }
}

#[test]
fn a_write_stores_all_54_bits_whatever_a_is() {
    for grain in [1, 2, 10] {
        for byte in [0, 0x08, 0x18] {
            for value in [0, 1, 0x5A5, 0x3FF, ALL_ONES, u64::MAX] {
                let hart = hart_with(grain, &[(byte, 0xABC)]);
                let left = csr(&hart, WRITE, PMPADDR0, value).1;
                assert_eq!(left.pmpaddr[0], value & ALL_ONES);
            }
        }
    }
}

#[test]
fn set_and_clear_start_from_what_is_read() {
    for (grain, byte, stored, operation, operand, left) in [
        (2, 0x08, 7, SET, 0, 4),
        (2, 0x08, 7, CLEAR, 0, 4),
        (2, 0x00, 7, SET, 8, 0xC),
        (2, 0x00, 7, SET, 1, 5),
        (2, 0x18, 4, SET, 0, 5),
        (2, 0x18, 4, CLEAR, 0, 5),
        (2, 0x18, 4, CLEAR, 1, 4),
        (2, 0x18, 7, CLEAR, 4, 3),
        (1, 0x18, 6, SET, 0, 6),
        (1, 0x08, 7, CLEAR, 0, 6),
        (10, 0x00, 0x7FF, CLEAR, 0x400, 0),
        (10, 0x18, 0x400, SET, 0x800, 0xDFF),
        (10, 0x18, 0x400, CLEAR, 0x1FE, 0x401),
    ] {
        let hart = hart_with(grain, &[(byte, stored)]);
        let (_, found) = csr(&hart, operation, PMPADDR0, operand);
        assert_eq!(found.pmpaddr[0], left, "G {grain}, byte {byte:x}, stored {stored:x}");
    }
}

/// A10: the map is made anew exactly if a register differs as it is stored.
#[test]
fn operand_0_can_change_stored_bits_and_then_makes_the_map_anew() {
    for (byte, stored, left) in [(0x08, 7, 4), (0x00, 7, 4), (0x18, 4, 5), (0x18, 2, 3)] {
        for operation in [SET, CLEAR] {
            let hart = hart_with(2, &[(byte, stored)]);
            let (found, map, _) = run_with_map(&hart, &odd_map(), operation, PMPADDR0, 0);
            assert_eq!((found.pmpaddr[0], map), (left, found.compile()));
            assert_eq!(found.compile(), hart.compile());
            let (again, map, _) = run_with_map(&found, &odd_map(), operation, PMPADDR0, 0);
            assert_eq!((again.pmpaddr[0], map), (left, odd_map()));
        }
        let hart = hart_with(2, &[(byte, stored)]);
        let (found, map, _) = run_with_map(&hart, &odd_map(), WRITE, PMPADDR0, stored);
        assert_eq!((found.pmpaddr[0], map), (stored, odd_map()));
        let (_, map, _) = run_with_map(&hart, &odd_map(), WRITE, PMPADDR0, stored ^ 1);
        assert_ne!(map, odd_map());
    }
}

/// A locked entry, or one below a locked TOR entry, keeps its low bits too.
#[test]
fn locks_keep_the_stored_bits() {
    for entries in [[(0x88, 7), (0, 0)], [(0x08, 7), (0x88, 9)]] {
        for operation in [WRITE, SET, CLEAR] {
            let hart = hart_with(2, &entries);
            let (left, answer) = run(&hart, operation, PMPADDR0, 0);
            assert_eq!((left.pmpaddr, answer), (hart.pmpaddr, Answer::Value(4)));
        }
    }
}

/// Bytes of pmpcfg0, the lowest entry's first.
fn bytes(hart: &Hart) -> [u8; 8] {
    std::array::from_fn(|entry| hart.pmpcfg[entry])
}

fn with_bytes(grain: u64, bytes: [u8; 8]) -> Hart {
    hart_with(grain, &bytes.map(|byte| (byte, 0)))
}

/// Each byte for itself: A=2 leaves its whole byte, L, R, W and X too; a locked one
/// is left anyway; the others are taken, W only with R.
#[test]
fn a_write_of_na4_leaves_that_byte_alone() {
    let old = [0x00, 0x0B, 0x1F, 0x99, 0x08, 0x01, 0x18, 0x1D];
    let written = [0x17, 0x11, 0x0F, 0x10, 0x97, 0x1B, 0x06, 0x72];
    let taken = [0x00, 0x0B, 0x0F, 0x99, 0x08, 0x1B, 0x04, 0x1D];
    for grain in 1..=10 {
        let (_, left) = csr(&with_bytes(grain, old), WRITE, PMPCFG0, u64::from_le_bytes(written));
        assert_eq!(bytes(&left), taken);
        assert!(left.can_hold());
    }
    let (_, left) = csr(&with_bytes(0, old), WRITE, PMPCFG0, u64::from_le_bytes(written));
    assert_eq!(bytes(&left), [0x17, 0x11, 0x0F, 0x99, 0x97, 0x1B, 0x04, 0x10]);
}

#[test]
fn na4_is_judged_after_set_and_clear() {
    for (operation, old, operand, left) in [
        (SET, 0x08, 0x10, 0x18),
        (SET, 0x00, 0x10, 0x00),
        (SET, 0x00, 0x97, 0x00),
        (SET, 0x01, 0x18, 0x19),
        (SET, 0x19, 0x10, 0x19),
        (SET, 0x19, 0x12, 0x1B),
        (SET, 0x88, 0x10, 0x88),
        (CLEAR, 0x1F, 0x08, 0x1F),
        (CLEAR, 0x1F, 0x0C, 0x1F),
        (CLEAR, 0x1F, 0x10, 0x0F),
        (CLEAR, 0x1F, 0x18, 0x07),
        (CLEAR, 0x1F, 0x01, 0x1C),
        (CLEAR, 0x9F, 0x10, 0x9F),
    ] {
        for grain in [1, 10] {
            for place in 0..8 {
                let mut old_bytes = [0x0F; 8];
                old_bytes[place] = old;
                let hart = with_bytes(grain, old_bytes);
                let (_, found) = csr(&hart, operation, PMPCFG0, operand << (8 * place));
                old_bytes[place] = left;
                assert_eq!(bytes(&found), old_bytes, "step {operation}, {old:x}, {operand:x}");
            }
        }
    }
}

#[test]
fn a_write_of_na4_alone_keeps_the_map_as_given() {
    let hart = with_bytes(4, [0; 8]);
    let (left, answer) = run(&hart, WRITE, PMPCFG0, 0x1717_1717_1717_1717);
    assert_eq!((left.pmpcfg, answer), (hart.pmpcfg, Answer::Value(0)));
    assert_eq!(left.pc, 0x1004);
}

#[test]
fn making_a_hart_takes_a_grain_up_to_10() {
    for grain in (0..100).chain([256 + 3, 1 << 32 | 2, 1 << 63, u64::MAX]) {
        let kept = if grain <= 10 { grain } else { 0 };
        assert_eq!(make(grain), (Hart { grain: kept, ..Hart::reset() }, Map::reset()));
    }
}

#[test]
fn step_0_keeps_the_grain_and_turns_one_above_10_into_0() {
    for grain in (0..100).chain([256 + 3, 1 << 32 | 2, 1 << 63, u64::MAX]) {
        let given = Hart { grain, mode: 2, pmpcfg: [0x12; 16], satp: 7, ..Hart::reset() };
        let (left, map, answer) = run_with_map(&given, &odd_map(), 0, 5, 6);
        assert_eq!((left, map), make(grain));
        assert_eq!(answer, Answer::Done);
    }
}

#[test]
fn no_other_step_changes_the_grain_or_takes_a_state_that_cannot_be_held() {
    let na4 = hart_with(1, &[(0x10, 0)]);
    let too_coarse = Hart { grain: 11, ..Hart::reset() };
    for number in 1..=17 {
        for grain in 0..=10 {
            let (left, _, _) = run_with_map(&make(grain).0, &odd_map(), number, 0x3A0, 0x1F);
            assert_eq!(left.grain, grain, "step {number}");
        }
        for hart in [na4, too_coarse, Hart { grain: u64::MAX, ..na4 }] {
            assert_eq!(run(&hart, number, 0x3A0, 0), (hart, refused(Refusal::State)));
        }
    }
    for hart in [na4, too_coarse] {
        let verdict = query(&hart, &Map::reset(), Mode::Machine, Access::Load, 0, 8);
        assert_eq!(verdict, Verdict::Refused(Refusal::State));
    }
}

#[test]
fn saving_is_refusal_12_with_a_grain_after_3_and_6() {
    for grain in 1..=10 {
        let hart = make(grain).0;
        for length in [TEXT_LENGTH - 1, TEXT_LENGTH, TEXT_LENGTH + 1] {
            let mut buffer = vec![0xEE; length];
            let refusal = if length < TEXT_LENGTH { Refusal::Buffer } else { Refusal::NoText };
            assert_eq!(save(Form::First, &hart, &mut buffer), Err(refusal));
            for damaged in [Hart { grain: 11, ..hart }, hart_with(grain, &[(0x10, 0)])] {
                assert_eq!(save(Form::First, &damaged, &mut buffer), Err(Refusal::State));
            }
            assert!(buffer.iter().all(|&byte| byte == 0xEE));
        }
    }
    assert_eq!(save(Form::First, &make(11).0, &mut [0; TEXT_LENGTH]), Ok(()));
}

/// The first form has no line for the grain.
#[test]
fn a_text_of_the_first_form_is_read_with_a_grain_of_0() {
    let hart = hart_with(5, &[(0x1F, 0x5A5)]);
    let finest = Hart { grain: 0, ..hart };
    assert_eq!(
        restore(Form::First, &Form::First.text(&hart.to_words())),
        Ok((finest, finest.compile()))
    );
}
