//! Each of the 4,096 CSR numbers against lists written out by hand: presence, lowest
//! mode and read-only, and no more of the state than document 01 asks.

mod common;

use common::*;
use reference::csr::present;
use reference::status::TVM;
use reference::{Answer, Hart, MACHINE, SUPERVISOR, USER};

const NUMBERS: u64 = 4096;
const MODES: [u64; 3] = [USER, SUPERVISOR, MACHINE];
const OPERATIONS: [u64; 4] = [WRITE, SET, CLEAR, READ];

/// Written and read in M alone.
#[rustfmt::skip]
const MACHINE_NUMBERS: [u64; 92] = [
    0x300, 0x301, 0x302, 0x303, 0x304, 0x305, 0x306, 0x30A,
    0x320, 0x323, 0x324, 0x325, 0x326, 0x327, 0x328, 0x329, 0x32A, 0x32B, 0x32C, 0x32D, 0x32E, 0x32F,
    0x330, 0x331, 0x332, 0x333, 0x334, 0x335, 0x336, 0x337,
    0x338, 0x339, 0x33A, 0x33B, 0x33C, 0x33D, 0x33E, 0x33F,
    0x340, 0x341, 0x342, 0x343, 0x344,
    0x3A0, 0x3A2,
    0x3B0, 0x3B1, 0x3B2, 0x3B3, 0x3B4, 0x3B5, 0x3B6, 0x3B7,
    0x3B8, 0x3B9, 0x3BA, 0x3BB, 0x3BC, 0x3BD, 0x3BE, 0x3BF,
    0xB00, 0xB02, 0xB03, 0xB04, 0xB05, 0xB06, 0xB07,
    0xB08, 0xB09, 0xB0A, 0xB0B, 0xB0C, 0xB0D, 0xB0E, 0xB0F,
    0xB10, 0xB11, 0xB12, 0xB13, 0xB14, 0xB15, 0xB16, 0xB17,
    0xB18, 0xB19, 0xB1A, 0xB1B, 0xB1C, 0xB1D, 0xB1E, 0xB1F,
];

/// Read in M alone, and never written.
const MACHINE_READ_ONLY: [u64; 5] = [0xF11, 0xF12, 0xF13, 0xF14, 0xF15];

/// Written and read in S and M.
const SUPERVISOR_NUMBERS: [u64; 11] =
    [0x100, 0x104, 0x105, 0x106, 0x10A, 0x140, 0x141, 0x142, 0x143, 0x144, 0x180];

/// Never written; read in every mode where they are enabled.
const COUNTERS: [u64; 2] = [0xC00, 0xC02];

/// Never written; of U by their numbers, but no hart can hold the bits that would
/// enable them, so they are read in M alone.
#[rustfmt::skip]
const CLOSED_COUNTERS: [u64; 29] = [
    0xC03, 0xC04, 0xC05, 0xC06, 0xC07,
    0xC08, 0xC09, 0xC0A, 0xC0B, 0xC0C, 0xC0D, 0xC0E, 0xC0F,
    0xC10, 0xC11, 0xC12, 0xC13, 0xC14, 0xC15, 0xC16, 0xC17,
    0xC18, 0xC19, 0xC1A, 0xC1B, 0xC1C, 0xC1D, 0xC1E, 0xC1F,
];

fn sorted(lists: &[&[u64]]) -> Vec<u64> {
    let mut numbers = lists.concat();
    numbers.sort();
    numbers
}

fn writable() -> Vec<u64> {
    sorted(&[&MACHINE_NUMBERS, &SUPERVISOR_NUMBERS])
}

fn listed() -> Vec<u64> {
    sorted(&[&writable(), &MACHINE_READ_ONLY, &COUNTERS, &CLOSED_COUNTERS])
}

/// A hart in which nothing but mode and number stands in the way.
fn open(mode: u64) -> Hart {
    Hart { mcounteren: 5, scounteren: 5, ..in_mode(mode) }
}

/// The value that the access gives if it is done. Else it must be an illegal
/// instruction. Only a write of a protection register, done, may change the map.
fn value(hart: &Hart, operation: u64, number: u64, operand: u64) -> Option<u64> {
    let (_, map, answer) = run_with_map(hart, &odd_map(), operation, number, operand);
    let value = match answer {
        Answer::Value(value) => Some(value),
        _ => None,
    };
    assert!(value.is_some() || answer == illegal(), "{number:x}: {answer:?}");
    let mapped = matches!(number, 0x3A0..=0x3BF) && operation != READ && value.is_some();
    assert!(mapped || map == odd_map(), "{number:x}: {map:?}");
    value
}

fn numbers_done(hart: &Hart, operation: u64, operand: u64) -> Vec<u64> {
    (0..NUMBERS).filter(|&number| value(hart, operation, number, operand).is_some()).collect()
}

#[test]
fn present_are_the_139_numbers_listed() {
    assert_eq!(listed().len(), 139);
    assert!(listed().is_sorted_by(|one, next| one < next));
    assert_eq!((0..NUMBERS).filter(|&number| present(number)).collect::<Vec<u64>>(), listed());
}

#[test]
fn reads_are_done_at_the_numbers_listed_for_each_mode() {
    assert_eq!(numbers_done(&open(MACHINE), READ, 0), listed());
    let supervisor = sorted(&[&SUPERVISOR_NUMBERS, &COUNTERS]);
    assert_eq!(numbers_done(&open(SUPERVISOR), READ, 0), supervisor);
    assert_eq!(numbers_done(&open(USER), READ, 0), COUNTERS);
}

/// Operand 0 is a write attempt too.
#[test]
fn write_attempts_are_done_at_the_numbers_listed_for_each_mode() {
    for operation in [WRITE, SET, CLEAR] {
        for operand in [0, u64::MAX] {
            assert_eq!(numbers_done(&open(MACHINE), operation, operand), writable());
            assert_eq!(numbers_done(&open(SUPERVISOR), operation, operand), SUPERVISOR_NUMBERS);
            assert!(numbers_done(&open(USER), operation, operand).is_empty());
        }
    }
}

#[test]
fn b6_counter_enables_close_their_own_counters_below_machine_and_nothing_else() {
    for (mcounteren, scounteren) in [0, 1, 4, 5].map(|m| [0, 1, 4, 5].map(|s| (m, s))).concat() {
        for mode in MODES {
            let enabled = match mode {
                USER => mcounteren & scounteren,
                SUPERVISOR => mcounteren,
                _ => 5,
            };
            let mut reads = numbers_done(&open(mode), READ, 0);
            reads.retain(|&number| number != 0xC00 || enabled & 1 != 0);
            reads.retain(|&number| number != 0xC02 || enabled & 4 != 0);
            let hart = Hart { mcounteren, scounteren, mcycle: 7, minstret: 9, ..in_mode(mode) };
            assert_eq!(numbers_done(&hart, READ, 0), reads);
            for number in 0xC00..=0xC1F {
                let shown = match number {
                    0xC00 => 7,
                    0xC02 => 9,
                    _ => 0,
                };
                let expected = reads.contains(&number).then_some(shown);
                assert_eq!(value(&hart, READ, number, 0), expected);
            }
            let writes = numbers_done(&open(mode), SET, 0);
            assert_eq!(numbers_done(&hart, SET, 0), writes);
        }
    }
}

#[test]
fn b7_tvm_closes_satp_in_supervisor_and_nothing_else() {
    for hart in MODES.map(|mode| [in_mode(mode), open(mode)]).concat() {
        let trapping = Hart { mstatus: hart.mstatus | TVM, ..hart };
        for (operation, operand) in OPERATIONS.map(|step| [(step, 0), (step, 5)]).concat() {
            let mut otherwise = numbers_done(&hart, operation, operand);
            otherwise.retain(|&number| hart.mode != SUPERVISOR || number != 0x180);
            assert_eq!(numbers_done(&trapping, operation, operand), otherwise);
            let satp = |hart| value(hart, operation, 0x180, operand);
            assert_eq!(satp(&hart), (hart.mode != USER).then_some(0));
            assert_eq!(satp(&trapping), (hart.mode == MACHINE).then_some(0));
        }
    }
}
