//! Rules easily missed about protection registers and the map a step hands
//! back, numbered as in the list of readings.

mod common;

use common::*;
use reference::{Answer, Hart};

const LOCK: u8 = 0x80;
const TOR: u8 = 1 << 3;
const NA4: u8 = 2 << 3;
const NAPOT: u8 = 3 << 3;
const PMPCFG0: u64 = 0x3A0;
const PMPCFG2: u64 = 0x3A2;
const PMPADDR0: u64 = 0x3B0;

/// A step that may change protection registers: the map must be compiled anew
/// exactly if one differs.
fn write(hart: &Hart, operation: u64, number: u64, operand: u64) -> Hart {
    let (after, map, answer) = run_with_map(hart, &odd_map(), operation, number, operand);
    assert!(matches!(answer, Answer::Value(_)));
    let same = (after.pmpcfg, after.pmpaddr) == (hart.pmpcfg, hart.pmpaddr);
    assert_eq!(map, if same { odd_map() } else { after.compile() });
    after
}

fn with_byte(entry: usize, byte: u8) -> Hart {
    let mut hart = Hart::reset();
    hart.pmpcfg[entry] = byte;
    hart
}

#[test]
fn b11_a_locked_byte_ignores_writes_and_the_others_take_them() {
    for (register, lowest) in [(PMPCFG0, 0), (PMPCFG2, 8)] {
        for entry in lowest..lowest + 8 {
            for byte in [LOCK, LOCK | NAPOT | 1] {
                let after = write(&with_byte(entry, byte), WRITE, register, u64::MAX);
                let mut expected = [0; 16];
                expected[lowest..lowest + 8].fill(0x9F);
                expected[entry] = byte;
                assert_eq!(after.pmpcfg, expected);
                assert_eq!(write(&with_byte(entry, byte), WRITE, register, 0).pmpcfg[entry], byte);
                let cleared = write(&with_byte(entry, byte), CLEAR, register, u64::MAX);
                assert_eq!(cleared.pmpcfg[entry], byte);
            }
        }
    }
}

#[test]
fn b11_locks_are_judged_before_the_write() {
    let bytes = u64::from_le_bytes([LOCK | TOR | 7; 8]);
    let after = write(&Hart::reset(), WRITE, PMPCFG0, bytes);
    assert_eq!(after.configuration_register(0), bytes);
    assert_eq!(write(&after, WRITE, PMPCFG0, 0), Hart { pc: 0x1008, ..after });
}

#[test]
fn b11_locked_addresses() {
    for entry in 0..16 {
        for byte in [LOCK, LOCK | TOR, LOCK | NA4, LOCK | NAPOT, TOR, NA4, NAPOT] {
            for written in 0..16 {
                let after = write(&with_byte(entry, byte), WRITE, PMPADDR0 + written as u64, 9);
                let locked = byte & LOCK != 0 && entry == written;
                let below = byte == LOCK | TOR && entry == written + 1;
                assert_eq!(after.pmpaddr[written], if locked || below { 0 } else { 9 });
            }
        }
    }
}

#[test]
fn b12_w_without_r_is_dropped_and_the_rest_kept() {
    for byte in 0..=255u8 {
        let after = write(&Hart::reset(), WRITE, PMPCFG2, u64::from(byte) << 56);
        let expected = if byte & 1 == 0 { byte & 0x9D } else { byte & 0x9F };
        assert_eq!(after.pmpcfg[15], expected);
    }
    let after = write(&with_byte(0, 7), CLEAR, PMPCFG0, 1);
    assert_eq!(after.pmpcfg[0], 4);
}

#[test]
fn b13_no_change_hands_the_map_back_as_given() {
    let mut given = with_byte(3, NAPOT | 1);
    given.pmpaddr[3] = 0x1FF;
    let same = given.configuration_register(0);
    for (operation, number, operand) in [
        (WRITE, PMPCFG0, same),
        (SET, PMPCFG0, 0),
        (WRITE, PMPCFG0, same | 0x6060_6060_6060_6060),
        (WRITE, PMPADDR0 + 3, 0x1FF),
        (WRITE, PMPADDR0 + 3, 0x1FF | 3 << 62),
        (CLEAR, PMPADDR0 + 3, 0),
        (READ, PMPADDR0 + 3, 0),
    ] {
        let (after, map, _) = run_with_map(&given, &odd_map(), operation, number, operand);
        assert_eq!((after, map), (Hart { pc: 0x1004, ..given }, odd_map()));
    }
    let after = write(&given, SET, PMPADDR0 + 3, u64::MAX);
    assert_eq!(after.pmpaddr[3], (1 << 54) - 1);
}
