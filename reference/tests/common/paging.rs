//! Page tables worked out by hand, for the tests of Sv39.
#![allow(dead_code)]

use reference::sv39::{pte, satp};
use reference::{Answer, Hart, Memory};

use super::{odd_map, run_with_memory};

pub const FETCH: u64 = 14;
pub const LOAD: u64 = 15;
pub const STORE: u64 = 16;

/// Where the tables stand; the root is the first of them.
pub const BASE: u64 = 0x8000_0000;
/// The tables of level 2, 1 and 0.
pub const ROOT: usize = 0;
pub const MIDDLE: usize = 1;
pub const LAST: usize = 2;

pub const POINTER: u64 = pte::V;
/// Rights of a page that S may use in every way.
pub const RWX: u64 = pte::V | pte::R | pte::W | pte::X | pte::A | pte::D;
pub const RWX_USER: u64 = RWX | pte::U;

/// An entry with these bits that points to a physical address.
pub fn entry(address: u64, bits: u64) -> u64 {
    assert_eq!(address % 4096, 0);
    address >> 12 << 10 | bits
}

pub fn pointer(table: usize) -> u64 {
    entry(BASE + 4096 * table as u64, POINTER)
}

/// A virtual address of a page number at each level, and an offset.
pub fn virtual_address(numbers: [u64; 3], offset: u64) -> u64 {
    let address = numbers[0] << 30 | numbers[1] << 21 | numbers[2] << 12 | offset;
    if numbers[0] < 256 { address } else { address | !0 << 39 }
}

/// Three tables with these entries, by table and number, and no others.
pub fn tables(entries: &[(usize, usize, u64)]) -> Vec<u64> {
    let mut words = vec![0; 3 * 512];
    for &(table, number, entry) in entries {
        words[512 * table + number] = entry;
    }
    words
}

/// Pointers to all tables at number 0, and one page at number 0 of the last.
pub fn one_page(entry: u64) -> Vec<u64> {
    tables(&[(ROOT, 0, pointer(MIDDLE)), (MIDDLE, 0, pointer(LAST)), (LAST, 0, entry)])
}

/// A hart whose addresses are translated from the root on, with entry 5 for all
/// memory.
pub fn translating(mode: u64) -> Hart {
    let mut hart = Hart { mode, satp: satp::SV39 << 60 | BASE >> 12, ..Hart::reset() };
    (hart.pmpcfg[5], hart.pmpaddr[5]) = (0x1F, (1 << 54) - 1);
    hart
}

/// One access, with the tables at their place. A fetch is at `address`.
pub fn access(hart: &Hart, words: &[u64], number: u64, address: u64, size: u64) -> (Hart, Answer) {
    lent(hart, Memory { words, base: BASE }, number, address, size)
}

/// The same with any memory.
pub fn lent(hart: &Hart, memory: Memory, number: u64, address: u64, size: u64) -> (Hart, Answer) {
    let pc = if number == FETCH { address } else { hart.pc };
    let given = Hart { pc, ..*hart };
    let (left, map, answer) = run_with_memory(&given, &odd_map(), memory, number, address, size);
    assert_eq!(map, odd_map());
    if let Answer::Granted { .. } | Answer::Refused(_) = answer {
        assert_eq!(left, given);
    }
    (left, answer)
}

/// The hart with one protection entry changed.
pub fn with_entry(hart: &Hart, number: usize, configuration: u8, pmpaddr: u64) -> Hart {
    let mut hart = *hart;
    (hart.pmpcfg[number], hart.pmpaddr[number]) = (configuration, pmpaddr);
    hart
}
