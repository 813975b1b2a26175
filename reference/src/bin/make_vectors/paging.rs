//! Accesses that Sv39 translates, with words lent for their page tables.

use reference::csr::number::{MEPC, MSTATUS, MTVAL, PMPADDR0, PMPCFG0, SATP};
use reference::status::{MPRV, MXR, SUM};
use reference::sv39::{pte, satp};
use reference::{Memory, SUPERVISOR, USER};

use crate::steps::{ADVANCE, CLEAR, ECALL, FETCH, LOAD, MRET, READ, SET, STORE, WRITE};
use crate::vector::Vector;

/// The page of the tables. All levels share it: the root has words 0 to 7, level 1
/// words 8 to 15, level 0 the rest.
pub const TABLES: u64 = 0x8000_0000;
/// satp with the root there.
pub const ROOT: u64 = satp::SV39 << satp::MODE_SHIFT | TABLES >> 12;
const POINTER: u64 = TABLES >> 2 | pte::V;
const MARKED: u64 = pte::V | pte::A | pte::D;
const ALL_RIGHTS: u64 = MARKED | pte::R | pte::W | pte::X;

pub fn vectors() -> Vec<Vector> {
    vec![pages(), splits(), table_reads(), satp_writes(), refused()]
}

/// An entry with these bits that points to a physical address.
fn entry(address: u64, bits: u64) -> u64 {
    address >> 2 | bits
}

pub fn address(numbers: [u64; 3], offset: u64) -> u64 {
    numbers[0] << 30 | numbers[1] << 21 | numbers[2] << 12 | offset
}

/// All memory to entry 7, and the root.
fn translating() -> Vec<[u64; 3]> {
    vec![[WRITE, PMPADDR0 + 7, (1 << 54) - 1], [WRITE, PMPCFG0, 0x1F << 56], [WRITE, SATP, ROOT]]
}

/// Pages of all sizes, with all rights and marks and with some missing.
pub fn tables() -> Vec<u64> {
    let mut words = vec![POINTER; 16];
    words[1..5].copy_from_slice(&[
        entry(0xC000_0000, ALL_RIGHTS),
        entry(0xC000_0000, ALL_RIGHTS | pte::U),
        entry(0xC020_0000, ALL_RIGHTS),
        entry(0x8000_1000, pte::V),
    ]);
    words[9..14].copy_from_slice(&[
        entry(0x9020_0000, ALL_RIGHTS),
        entry(0x9020_0000, ALL_RIGHTS | pte::U),
        entry(0x9020_1000, ALL_RIGHTS),
        POINTER | pte::U,
        POINTER | 1 << 54,
    ]);
    for user in [0, pte::U] {
        let rights = [pte::R, pte::X, pte::R | pte::W, pte::W, pte::R | pte::W | pte::X];
        words.extend(rights.map(|rights| entry(0x9000_0000, MARKED | rights | user)));
        words.push(entry(0x9000_0000, ALL_RIGHTS & !pte::A | user));
        words.push(entry(0x9000_0000, ALL_RIGHTS & !pte::D | user));
    }
    words.extend([POINTER, 0, entry(0x9000_0000, ALL_RIGHTS | 1 << 63)]);
    words
}

/// The last page number of level 0 that the slice holds an entry of.
fn last_number() -> u64 {
    tables().len() as u64 - 1
}

fn with_tables(name: &str, steps: &[[u64; 3]]) -> Vector {
    Vector::of_steps(name, None, steps).with_memory(Memory { words: &tables(), base: TABLES })
}

/// One load and one store by MPRV, and one fetch in the mode itself, from M and back.
fn accesses(mode: u64, bits: u64, address: u64) -> Vec<[u64; 3]> {
    let status = bits | mode << 11;
    let mut steps = Vec::new();
    for access in [[LOAD, address, 4], [STORE, address, 4]] {
        steps.extend([[WRITE, MSTATUS, status | MPRV], access, [READ, MTVAL, 0]]);
    }
    steps.extend([[WRITE, MSTATUS, status], [WRITE, MEPC, address], [MRET, 0, 0]]);
    steps.extend([[FETCH, 0, 0], [ECALL, 0, 0]]);
    steps
}

/// Each page in S and U, with SUM and MXR each way; the number past the slice too.
fn pages() -> Vector {
    let mut steps = translating();
    let small = (16..=last_number() + 1).map(|number| address([0, 8, number], 0x120));
    let large = (8..14).map(|number| address([0, number, 16], 0x40));
    let huge = (0..6).map(|number| address([number, 8, 16], 0x80));
    let wide = [1 << 38, 1 << 63, !0 << 38, !0 << 39];
    for address in small.chain(large).chain(huge).chain(wide) {
        for (mode, bits) in [(USER, 0), (SUPERVISOR, 0), (SUPERVISOR, SUM), (SUPERVISOR, MXR)] {
            steps.extend(accesses(mode, bits, address));
        }
    }
    with_tables("paging-pages", &steps)
}

/// Loads and stores across the borders of pages in U: within a superpage, from page to
/// page, and over the end of the addresses.
fn splits() -> Vector {
    let mut steps = translating();
    let small = (16..=last_number()).map(|number| address([0, 8, number], 0xFFD));
    let large = [address([0, 10, 16], 0xFFF), address([0, 10, 511], 0xFF9)];
    let huge = [address([2, 0, 16], 0xFFE), (1 << 38) - 4, (!0 << 38) - 4, u64::MAX - 3];
    for address in small.chain(large).chain(huge) {
        for size in [1, 2, 4, 8] {
            for access in [LOAD, STORE] {
                steps.extend([[WRITE, MSTATUS, MPRV], [access, address, size], [READ, MTVAL, 0]]);
            }
        }
    }
    steps.push([WRITE, SATP, 0]);
    with_tables("paging-splits", &steps)
}

/// Protection entries over words of the tables and over the page: each in turn without
/// rights, to be read alone, or matching half of a word.
fn table_reads() -> Vector {
    let mut steps = translating();
    let page = address([0, 8, 27], 0x10);
    for word in [0, 8, 27] {
        let place = TABLES / 4 + 2 * word;
        for (pmpaddr, configuration) in [
            (place, 0x18),
            (place, 0x19),
            (place, 0x1E),
            (place, 0x1C),
            (place, 0x17),
            (place + 1, 0x17),
            (0x9000_0010 / 4, 0x11),
            (0x9000_0010 / 4, 0x14),
        ] {
            steps.push([WRITE, PMPADDR0 + 2, pmpaddr]);
            steps.push([WRITE, PMPCFG0, 0x1F << 56 | configuration << 16]);
            steps.extend(accesses(USER, 0, page));
        }
    }
    steps.push([WRITE, PMPCFG0, 0]);
    steps.extend(accesses(USER, 0, page));
    steps.push([WRITE, SATP, 0]);
    with_tables("paging-table-reads", &steps)
}

/// Every MODE by write, set and clear. The end state has a text again.
fn satp_writes() -> Vector {
    let mut steps = Vec::new();
    for mode in 0..16 {
        let value = mode << satp::MODE_SHIFT | 0xABCD << 44 | 0x1234;
        for start in [0, 0x8000_0000_0008_0001] {
            for operation in [WRITE, SET, CLEAR] {
                steps.extend([[WRITE, SATP, start], [operation, SATP, value], [READ, SATP, 0]]);
            }
        }
    }
    steps.extend([[SET, 0x100, SUM], [SET, 0x302, u64::MAX], [READ, 0x302, 0]]);
    steps.extend([[WRITE, SATP, 0], [CLEAR, MSTATUS, SUM], [WRITE, 0x302, 0x3FF]]);
    Vector::of_steps("satp-writes", None, &steps)
}

/// Words at no multiple of 8: refusal 13 at accesses, translated or not, and at no
/// other step.
fn refused() -> Vector {
    let mut steps = vec![[FETCH, 0, 0], [LOAD, 0, 3], [ADVANCE, 0x4000, 0]];
    steps.extend(translating());
    steps.extend(accesses(USER, 0, address([0, 8, 27], 0)));
    let memory = Memory { words: &[1, 2, 3], base: TABLES + 4 };
    Vector::of_steps("paging-refused", None, &steps).with_memory(memory)
}
