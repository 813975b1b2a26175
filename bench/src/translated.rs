//! The mix of translated accesses: its page tables, its steps, and where it starts.

use reference::{Hart, Map, Memory, step};

use crate::mixes::{Words, formed};

const WRITE: u64 = 1;
const MRET: u64 = 8;
const SRET: u64 = 9;
const FETCH: u64 = 14;
const LOAD: u64 = 15;
const STORE: u64 = 16;

pub const MEMORY: Memory<'static> = Memory { words: &TABLES, base: 0x8000_0000 };

/// The root, a table of level 1 and one of level 0.
static TABLES: [u64; 3 * 512] = tables();

/// V R W X U A D.
const USER_PAGE: u64 = 0xDF;

const fn tables() -> [u64; 3 * 512] {
    let mut words = [0; 3 * 512];
    // Pointers to the next tables, a page of 1 GiB and one of 2 MiB.
    words[0] = 0x8_0001 << 10 | 1;
    words[1] = 0x4_0000 << 10 | USER_PAGE;
    words[512] = 0x8_0002 << 10 | 1;
    words[513] = 0x9_0200 << 10 | USER_PAGE;
    let mut page = 0;
    while page < 512 {
        words[1024 + page] = (0x9_0000 + page as u64) << 10 | USER_PAGE;
        page += 1;
    }
    // Page 0 can only be read; page 1 is one of S.
    words[1024] = 0x9_0000 << 10 | 0x53;
    words[1025] = 0x9_0001 << 10 | 0xCF;
    words
}

/// Accesses in U; a page fault, which leads to S; accesses in S, with SUM; and SRET,
/// which leads back. All others are granted. Some go across two pages.
pub static STEPS: [Words; 1024] = steps();

const fn steps() -> [Words; 1024] {
    let mut steps = [[0; 3]; 1024];
    let mut turn = 0;
    while turn < 1024 {
        steps[turn] = access(turn as u64);
        turn += 1;
    }
    steps[511] = [STORE, 0x10, 8];
    steps[1023] = [SRET, 0, 0];
    steps
}

const fn access(turn: u64) -> Words {
    let kind = match turn % 8 {
        0 => return [FETCH, 0, 0],
        3 | 6 => STORE,
        _ => LOAD,
    };
    let page = 4096 * (2 + 37 * turn % 508);
    match turn % 64 {
        33 => [LOAD, page + 0xFFC, 8],
        7 | 23 | 39 | 55 => [LOAD, 0x20_0000 + 0x1238 * turn % 0x20_0000, 8],
        15 | 31 | 47 | 63 => [LOAD, 0x4000_0000 + 0x10_0238 * turn % 0x4000_0000, 8],
        _ => [kind, page + 8 * turn % 4096, 1 << (turn % 4)],
    }
}

/// In U, with protection entries for the tables, which can only be read, and for the
/// pages of each size.
pub fn setting() -> (Hart, Map) {
    let (mut hart, mut map) = (Hart::reset(), Map::reset());
    for words in [
        [WRITE, 0x3B0, 0x2000_07FF],
        [WRITE, 0x3B1, 0x2403_FFFF],
        [WRITE, 0x3B2, 0x240B_FFFF],
        [WRITE, 0x3B3, 0x17FF_FFFF],
        [WRITE, 0x3A0, 0x1F1F_1F19],
        [WRITE, 0x302, 0xB000],
        [WRITE, 0x105, 0x1000],
        [WRITE, 0x341, 0x2000],
        [WRITE, 0x180, 8 << 60 | 0x8_0000],
        [WRITE, 0x300, 1 << 18],
        [MRET, 0, 0],
    ] {
        step(&mut hart, &mut map, MEMORY, formed(words));
    }
    (hart, map)
}
