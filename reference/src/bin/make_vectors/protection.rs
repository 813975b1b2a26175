//! Protection registers, their locks, accesses, and the map that is left.

use reference::csr::number::{MSTATUS, PMPADDR0, PMPCFG0, PMPCFG2};
use reference::random::Random;
use reference::{Hart, MACHINE, generate};

use crate::steps::{ADVANCE, CLEAR, FETCH, LOAD, RAISE, SET, STORE, WRITE};
use crate::vector::Vector;

/// One NA4 entry after the other, readable.
const EIGHT_NA4: u64 = 0x1111_1111_1111_1111;

pub fn vectors(seed: u64) -> Vec<Vector> {
    vec![
        locks(),
        two_entries(),
        sixteen_entries(),
        extremes(),
        deciding_entries(),
        any_accesses(&mut Random::new(seed ^ 0xACCE55)),
    ]
}

/// A locked TOR entry freezes the address below it; a lock set by a write does
/// not bind that write; the other bytes of a register go on.
fn locks() -> Vector {
    let mut steps: Vec<[u64; 3]> =
        (0..16).map(|entry| [WRITE, PMPADDR0 + entry, 0x100 * (entry + 1)]).collect();
    steps.extend([
        [WRITE, PMPCFG0, 0x9B_0F_8F_0B_98_08_8F_0B],
        [WRITE, PMPCFG0, 0],
        [SET, PMPCFG0, u64::MAX],
        [CLEAR, PMPCFG0, u64::MAX],
        [WRITE, PMPCFG2, 0x02_0A_12_1A_62_7F_06_8F],
        [SET, PMPCFG2, 0x0100_0000_0000_0000],
    ]);
    for entry in 0..16 {
        steps.push([WRITE, PMPADDR0 + entry, 0x155]);
        steps.push([SET, PMPADDR0 + entry, u64::MAX]);
        steps.push([CLEAR, PMPADDR0 + entry, 0xFFF]);
        steps.push([LOAD, 0x400 * entry + 0x3FC, 8]);
        steps.push([STORE, 0x400 * entry, 1]);
    }
    Vector::of_steps("locks", None, &steps)
}

/// Setting W8.
fn two_entries() -> Vector {
    let steps = [
        [WRITE, PMPADDR0, 3],
        [WRITE, PMPADDR0 + 1, 0x1FF],
        [WRITE, PMPCFG0, 0x1910],
        [LOAD, 8, 8],
        [LOAD, 0xC, 4],
        [LOAD, 0xFF8, 8],
        [LOAD, 0xFFC, 8],
    ];
    Vector::of_steps("setting-w8", None, &steps)
}

/// Setting W9, and accesses over each border in U by MPRV.
fn sixteen_entries() -> Vector {
    let mut steps: Vec<[u64; 3]> =
        (0..16).map(|entry| [WRITE, PMPADDR0 + entry, 2 * entry + 1]).collect();
    steps.extend([[WRITE, PMPCFG0, EIGHT_NA4], [WRITE, PMPCFG2, EIGHT_NA4]]);
    for address in 0..136 {
        for size in [1, 2, 4, 8] {
            // A fault stacks MPP = M, so U is put back before each load.
            steps.extend([[WRITE, MSTATUS, 1 << 17], [LOAD, address, size]]);
        }
    }
    Vector::of_steps("setting-w9", None, &steps)
}

/// NAPOT and TOR up to the end of memory, and accesses across it.
fn extremes() -> Vector {
    let mut steps = Vec::new();
    for bits in [1, 51, 52, 53, 54] {
        for configuration in [0x08, 0x10, 0x18, 0x1F, 0x0F] {
            steps.push([WRITE, PMPADDR0, (1 << bits) - 1]);
            steps.push([WRITE, PMPCFG0, configuration]);
            for address in [0, (1 << 55) - 4, (1 << 56) - 8, (1 << 56) - 4, u64::MAX - 3] {
                steps.push([WRITE, MSTATUS, 1 << 17]);
                steps.extend([[LOAD, address, 8], [STORE, address, 4], [STORE, address, 3]]);
            }
        }
    }
    Vector::of_steps("extremes", None, &steps)
}

/// Request [5] of document 02: accesses that an entry decides whole or by a partial
/// match, that none decides and that go past memory, each followed by a raise with
/// the cause of its fault, whose trap has no entry. MPP is the mode of the accesses.
fn deciding_entries() -> Vector {
    let mut steps = vec![
        [WRITE, PMPADDR0 + 3, 3],
        [WRITE, PMPADDR0 + 7, 5],
        [WRITE, PMPADDR0 + 12, 0x1FF],
        [WRITE, PMPADDR0 + 15, (1 << 54) - 2],
        [WRITE, PMPCFG0, 0x1500_0000_9100_0000],
        [WRITE, PMPCFG2, 0x9800_001B_0000_0000],
    ];
    let end = 1 << 56;
    for mstatus in [1 << 17, 1 << 17 | 1 << 11, 1 << 17 | 3 << 11] {
        for address in [0, 5, 8, 10, 12, 14, 16, 18, 20, 0xFF8, 0xFFC, 0x1000, end - 12, end - 8]
            .into_iter()
            .chain([end - 6, end - 1, end, u64::MAX - 3])
        {
            for size in [1, 2, 4, 8] {
                steps.extend([[WRITE, MSTATUS, mstatus], [LOAD, address, size]]);
                steps.extend([[RAISE, 5, address], [WRITE, MSTATUS, mstatus]]);
                steps.extend([[STORE, address, size], [RAISE, 7, address]]);
            }
            steps.extend([[ADVANCE, address & !3, 0], [FETCH, 0, 0], [RAISE, 1, address]]);
        }
    }
    Vector::of_steps("deciding-entries", None, &steps)
}

/// Loads and stores in U around the borders of random entries.
fn any_accesses(random: &mut Random) -> Vector {
    let start = many_ranges(random);
    let map = start.compile();
    let mut steps = Vec::new();
    for _ in 0..300 {
        let kind = LOAD + random.below(2);
        let address = generate::address(random, &start, &map);
        let bits = random.pick(&[0, 1 << 17, 1 << 17 | 1 << 11]);
        steps.extend([[WRITE, MSTATUS, bits], [kind, address, generate::size(random)]]);
        steps.extend([[ADVANCE, address & !3, 0], [FETCH, 0, 0]]);
    }
    Vector::of_steps("any-accesses", Some(&start), &steps)
}

fn many_ranges(random: &mut Random) -> Hart {
    loop {
        let hart = generate::narrowed(&generate::finest(random));
        let hart = Hart { mode: MACHINE, mtvec: 0, ..hart };
        if hart.compile().count > 20 {
            return hart;
        }
    }
}
