//! Request [10] of document 02: replays that start from a text of the second form, or end
//! in one.

use reference::csr::number::{MEDELEG, MSTATUS, PMPADDR0, PMPCFG0, PMPCFG2, SATP, SSTATUS};
use reference::random::Random;
use reference::status::{MPRV, SUM};
use reference::{Form, Hart, Memory, SUPERVISOR, generate, make};

use crate::paging::{ROOT, TABLES, address, tables};
use crate::steps::{CLEAR, ECALL, FETCH, LOAD, READ, RESET, SET, SRET, STORE, WRITE};
use crate::traps::random_steps;
use crate::vector::{Vector, records};

pub fn vectors(seed: u64) -> Vec<Vector> {
    let mut vectors = vec![narrow(), translated(), table_reads(), reset()];
    vectors.extend([1, 4, 10].map(coarse));
    vectors.extend(ends());
    vectors.push(any_steps(&mut Random::new(seed ^ 0x2F02)));
    vectors
}

/// From a text of the second form, also where the first has room for the state.
fn from_second(name: &str, start: &Hart, steps: &[[u64; 3]]) -> Vector {
    Vector::new(name, Some(Form::Second.text(&start.to_words())), records(steps))
}

/// The first form has room for the state at both ends.
fn narrow() -> Vector {
    let start = Hart { mscratch: 0xFEED, medeleg: 0x3FF, mstatus: 0xA_007A_19AA, ..Hart::reset() };
    let steps = [[READ, 0x340, 0], [WRITE, SATP, ROOT], [SET, SSTATUS, SUM], [READ, SATP, 0]];
    let back = [[WRITE, SATP, 0], [CLEAR, MSTATUS, SUM], [READ, MSTATUS, 0]];
    from_second("second-form-narrow", &start, &[&steps[..], &back].concat())
}

/// All memory to entry 7, satp, SUM, and all that can be delegated.
fn in_supervisor(grain: u64) -> Hart {
    let mut start = Hart { mode: SUPERVISOR, satp: ROOT, medeleg: 0xB3FF, ..make(grain).0 };
    start.mstatus |= SUM;
    (start.pmpcfg[7], start.pmpaddr[7]) = (0x1F, (1 << 54) - 1);
    start
}

/// A load and a store by S, each with the cause and the value of its trap if it had one, and back.
fn accesses(address: u64) -> Vec<[u64; 3]> {
    let back = [[READ, 0x142, 0], [READ, 0x143, 0], [SET, SSTATUS, 1 << 8], [SRET, 0, 0]];
    let both = [[LOAD, address, 8], [STORE, address, 8]];
    both.into_iter().flat_map(|access| [&[access][..], &back].concat()).collect()
}

/// Pages of S and of U from satp and SUM as the text has them; page faults go to S.
fn translated() -> Vector {
    let mut steps = vec![[FETCH, 0, 0], [READ, SATP, 0], [READ, SSTATUS, 0]];
    for number in 16..34 {
        for offset in [0x120, 0xFFC] {
            steps.extend(accesses(address([0, 8, number], offset)));
        }
    }
    steps.extend([[CLEAR, SSTATUS, SUM], [LOAD, address([0, 8, 23], 0), 4]]);
    let start = in_supervisor(0);
    from_second("second-form-translated", &start, &steps)
        .with_memory(Memory { words: &tables(), base: TABLES })
}

/// Reads of the tables under a grain of 64 bytes: an entry at one word closes eight words of
/// a table, and a TOR entry that would end inside a word ends before it.
fn table_reads() -> Vector {
    let mut start = in_supervisor(4);
    (start.pmpcfg[1], start.pmpaddr[1]) = (0x18, TABLES / 4 + 2 * 27);
    (start.pmpcfg[3], start.pmpaddr[3]) = (0x0B, TABLES / 4 + 2 * 17 + 1);
    let mut steps = Vec::new();
    for number in 16..34 {
        steps.extend(accesses(address([0, 8, number], 0x10)));
        steps.extend([[ECALL, 0, 0], [SRET, 0, 0]]);
    }
    from_second("second-form-table-reads", &start, &steps)
        .with_memory(Memory { words: &tables(), base: TABLES })
}

/// Step 0 keeps the grain and no other register.
fn reset() -> Vector {
    let mut start = in_supervisor(7);
    start.pmpaddr[7] = 0x5A5;
    let steps = [[ECALL, 0, 0], [RESET, 0, 0], [WRITE, PMPADDR0, 0xFFFF], [READ, PMPADDR0, 0]];
    from_second("second-form-reset", &start, &steps)
}

/// Entries with every A but 2, some locked, with bits below the grain: what they read, what
/// set and clear make of that, A=2 by write, set and clear, and accesses at their borders.
fn coarse(grain: u64) -> Vector {
    let mut start = make(grain).0;
    for entry in 0..16 {
        start.pmpcfg[entry] = [0x00, 0x0B, 0x1F, 0x18, 0x09, 0x9B, 0x1D, 0x8F][entry % 8];
        let below = 0x5A5 * (entry as u64 + 1) % (1 << grain);
        start.pmpaddr[entry] = (entry as u64 + 1) << (grain + 2) | below;
    }
    let mut steps = at_borders(grain);
    for number in PMPADDR0..PMPADDR0 + 16 {
        steps.extend([[READ, number, 0], [SET, number, 0], [CLEAR, number, 0x11]]);
    }
    for (operation, byte) in [(WRITE, 0x13), (SET, 0x10), (CLEAR, 0x08)] {
        for number in [PMPCFG0, PMPCFG2] {
            let operand = byte * 0x0101_0101_0101_0101;
            steps.extend([[operation, number, operand], [READ, number, 0]]);
        }
    }
    steps.extend(at_borders(grain));
    from_second(&format!("second-form-grain-{grain}"), &start, &steps)
}

/// Loads by S at the grains around each entry's; a fault puts M into MPP, so S is put back.
fn at_borders(grain: u64) -> Vec<[u64; 3]> {
    let size = 4 << grain;
    (1..=16u64)
        .flat_map(|entry| [0, 1, 4].map(|grains| (4 * entry + grains) * size))
        .flat_map(|border| [border - 8, border - 4, border])
        .flat_map(|address| [[WRITE, MSTATUS, MPRV | SUPERVISOR << 11], [LOAD, address, 8]])
        .collect()
}

/// From reset to a state that the first form has no room for, for each reason but the
/// grain, which no step changes.
fn ends() -> Vec<Vector> {
    let ended = |name: &str, step| Vector::of_steps(name, None, &[[ECALL, 0, 0], step]);
    vec![
        ended("end-satp", [WRITE, SATP, ROOT]),
        ended("end-satp-bare", [WRITE, SATP, 1]),
        ended("end-sum", [SET, SSTATUS, SUM]),
        ended("end-medeleg", [SET, MEDELEG, 1 << 15]),
    ]
}

/// Random steps from a random state of a coarser grain.
fn any_steps(random: &mut Random) -> Vector {
    let start = loop {
        let hart = generate::holdable(random);
        if hart.grain > 1 && hart.satp != 0 {
            break hart;
        }
    };
    from_second("second-form-any-steps", &start, &random_steps(random, &start, 600))
}
