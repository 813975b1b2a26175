//! Exceptions, delegation, returns and time.

use reference::csr::number::MSTATUS;
use reference::random::Random;
use reference::{Hart, MACHINE, Map, Memory, SUPERVISOR, Step, USER, generate, step};

use crate::steps::{
    ADVANCE, CLEAR, EBREAK, ECALL, ELAPSED, FETCH, MRET, RAISE, READ, SET, SRET, STORE, WFI, WRITE,
};
use crate::vector::Vector;

pub fn vectors(seed: u64) -> Vec<Vector> {
    vec![exceptions(), environment_calls(), returns(), time(), any_steps(&mut Random::new(seed))]
}

/// From M into another mode, or M again, at 0x4000.
pub fn enter(mode: u64) -> [[u64; 3]; 4] {
    [[CLEAR, MSTATUS, 3 << 11], [SET, MSTATUS, mode << 11], [WRITE, 0x341, 0x4000], [MRET, 0, 0]]
}

/// Every cause from every mode, delegated or not. M is always reached again by
/// ECALL, whose causes 8 and 9 are not delegated.
fn exceptions() -> Vector {
    let mut steps = vec![[WRITE, 0x305, 0x8000_0001], [WRITE, 0x105, 0x9000_0001]];
    for medeleg in [0, 0xFF, 0x55] {
        for mode in [USER, SUPERVISOR, MACHINE] {
            for cause in 0..10 {
                steps.push([WRITE, 0x302, medeleg]);
                steps.extend(enter(mode));
                steps.push([RAISE, cause, 0xABCD_0000 + cause]);
                steps.extend([[EBREAK, 0, 0], [ADVANCE, 0x1_0002, 0]]);
                steps.extend([[READ, 0x7C0, 0], [ECALL, 0, 0]]);
            }
        }
    }
    Vector::of_steps("exceptions", None, &steps)
}

/// ECALL from every mode under every delegation of its causes; EBREAK, which
/// is not delegated, leads back to M.
fn environment_calls() -> Vector {
    let mut steps = vec![[WRITE, 0x305, 0x8000_0001], [WRITE, 0x105, 0x9000_0001]];
    for medeleg in [0, 0x100, 0x200, 0x300] {
        for mode in [USER, SUPERVISOR, MACHINE] {
            steps.push([WRITE, 0x302, medeleg]);
            steps.extend(enter(mode));
            steps.extend([[ECALL, 0, 0], [ECALL, 0, 0], [EBREAK, 0, 0]]);
            steps.extend([[READ, 0x342, 0], [READ, 0x142, 0]]);
        }
    }
    Vector::of_steps("environment-calls", None, &steps)
}

/// MRET, SRET and WFI in every mode under each of TW and TSR, with MPRV.
fn returns() -> Vector {
    let mut steps = Vec::new();
    for mode in [USER, SUPERVISOR, MACHINE] {
        for bits in [0, 1 << 21, 1 << 22, 0x62_0000, 0x2_01A0] {
            for back in [MRET, SRET, WFI] {
                steps.push([WRITE, MSTATUS, bits | mode << 11]);
                steps.extend([[WRITE, 0x341, 0x5000], [WRITE, 0x141, 0x6000], [MRET, 0, 0]]);
                steps.extend([[back, 0, 0], [STORE, 0x100, 8], [FETCH, 0, 0]]);
                steps.extend([[ECALL, 0, 0], [ECALL, 0, 0]]);
            }
        }
    }
    Vector::of_steps("returns", None, &steps)
}

fn time() -> Vector {
    let start = Hart { mcycle: u64::MAX, minstret: u64::MAX - 1, ..Hart::reset() };
    let steps = [
        [ELAPSED, 1, 0],
        [ELAPSED, 70_000, 3],
        [WRITE, 0x320, 1],
        [ELAPSED, 5, 5],
        [WRITE, 0x320, 4],
        [ELAPSED, 5, 5],
        [WRITE, 0x320, u64::MAX],
        [ELAPSED, 5, 5],
        [READ, 0xC00, 0],
        [READ, 0xC02, 0],
        [WRITE, 0xB00, 9],
        [SET, 0xB02, 1 << 63],
        [READ, 0xB00, 0],
        [READ, 0xB02, 0],
    ];
    Vector::of_steps("time", Some(&start), &steps)
}

/// Random steps from a random state.
fn any_steps(random: &mut Random) -> Vector {
    let start = generate::narrowed(&generate::finest(random));
    Vector::of_steps("any-steps", Some(&start), &random_steps(random, &start, 1500))
}

/// So many steps from a state; arguments not used are 0, as a trace demands.
pub fn random_steps(random: &mut Random, start: &Hart, count: usize) -> Vec<[u64; 3]> {
    let (mut hart, mut map) = (*start, Map::reset());
    (0..count)
        .map(|_| {
            let words = generate::step(random, &hart, &map);
            let next = Step::from_words(words[0], words[1], words[2]).expect("a step there is");
            step(&mut hart, &mut map, Memory::EMPTY, next);
            next.to_words()
        })
        .collect()
}
