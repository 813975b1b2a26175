//! Every CSR number in M, the numbers of S and U in their modes, and accesses that
//! hang on TVM and on the counter enables.

use reference::csr::number::{MCOUNTEREN, MEDELEG, MEPC, MSTATUS, SATP, SCOUNTEREN, SSTATUS};
use reference::csr::present;
use reference::random::Random;
use reference::status::{SUM, TVM};
use reference::{Hart, MACHINE, SUPERVISOR, USER, generate};

use crate::steps::{CLEAR, ECALL, MRET, READ, SET, SRET, WRITE};
use crate::vector::Vector;

const ALL_ENABLED: [u64; 2] = [5, 5];

/// What gives the end state a text, in M.
const HAVE_TEXT: [[u64; 3]; 3] =
    [[WRITE, SATP, 0], [CLEAR, MSTATUS, SUM], [CLEAR, MEDELEG, 0xB000]];

pub fn vectors(seed: u64) -> Vec<Vector> {
    let mut random = Random::new(seed);
    let mut vectors: Vec<Vector> = (0..4)
        .map(|quarter| {
            let first = quarter * 0x400;
            let mut steps: Vec<[u64; 3]> =
                (first..first + 0x400).map(|number| csr_step(&mut random, number)).collect();
            steps.extend(HAVE_TEXT);
            let name = format!("csr-walk-machine-{first:03x}");
            Vector::of_steps(&name, None, &steps)
        })
        .collect();
    for (name, mode) in [("csr-walk-supervisor", SUPERVISOR), ("csr-walk-user", USER)] {
        vectors.push(unprivileged(&mut random, name, mode));
    }
    vectors.push(by_state());
    vectors
}

fn csr_step(random: &mut Random, number: u64) -> [u64; 3] {
    let step = WRITE + random.below(4);
    let operand = if step == READ { 0 } else { generate::csr_operand(random, number) };
    [step, number, operand]
}

/// Each number that is present, and the one after it, from a mode below M.
/// What is illegal goes to S, and SRET brings the hart back to its mode; in U
/// the write of sstatus before it is illegal itself and leads to S.
fn unprivileged(random: &mut Random, name: &str, mode: u64) -> Vector {
    let start = Hart {
        mode,
        mstatus: 0xA_0000_0000 | mode << 8,
        medeleg: 0x3FF,
        mideleg: 0x222,
        mcounteren: 5,
        scounteren: 4,
        mcycle: 0x1234,
        minstret: u64::MAX,
        ..Hart::reset()
    };
    let near = |&number: &u64| present(number) || number > 0 && present(number - 1);
    let back = [[SET, SSTATUS, mode << 8], [SRET, 0, 0]];
    let mut steps = Vec::new();
    for number in (0..4096).filter(near) {
        steps.push([READ, number, 0]);
        steps.extend(back);
        // sstatus is only read: a write could send SRET to another mode.
        if number != SSTATUS {
            steps.push(csr_step(random, number));
            steps.extend(back);
        }
    }
    Vector::of_steps(name, Some(&start), &steps)
}

/// satp under TVM, counters under their enables, and write attempts with operand 0
/// at numbers that can only be read, in every mode.
fn by_state() -> Vector {
    let mut steps = Vec::new();
    for mode in [USER, SUPERVISOR, MACHINE] {
        for tvm in [0, TVM] {
            for operation in [WRITE, SET, CLEAR, READ] {
                steps.extend(in_mode(mode, tvm, ALL_ENABLED, [operation, SATP, 0]));
            }
        }
        for enables in [ALL_ENABLED, [0, 5], [5, 0], [1, 5], [4, 5], [5, 1], [5, 4]] {
            for number in [0xC00, 0xC01, 0xC02, 0xC03, 0xC1F] {
                steps.extend(in_mode(mode, 0, enables, [READ, number, 0]));
            }
        }
        for number in [0xC00, 0xC02, 0xC1F, 0xF11, 0xF15] {
            for operation in [SET, CLEAR] {
                steps.extend(in_mode(mode, 0, ALL_ENABLED, [operation, number, 0]));
            }
        }
    }
    Vector::of_steps("csr-access-by-state", None, &steps)
}

/// One step in a mode, from M and back: neither an illegal instruction nor ECALL is
/// delegated.
fn in_mode(mode: u64, tvm: u64, enables: [u64; 2], step: [u64; 3]) -> [[u64; 3]; 7] {
    let [mcounteren, scounteren] = enables;
    [
        [WRITE, MCOUNTEREN, mcounteren],
        [WRITE, SCOUNTEREN, scounteren],
        [WRITE, MEPC, 0x4000],
        [WRITE, MSTATUS, tvm | mode << 11],
        [MRET, 0, 0],
        step,
        [ECALL, 0, 0],
    ]
}
