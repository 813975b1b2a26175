//! Prints how many steps a second the model does, the best of several runs.
//!
//! `speed [STEPS]`: the number of steps of one run.

use std::hint::black_box;
use std::time::Instant;

use reference::csr::Operation;
use reference::csr::number::{MSCRATCH, MSTATUS, PMPADDR0, SSTATUS};
use reference::sv39::{PAGE, pte, satp};
use reference::{Access, Hart, Map, Memory, Mode, SUPERVISOR, Step, query, step};

const RUNS: usize = 7;
const DEFAULT_STEPS: u64 = 2_000_000;
const READABLE_NA4: u8 = 0x11;

fn main() {
    let steps = match std::env::args().nth(1).map(|argument| argument.parse()) {
        None => DEFAULT_STEPS,
        Some(Ok(steps)) if steps > 0 => steps,
        Some(_) => {
            eprintln!("usage: speed [STEPS]");
            std::process::exit(1);
        }
    };
    println!("best of {RUNS} runs of {steps} steps each, in millions a second");
    report("CSR steps", steps, || steps_of(&csr_steps()));
    report("traps and returns", steps, || steps_of(&[Step::Ecall, Step::Mret]));
    report("PMP writes, map compiled", steps, protection_writes);
    report("byte rule, 8 bytes, 16 entries", steps, byte_rule);
    report("translated loads, 4 KiB pages", steps, translated_loads);
    report("map query, 33 ranges", steps, map_query);
}

/// Times a loop made afresh for each run; the loop does its `n`th step.
fn report<Work: FnMut(u64)>(name: &str, steps: u64, make: impl Fn() -> Work) {
    let mut best = f64::INFINITY;
    for _ in 0..RUNS {
        let mut work = make();
        let start = Instant::now();
        (0..steps).for_each(&mut work);
        best = best.min(start.elapsed().as_secs_f64());
    }
    println!("{name:32} {:8.2}", steps as f64 / best / 1e6);
}

fn steps_of(steps: &[Step]) -> impl FnMut(u64) + use<> {
    let steps = steps.to_vec();
    let (mut hart, mut map) = (Hart::reset(), Map::reset());
    let mut place = 0;
    move |_| {
        black_box(step(&mut hart, &mut map, Memory::EMPTY, black_box(steps[place])));
        place = if place + 1 == steps.len() { 0 } else { place + 1 };
    }
}

fn csr_steps() -> [Step; 4] {
    let write = |number, operation, operand| Step::CsrWrite { number, operation, operand };
    [
        write(MSCRATCH, Operation::Write, 0x1234),
        write(MSTATUS, Operation::Set, 0x8),
        write(SSTATUS, Operation::Clear, 0x2),
        Step::CsrRead { number: MSCRATCH },
    ]
}

/// Setting W9: sixteen entries of four bytes, 33 ranges.
fn sixteen_entries() -> Hart {
    let mut hart = Hart::reset();
    hart.pmpcfg = [READABLE_NA4; 16];
    hart.pmpaddr = std::array::from_fn(|entry| 2 * entry as u64 + 1);
    hart
}

/// Each step gives one entry another address, so the map is compiled anew.
fn protection_writes() -> impl FnMut(u64) {
    let mut hart = sixteen_entries();
    let mut map = hart.compile();
    move |place| {
        let number = PMPADDR0 + place % 16;
        let operand = 2 * (place % 16) + 1 + 64 * (place / 16 % 2 + 1);
        let next = Step::CsrWrite { number, operation: Operation::Write, operand };
        black_box(step(&mut hart, &mut map, Memory::EMPTY, black_box(next)));
    }
}

/// Loads of 8 bytes that no entry matches, so that every entry is asked.
fn byte_rule() -> impl FnMut(u64) {
    let mut hart = sixteen_entries();
    let mut map = hart.compile();
    move |place| {
        let next = Step::Load { address: 0x1000 + place % 64, size: 8 };
        black_box(step(&mut hart, &mut map, Memory::EMPTY, black_box(next)));
    }
}

/// Three tables, with pages of S at every number of the last, and one entry for all
/// memory.
fn translated_loads() -> impl FnMut(u64) {
    const BASE: u64 = 0x8000_0000;
    let mut words = vec![0; 3 * 512];
    words[0] = (BASE + PAGE) >> 2 | pte::V;
    words[512] = (BASE + 2 * PAGE) >> 2 | pte::V;
    words[1024..].fill(0x9000_0000 >> 2 | pte::V | pte::R | pte::A);
    let mut hart = Hart { mode: SUPERVISOR, satp: satp::SV39 << 60 | BASE >> 12, ..Hart::reset() };
    (hart.pmpcfg[0], hart.pmpaddr[0]) = (0x1F, (1 << 54) - 1);
    let mut map = hart.compile();
    move |place| {
        let next = Step::Load { address: PAGE * (place % 512) + 8 * (place % 500), size: 8 };
        let memory = Memory { words: &words, base: BASE };
        black_box(step(&mut hart, &mut map, memory, black_box(next)));
    }
}

fn map_query() -> impl FnMut(u64) {
    let hart = sixteen_entries();
    let map = hart.compile();
    move |place| {
        let address = black_box(4 * (place % 34));
        black_box(query(&hart, &map, Mode::User, Access::Load, address, 4));
    }
}
