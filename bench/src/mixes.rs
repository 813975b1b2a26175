//! The mixes of steps: those of the Rattle program `step_speed`, in its order.

use reference::csr::present;
use reference::{Hart, Map, Memory, Step, step};

use crate::translated;

pub type Words = [u64; 3];

pub struct Mix {
    pub name: &'static str,
    /// The mix's number as an argument of `step_speed`.
    pub number: u64,
    /// How many steps are timed at once, a multiple of a batch.
    pub count: u64,
    /// Steps to be done over and over. Their number divides a batch, or is a
    /// multiple of it.
    pub steps: &'static [Words],
    /// How the plain Rust programs judge CSR accesses.
    pub judgement: Judgement,
    /// What is lent for page tables.
    pub memory: Memory<'static>,
    /// The hart and map from which it starts.
    pub start: fn() -> (Hart, Map),
}

#[derive(Clone, Copy)]
pub enum Judgement {
    /// By the rule, as the reference does.
    Rule,
    /// By a table of all numbers, as request [11] of document 02 asks.
    Table,
}

pub static MIXES: [Mix; 6] = [
    by_rule("CSR steps", 1, 512_000, &CSR),
    by_rule("traps and returns", 2, 512_000, &TRAPS),
    by_rule("accesses, on the registers", 3, 204_800, &ACCESSES),
    by_rule("PMP writes, map compiled", 4, 51_200, &PROTECTION),
    Mix {
        name: "CSR steps, present and absent",
        number: 5,
        count: 1_024_000,
        steps: &ANY_NUMBER,
        judgement: Judgement::Table,
        memory: Memory::EMPTY,
        start: setting,
    },
    Mix {
        name: "translated accesses",
        number: 6,
        count: 204_800,
        steps: &translated::STEPS,
        judgement: Judgement::Rule,
        memory: translated::MEMORY,
        start: translated::setting,
    },
];

const fn by_rule(name: &'static str, number: u64, count: u64, steps: &'static [Words; 16]) -> Mix {
    let (memory, start) = (Memory::EMPTY, setting as fn() -> (Hart, Map));
    Mix { name, number, count, steps, judgement: Judgement::Rule, memory, start }
}

const WRITE: u64 = 1;
const SET: u64 = 2;
const CLEAR: u64 = 3;
const READ: u64 = 4;
const RAISE: u64 = 5;
const LINES: u64 = 6;
const TAKE_INTERRUPT: u64 = 7;
const MRET: u64 = 8;
const SRET: u64 = 9;
const WFI: u64 = 10;
const ECALL: u64 = 11;
const EBREAK: u64 = 12;
const ADVANCE: u64 = 13;
const FETCH: u64 = 14;
const LOAD: u64 = 15;
const STORE: u64 = 16;

/// Reads, writes, sets and clears, all of them done.
const CSR: [Words; 16] = [
    [WRITE, 0x340, 0x0123_4567_89AB_CDEF],
    [SET, 0x300, 0x8],
    [READ, 0xB00, 0],
    [CLEAR, 0x300, 0x8],
    [WRITE, 0x305, 0x8000_0001],
    [READ, 0xF14, 0],
    [SET, 0x304, 0x888],
    [READ, 0x344, 0],
    [WRITE, 0x341, 0x8000_0FFF],
    [CLEAR, 0x304, 0x88],
    [READ, 0x100, 0],
    [WRITE, 0x140, 0xFEDC_BA98_7654_3210],
    [SET, 0x302, 0x5],
    [READ, 0x3B3, 0],
    [WRITE, 0x143, 0x42],
    [READ, 0xC02, 0],
];

/// Numbers with and without a register, in turn and scattered: the second of each
/// pair goes over all 4,096 numbers. With a G of 0, operand 0 changes no protection
/// register, so no map is compiled.
static ANY_NUMBER: [Words; 2 * 4096] = any_number();
/// How many numbers have a register.
const REGISTERS: usize = 139;

const fn any_number() -> [Words; 2 * 4096] {
    let present = present_numbers();
    let mut steps = [[0; 3]; 2 * 4096];
    let mut turn = 0;
    while turn < 4096 {
        let scattered = turn * (turn + 1) / 2 % 4096;
        let operation = [READ, SET, CLEAR][turn % 3];
        steps[2 * turn] = [operation, present[scattered % REGISTERS], 0];
        steps[2 * turn + 1] = [operation, scattered as u64, 0];
        turn += 1;
    }
    steps
}

/// In rising order.
const fn present_numbers() -> [u64; REGISTERS] {
    let mut numbers = [0; REGISTERS];
    let mut found = 0;
    let mut number = 0;
    while number < 4096 {
        if present(number) {
            numbers[found] = number;
            found += 1;
        }
        number += 1;
    }
    assert!(found == REGISTERS);
    numbers
}

/// From mode M with MPP=U and back to it.
const TRAPS: [Words; 16] = [
    [MRET, 0, 0],
    [ECALL, 0, 0],
    [SRET, 0, 0],
    [EBREAK, 0, 0],
    [MRET, 0, 0],
    [RAISE, 5, 0x1234],
    [LINES, 0x80, 0],
    [MRET, 0, 0],
    [TAKE_INTERRUPT, 0, 0],
    [LINES, 0, 0],
    [MRET, 0, 0],
    [TAKE_INTERRUPT, 0, 0],
    [MRET, 0, 0],
    [WFI, 0, 0],
    [ADVANCE, 0x1002, 0],
    [MRET, 0, 0],
];

/// Two of them fault: an entry matches some of the bytes only, and some lie
/// past the end of memory.
const ACCESSES: [Words; 16] = [
    [FETCH, 0, 0],
    [LOAD, 0xC, 4],
    [LOAD, 0x7C, 2],
    [STORE, 0x24, 4],
    [LOAD, 0x1000, 8],
    [STORE, 0x2000, 8],
    [LOAD, 0x8, 8],
    [FETCH, 0, 0],
    [LOAD, 0x1003, 1],
    [STORE, 0x44, 2],
    [LOAD, 0x3C, 4],
    [STORE, 0x55, 1],
    [LOAD, 0xFF_FFFF_FFFF_FFF8, 8],
    [STORE, 0xFF_FFFF_FFFF_FFFC, 8],
    [FETCH, 0, 0],
    [LOAD, 0x64, 4],
];

/// Each of them changes a register.
const PROTECTION: [Words; 16] = [
    [WRITE, 0x3B0, 0x41],
    [WRITE, 0x3B2, 0x1FF],
    [WRITE, 0x3B4, 0x49],
    [WRITE, 0x3B6, 0x4D],
    [WRITE, 0x3B8, 0x51],
    [WRITE, 0x3BA, 0x55],
    [WRITE, 0x3BC, 0x59],
    [WRITE, 0x3A0, 0x1111_111B_1109_1119],
    [WRITE, 0x3B0, 1],
    [WRITE, 0x3B2, 5],
    [WRITE, 0x3B4, 9],
    [WRITE, 0x3B6, 13],
    [WRITE, 0x3B8, 17],
    [WRITE, 0x3BA, 21],
    [WRITE, 0x3BC, 25],
    [WRITE, 0x3A0, 0x1111_1111_1111_1111],
];

/// The hart and map from which all mixes but the last start: a G of 0, sixteen entries of
/// four readable bytes each (33 ranges), and traps and interrupts for both levels.
pub fn setting() -> (Hart, Map) {
    let (mut hart, mut map) = (Hart::reset(), Map::reset());
    let addresses = (0..16).map(|entry| [WRITE, 0x3B0 + entry, 2 * entry + 1]);
    let others = [
        [WRITE, 0x3A0, 0x1111_1111_1111_1111],
        [WRITE, 0x3A2, 0x1111_1111_1111_1111],
        [WRITE, 0x305, 0x8000_0001],
        [WRITE, 0x105, 0x4000_0001],
        [WRITE, 0x302, 0x100],
        [WRITE, 0x303, 0x222],
        [WRITE, 0x304, 0xAAA],
    ];
    for words in addresses.chain(others) {
        step(&mut hart, &mut map, Memory::EMPTY, formed(words));
    }
    (hart, map)
}

/// The step of three words that name one.
pub fn formed([number, a, b]: Words) -> Step {
    Step::from_words(number, a, b).expect("a step's number")
}
