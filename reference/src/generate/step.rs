//! Steps, as three words. Arguments a step does not name hold anything, since
//! a direct call ignores them.

use super::address::address;
use super::entries::{configuration, pmpaddr};
use super::grain::{by_grains, is_coarse};
use super::state::instruction_address;
use crate::csr::number::*;
use crate::csr::{LAST_NUMBER, present};
use crate::hart::Hart;
use crate::holdable::mask;
use crate::map::Map;
use crate::protection::LOCK;
use crate::random::Random;
use crate::step::LAST_STEP;
use crate::sv39::satp;

pub fn step(random: &mut Random, hart: &Hart, map: &Map) -> [u64; 3] {
    let number = match random.below(3) {
        0 => 1 + random.below(4),
        1 if !random.once_in(20) => 1 + random.below(LAST_STEP),
        _ => random.below(LAST_STEP + 1),
    };
    let [a, b] = arguments(random, number, hart, map);
    [number, a, b]
}

fn arguments(random: &mut Random, number: u64, hart: &Hart, map: &Map) -> [u64; 2] {
    match number {
        1..=4 => {
            let number = csr_number(random);
            [number, operand(random, hart, number)]
        }
        5 => [cause(random), random.telling_word()],
        6 => [lines(random), random.telling_word()],
        13 => [target(random), random.telling_word()],
        15 | 16 => [address(random, hart, map), size(random)],
        _ => [random.telling_word(), random.telling_word()],
    }
}

fn csr_number(random: &mut Random) -> u64 {
    match random.below(16) {
        0 => random.below(LAST_NUMBER + 1),
        1 => random.pick(&[4096, 0x1300, 0x13A0, 1 << 32 | 0x300, 1 << 63 | 0x340, u64::MAX]),
        2..=3 => random.pick(&[PMPCFG0, PMPCFG2]),
        4..=7 => PMPADDR0 + random.below(16),
        8 => present_number(random),
        _ => random.pick(&TELLING),
    }
}

/// The registers that hold something other than protection.
const TELLING: [u64; 26] = [
    SSTATUS,
    SIE,
    STVEC,
    SCOUNTEREN,
    SSCRATCH,
    SEPC,
    SCAUSE,
    STVAL,
    SIP,
    SATP,
    MSTATUS,
    MISA,
    MEDELEG,
    MIDELEG,
    MIE,
    MTVEC,
    MCOUNTEREN,
    MCOUNTINHIBIT,
    MEPC,
    MCAUSE,
    MTVAL,
    MIP,
    MCYCLE,
    MINSTRET,
    CYCLE,
    INSTRET,
];

fn present_number(random: &mut Random) -> u64 {
    loop {
        let number = random.below(LAST_NUMBER + 1);
        if present(number) {
            return number;
        }
    }
}

/// The value that a protection register holds already, or another operand.
fn operand(random: &mut Random, hart: &Hart, number: u64) -> u64 {
    match number {
        PMPCFG0 if random.once_in(8) => hart.configuration_register(0),
        PMPCFG2 if random.once_in(8) => hart.configuration_register(8),
        PMPADDR0..=PMPADDR15 if random.once_in(8) => hart.pmpaddr[(number - PMPADDR0) as usize],
        PMPADDR0..=PMPADDR15 if is_coarse(hart) => coarse_pmpaddr(random, hart.grain),
        _ => csr_operand(random, number),
    }
}

/// An operand for pmpaddr: nothing, bits below the grain, or also bits above.
fn coarse_pmpaddr(random: &mut Random, grain: u64) -> u64 {
    let above = match random.below(5) {
        0 => return 0,
        1 => 0,
        2 => return csr_operand(random, PMPADDR0),
        _ => pmpaddr(random),
    };
    by_grains(random, grain, above)
}

/// An operand that tells something of the register of this number.
pub fn csr_operand(random: &mut Random, number: u64) -> u64 {
    match number {
        PMPCFG0 | PMPCFG2 if !random.once_in(4) => configurations(random),
        PMPADDR0..=PMPADDR15 if !random.once_in(4) => pmpaddr(random),
        MTVEC | STVEC | MEPC | SEPC if random.once_in(2) => {
            instruction_address(random) | random.below(4)
        }
        SATP if random.once_in(2) => satp(random),
        _ => random.telling_word(),
    }
}

/// Any MODE, most often one that satp can have, with bits of ASID and PPN.
fn satp(random: &mut Random) -> u64 {
    let other = random.below(16);
    let mode = random.pick(&[0, 8, 8, 8, other]);
    mode << satp::MODE_SHIFT | random.bits(!(0xF << satp::MODE_SHIFT))
}

/// Eight configuration bytes, few of them locked, some with bits to drop.
fn configurations(random: &mut Random) -> u64 {
    let bytes = std::array::from_fn(|_| {
        let lock = if random.once_in(12) { LOCK } else { 0 };
        let dropped = if random.once_in(6) { random.pick(&[0x20, 0x40, 2]) } else { 0 };
        configuration(random) | lock | dropped
    });
    u64::from_le_bytes(bytes)
}

fn cause(random: &mut Random) -> u64 {
    match random.below(6) {
        0 => random.below(12),
        1 => random.telling_word(),
        _ => random.below(8),
    }
}

fn lines(random: &mut Random) -> u64 {
    match random.below(6) {
        0 => random.telling_word(),
        1 => random.bits(0xFFF),
        _ => random.bits(mask::LINES),
    }
}

fn target(random: &mut Random) -> u64 {
    let misaligned = if random.once_in(2) { random.below(4) } else { 0 };
    instruction_address(random) | misaligned
}

pub fn size(random: &mut Random) -> u64 {
    match random.below(16) {
        0 => random.below(20),
        1 => random.pick(&[0, 3, 16, 256 + 4, 1 << 32 | 8, 1 << 63, u64::MAX]),
        _ => 1 << random.below(4),
    }
}
