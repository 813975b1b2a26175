//! States that a hart can hold, and states that it cannot.

use super::entries::fill_entries;
use super::grain::{coarse, coarsened, no_grain};
use crate::hart::{HART_WORDS, Hart, MACHINE, SUPERVISOR, USER};
use crate::holdable::mask;
use crate::random::Random;
use crate::status;
use crate::sv39::satp;

/// A state of any grain.
pub fn holdable(random: &mut Random) -> Hart {
    let hart = finest(random);
    coarsened(random, &hart)
}

/// A state with a G of 0. Half of these have a text of the first form.
pub fn finest(random: &mut Random) -> Hart {
    let mut hart = Hart::reset();
    hart.mode = random.pick(&[USER, SUPERVISOR, MACHINE]);
    hart.mstatus = mstatus(random);
    fill_addresses(random, &mut hart);
    fill_interrupts(random, &mut hart);
    fill_counters(random, &mut hart);
    fill_trap_registers(random, &mut hart);
    if !random.once_in(20) {
        fill_entries(random, &mut hart);
    }
    if random.once_in(2) {
        return narrowed(&hart);
    }
    hart.satp = satp_value(random);
    hart
}

/// The same with what the first form has no room for left out.
pub fn narrowed(hart: &Hart) -> Hart {
    Hart {
        mstatus: hart.mstatus & (status::FIXED | mask::first_form::MSTATUS),
        medeleg: hart.medeleg & mask::first_form::MEDELEG,
        satp: 0,
        grain: 0,
        ..*hart
    }
}

/// A state that the first form has no room for, for one reason alone.
pub fn textless(random: &mut Random) -> Hart {
    let hart = narrowed(&holdable(random));
    match random.below(4) {
        0 => Hart { mstatus: hart.mstatus | status::SUM, ..hart },
        1 => Hart { medeleg: hart.medeleg | 1 << random.pick(&[12, 13, 15]), ..hart },
        2 => Hart { satp: satp_value(random) | 1 << random.pick(&[0, 43, 63]), ..hart },
        _ => coarse(random, &hart),
    }
}

/// A PPN with either MODE, or nothing.
fn satp_value(random: &mut Random) -> u64 {
    let ppn = match random.below(3) {
        0 => random.below(16),
        1 => 0x8_0000 | random.below(64),
        _ => random.word() & satp::PPN,
    };
    random.pick(&[0, ppn, satp::SV39 << satp::MODE_SHIFT | ppn])
}

fn mstatus(random: &mut Random) -> u64 {
    let bits = random.bits(mask::MSTATUS);
    let mpp = random.pick(&[USER, SUPERVISOR, MACHINE]);
    status::with_mpp(status::FIXED | bits, mpp)
}

fn fill_addresses(random: &mut Random, hart: &mut Hart) {
    hart.pc = instruction_address(random);
    hart.mepc = instruction_address(random);
    hart.sepc = instruction_address(random);
    hart.mtvec = instruction_address(random) | random.below(2);
    hart.stvec = instruction_address(random) | random.below(2);
}

/// A multiple of 4; some are close to an end of memory or of the numbers.
pub fn instruction_address(random: &mut Random) -> u64 {
    let address = match random.below(5) {
        0 => random.below(256),
        1 => 0x8000_0000 + random.below(1 << 18),
        2 => ((1 << 56) - 32) + random.below(64),
        3 => u64::MAX - random.below(64),
        _ => random.word(),
    };
    address & !3
}

fn fill_interrupts(random: &mut Random, hart: &mut Hart) {
    hart.medeleg = random.bits(mask::MEDELEG);
    hart.mideleg = random.bits(mask::MIDELEG);
    hart.mie = random.bits(mask::MIE);
    hart.mip = random.bits(mask::SOFTWARE_INTERRUPTS);
    hart.lines = random.bits(mask::LINES);
}

fn fill_counters(random: &mut Random, hart: &mut Hart) {
    hart.mcounteren = random.bits(mask::COUNTERS);
    hart.scounteren = random.bits(mask::COUNTERS);
    hart.mcountinhibit = random.bits(mask::COUNTERS);
    hart.mcycle = random.telling_word();
    hart.minstret = random.telling_word();
}

fn fill_trap_registers(random: &mut Random, hart: &mut Hart) {
    hart.mscratch = random.word();
    hart.sscratch = random.word();
    hart.mtval = random.telling_word();
    hart.stval = random.telling_word();
    hart.mcause = random.bits(mask::CAUSE);
    hart.scause = random.bits(mask::CAUSE);
}

/// The words of a state a hart can hold, with something changed that it most
/// often cannot.
pub fn damaged(random: &mut Random) -> [u64; HART_WORDS] {
    let mut words = holdable(random).to_words();
    let place = random.index(HART_WORDS);
    match random.below(9) {
        0 => words[0] = random.pick(&[2, 4, 7, 256, 1 << 32 | 3, 1 << 63 | 1]),
        1 => words[2] = status::with_mpp(words[2], 2),
        2 => words[23 + random.index(2)] ^= random.pick(&[2, 3, 32, 64]) << (8 * random.below(8)),
        3 => words[place] = random.word(),
        4 => words[25 + random.index(16)] |= 1 << (54 + random.below(10)),
        5 => words[41] ^= 1 << (44 + random.below(20)),
        6 => words[42] = no_grain(random),
        7 => {
            // A = 2, which a hart can hold only with a G of 0.
            let shift = 3 + 8 * random.below(8);
            let word = &mut words[23 + random.index(2)];
            *word = *word & !(3 << shift) | 2 << shift;
        }
        _ => words[place] ^= 1 << random.below(64),
    }
    words
}
