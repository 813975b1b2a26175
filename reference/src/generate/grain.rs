//! States of a coarser grain: entries that lie by grains, with bits set below.

use crate::grain::COARSEST;
use crate::hart::Hart;
use crate::holdable::mask;
use crate::protection::{NAPOT, OFF, TOR};
use crate::random::Random;

/// Words that are no G of a hart. Cut to fewer bits, some would be one.
const NO_GRAINS: [u64; 10] = [11, 12, 15, 16, 63, 64, 256 + 3, 1 << 32 | 2, 1 << 63 | 1, u64::MAX];

/// A grain as a word: one that a hart can have, mostly, or any other.
pub fn grain(random: &mut Random) -> u64 {
    match random.below(4) {
        0 => no_grain(random),
        1 => random.telling_word(),
        _ => random.below(COARSEST + 1),
    }
}

pub fn no_grain(random: &mut Random) -> u64 {
    random.pick(&NO_GRAINS)
}

/// The same hart, of a G of 0, or most often a coarser one.
pub fn coarsened(random: &mut Random, hart: &Hart) -> Hart {
    if random.below(8) < 3 { *hart } else { coarse(random, hart) }
}

/// The same hart with a G of 1 or more, and entries for it.
pub fn coarse(random: &mut Random, hart: &Hart) -> Hart {
    let mut hart = Hart { grain: 1 + random.below(COARSEST), ..*hart };
    let apart = !random.once_in(4);
    for entry in 0..16 {
        let byte = hart.pmpcfg[entry];
        if hart.bars(byte) {
            hart.pmpcfg[entry] = byte & !(3 << 3) | random.pick(&[OFF, TOR, NAPOT, NAPOT]) << 3;
        }
        if apart {
            hart.pmpaddr[entry] = by_grains(random, hart.grain, hart.pmpaddr[entry]);
        }
    }
    hart
}

/// A value that lies by grains as `pmpaddr` does by words, with any bits below.
pub fn by_grains(random: &mut Random, grain: u64, pmpaddr: u64) -> u64 {
    (pmpaddr << grain | bits_below(random, grain)) & mask::PMPADDR
}

/// Bits below a grain, which is not 0: none, all, those that NAPOT reads as ones,
/// fewer trailing ones, all but one, or any.
fn bits_below(random: &mut Random, grain: u64) -> u64 {
    let all = (1 << grain) - 1;
    match random.below(6) {
        0 => 0,
        1 => all,
        2 => all >> 1,
        3 => (1 << random.below(grain)) - 1,
        4 => all ^ 1 << random.below(grain),
        _ => random.word() & all,
    }
}

/// Whether the hart's grain is one that a hart can have, and not the finest.
pub fn is_coarse(hart: &Hart) -> bool {
    (1..=COARSEST).contains(&hart.grain)
}
