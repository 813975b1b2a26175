//! States in which interrupts bound for M and for S are takeable together.

use super::holdable;
use crate::hart::{Hart, SUPERVISOR, USER};
use crate::holdable::mask;
use crate::random::Random;
use crate::status;

/// Some of SEI, STI and SSI delegated, but not all.
const MIXED: [u64; 6] = [0x002, 0x020, 0x022, 0x200, 0x202, 0x220];
/// The lines whose interrupts are never delegated. While one of them is
/// takeable, delegation decides nothing.
const MACHINE_LINES: u64 = mask::LINES & !mask::MIDELEG;

/// A state in U, or in S with SIE=1, with mixed delegation and most of what can
/// be delegated pending and enabled.
pub fn mixed_delegation(random: &mut Random) -> Hart {
    let hart = holdable(random);
    let quiet = random.pick(&[0, MACHINE_LINES]);
    Hart {
        mode: random.pick(&[USER, SUPERVISOR]),
        mstatus: hart.mstatus | status::SIE,
        mideleg: random.pick(&MIXED),
        mie: most(random, mask::MIE),
        mip: most(random, mask::SOFTWARE_INTERRUPTS),
        lines: random.bits(mask::LINES) & !quiet,
        ..hart
    }
}

/// All bits of `mask`, or all but one.
fn most(random: &mut Random, mask: u64) -> u64 {
    mask & !(1 << random.below(12))
}
