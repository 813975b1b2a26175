//! Protection entries: chains of TOR, the extremes of NAPOT, neighbours close
//! together, and locks.

use crate::hart::Hart;
use crate::holdable::mask;
use crate::protection::{LOCK, NA4, NAPOT, OFF, TOR};
use crate::random::Random;

/// The rights a byte can hold: never W without R.
pub const RIGHTS: [u8; 6] = [0, 1, 3, 4, 5, 7];

/// The values of pmpaddr at which NAPOT or TOR reach the end of memory.
const EXTREMES: [u64; 12] = [
    0,
    1,
    (1 << 51) - 1,
    (1 << 52) - 1,
    1 << 52,
    (1 << 53) - 1,
    1 << 53,
    (1 << 53) + 1,
    (1 << 54) - (1 << 20) - 1,
    (1 << 54) - 3,
    (1 << 54) - 2,
    (1 << 54) - 1,
];

pub fn fill_entries(random: &mut Random, hart: &mut Hart) {
    match random.below(5) {
        0 => chain(random, hart),
        1 => spaced(random, hart),
        _ => mixed(random, hart),
    }
    match random.below(3) {
        0 => {}
        1 => lock(random, hart, 8),
        _ => lock(random, hart, 2),
    }
}

/// One value of pmpaddr, whatever its entry.
pub fn pmpaddr(random: &mut Random) -> u64 {
    match random.below(7) {
        0 | 1 => random.below(64),
        2 => random.pick(&EXTREMES),
        3 => (1 << random.below(55)) - 1,
        4 => 0x2000_0000 | random.below(4) << 14 | ((1 << random.below(16)) - 1),
        5 => mask::PMPADDR - random.below(32),
        _ => random.word() & mask::PMPADDR,
    }
}

/// One configuration byte that a hart can hold, without lock.
pub fn configuration(random: &mut Random) -> u8 {
    let matching = random.pick(&[OFF, TOR, TOR, NA4, NAPOT, NAPOT]);
    matching << 3 | random.pick(&RIGHTS)
}

fn mixed(random: &mut Random, hart: &mut Hart) {
    for entry in 0..16 {
        hart.pmpcfg[entry] = configuration(random);
        hart.pmpaddr[entry] = pmpaddr(random);
    }
}

/// Tops of ranges that mostly rise, at times stay or fall.
fn chain(random: &mut Random, hart: &mut Hart) {
    let stride = random.pick(&[2, 4, 1 << 20, 1 << 50]);
    let mut top: u64 = 0;
    for entry in 0..16 {
        let fall = random.below(stride);
        top = if random.once_in(8) { top.saturating_sub(fall) } else { top + random.below(stride) };
        hart.pmpcfg[entry] = TOR << 3 | random.pick(&RIGHTS);
        if random.once_in(6) {
            hart.pmpcfg[entry] = configuration(random);
        }
        hart.pmpaddr[entry] = top & mask::PMPADDR;
    }
}

/// Small entries apart from each other, in any order: many ranges.
fn spaced(random: &mut Random, hart: &mut Hart) {
    let base = random.pick(&[1, 1, 0x1000, mask::PMPADDR - 63]);
    let turn = random.below(16);
    for entry in 0..16 {
        let matching = if random.once_in(5) { NAPOT } else { NA4 };
        hart.pmpcfg[entry] = matching << 3 | random.pick(&RIGHTS);
        hart.pmpaddr[entry] = base + 2 * (entry as u64 ^ turn);
    }
}

/// Locks one entry in `times`.
fn lock(random: &mut Random, hart: &mut Hart, times: u64) {
    for byte in &mut hart.pmpcfg {
        if random.once_in(times) {
            *byte |= LOCK;
        }
    }
}
