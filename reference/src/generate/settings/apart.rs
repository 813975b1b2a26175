//! Sixteen entries of which none matches a byte of another: W9 and its kin.

use super::{Order, Pmpaddr, Setting, orders};
use crate::holdable::mask;
use crate::protection::{NA4, NAPOT};

/// A field, pmpaddr by place, and number of ranges. Apart from one another, the
/// entries have 32 ends, but an end at byte 0 or at 2^56 is no inner boundary.
const KINDS: [(u8, Pmpaddr, u64); 8] = [
    (NA4, |place| 1 + 2 * place, 33),
    (NA4, |place| 2 * place, 32),
    (NA4, |place| mask::PMPADDR - 1 - 2 * place, 33),
    (NA4, |place| mask::PMPADDR - 2 * place, 32),
    (NA4, at_both_ends, 31),
    (NA4, |place| 1 + (place << 50), 33),
    (NAPOT, eightfold, 33),
    // Neighbours touch, so that only the outer two have a boundary of their own.
    (NA4, |place| 1 + place, 18),
];

pub fn settings() -> Vec<Setting> {
    KINDS.into_iter().flat_map(|kind| orders().map(move |order| apart(kind, order))).collect()
}

fn apart((matching, pmpaddr, ranges): (u8, Pmpaddr, u64), order: Order) -> Setting {
    Setting::new(ranges, |entry| (matching, pmpaddr(order[entry])))
}

/// Half of the entries from byte 0 on, half up to 2^56.
fn at_both_ends(place: u64) -> u64 {
    if place < 8 { 2 * place } else { mask::PMPADDR - 2 * (15 - place) }
}

/// NAPOT of 8 bytes at byte 16, and each next one eight times as large and as far.
fn eightfold(place: u64) -> u64 {
    4 << (3 * place) | ((1 << (3 * place)) - 1)
}
