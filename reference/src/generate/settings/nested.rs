//! Entries inside others: cut out of them where their number is lower, hidden by
//! them where it is higher.

use super::{Order, Pmpaddr, Setting, orders};
use crate::holdable::mask;
use crate::protection::{NA4, NAPOT};

/// NAPOT pmpaddr by depth, the innermost being 0, and how many ends each entry has
/// to itself.
const NESTS: [(Pmpaddr, u64); 4] = [
    (|depth| inside(0x5A69_96A5, depth), 2),
    (|depth| inside(0xA596_695A, depth), 2),
    // All begin at byte 0.
    (|depth| (1 << depth) - 1, 1),
    // All end at 2^56.
    (|depth| mask::PMPADDR - (1 << depth), 1),
];

/// NAPOT pmpaddr of an entry around fifteen NA4, and how many ranges it makes
/// alone: from byte 256 on, from byte 0 on, and all memory twice (W5).
const HULLS: [(u64, u64); 4] = [(0x5F, 3), (0x3F, 2), (mask::PMPADDR >> 1, 1), (mask::PMPADDR, 1)];

pub fn settings() -> Vec<Setting> {
    let nests = NESTS.into_iter().flat_map(|kind| orders().map(move |order| nest(kind, order)));
    let pairs = orders().map(pairs);
    let hulls = HULLS.into_iter().flat_map(|kind| (0..16).map(move |entry| hull(kind, entry)));
    nests.chain(pairs).chain(hulls).collect()
}

/// Sixteen NAPOT entries, each inside the next one out. One is hidden exactly if a
/// lower entry is further out.
fn nest((pmpaddr, ends): (Pmpaddr, u64), order: Order) -> Setting {
    let visible = |&entry: &usize| order[..entry].iter().all(|&lower| lower < order[entry]);
    let ranges = 1 + ends * (0..16).filter(visible).count() as u64;
    Setting::new(ranges, |entry| (NAPOT, pmpaddr(order[entry])))
}

/// 8 bytes at depth 0, and four times as many with each further depth. Each digit
/// to the base 4, 1 or 2, says which quarter of the next entry out an entry is: one
/// of the two in the middle, so that they share no end.
fn inside(quarters: u64, depth: u64) -> u64 {
    quarters >> (2 * depth) << (2 * depth + 1) | ((1 << (2 * depth)) - 1)
}

/// Eight NAPOT entries of 16 bytes, apart, with an NA4 inside each that shares no
/// end with it. The NA4 is seen exactly if its number is the lower one.
fn pairs(order: Order) -> Setting {
    let number = |place| order.iter().position(|&other| other == place);
    let seen = (0..8).filter(|pair| number(2 * pair) < number(2 * pair + 1)).count() as u64;
    Setting::new(17 + 2 * seen, |entry| {
        let (pair, kind) = (order[entry] / 2, order[entry] % 2);
        ([NA4, NAPOT][kind as usize], 8 * pair + 5)
    })
}

/// One entry around fifteen NA4, of which it hides those of higher numbers.
fn hull((pmpaddr, alone): (u64, u64), hull: usize) -> Setting {
    Setting::new(alone + 2 * hull as u64, |entry| {
        if entry == hull { (NAPOT, pmpaddr) } else { (NA4, 65 + 2 * entry as u64) }
    })
}
