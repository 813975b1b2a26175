//! TOR entries, which begin where the register below them says: chains, pieces
//! apart, and such as match no byte. With one of them there are at most 32 ranges:
//! its first byte is 0, or else the entry below matches no byte, ends there, begins
//! there or hides it.

use super::{Order, Setting, orders};
use crate::protection::{NA4, NAPOT, OFF, TOR};

/// How far the tops of a chain are apart. Sixteen of the last stay below 2^54.
const STRIDES: [u64; 2] = [1, (1 << 50) - 1];

/// A field of the entry below each TOR entry, place of its top where that of its
/// bottom is 4, and number of ranges. Of a TOR entry that begins with the entry below
/// it, only the end is a boundary more; with its top at its bottom or below, it has
/// none.
const PIECES: [(u8, u64, u64); 6] =
    [(OFF, 7, 17), (NA4, 7, 25), (NAPOT, 7, 25), (NA4, 4, 17), (NA4, 1, 17), (OFF, 1, 1)];

pub fn settings() -> Vec<Setting> {
    let chains = STRIDES.into_iter().flat_map(chains);
    let pieces = PIECES.into_iter().flat_map(|kind| orders().map(move |order| pieces(kind, order)));
    let single = (0..16).flat_map(|entry| {
        [lone(entry), without_bytes(entry, OFF), without_bytes(entry, TOR), same_bounds(entry)]
    });
    chains.chain(pieces).chain(single).collect()
}

/// A chain from byte 0 with all sixteen entries, with one of them off, and with
/// the top of one of them at 0, so that it matches no byte.
fn chains(stride: u64) -> Vec<Setting> {
    let top = |entry| (TOR, stride * (entry as u64 + 1));
    let mut chains = vec![Setting::new(17, top)];
    for gap in 0..16 {
        // The top of the last entry is a boundary only if it is on.
        let ranges = if gap == 15 { 16 } else { 17 };
        let off = |entry| if entry == gap { (OFF, top(entry).1) } else { top(entry) };
        chains.push(Setting::new(ranges, off));
        let none = |entry| if entry == gap { (TOR, 0) } else { top(entry) };
        chains.push(Setting::new(16, none));
    }
    chains
}

/// Eight TOR entries apart from one another, each with an entry of its own below.
fn pieces((below, top, ranges): (u8, u64, u64), order: Order) -> Setting {
    Setting::new(ranges, |entry| {
        let start = 8 * order[entry / 2];
        if entry % 2 == 0 { (below, start + 4) } else { (TOR, start + top) }
    })
}

/// One TOR entry, of 8 bytes, among fifteen NA4 apart from one another: as many
/// ranges as there can be with it.
fn lone(tor: usize) -> Setting {
    Setting::new(32, |entry| if entry == tor { (TOR, 4 * tor as u64 + 2) } else { na4(entry) })
}

/// Fifteen NA4, and one entry that matches no byte, its top being 0.
fn without_bytes(empty: usize, matching: u8) -> Setting {
    Setting::new(31, |entry| if entry == empty { (matching, 0) } else { na4(entry) })
}

/// The same with the top at the bottom.
fn same_bounds(empty: usize) -> Setting {
    Setting::new(31, |entry| if entry == empty { (TOR, 4 * empty as u64) } else { na4(entry) })
}

fn na4(entry: usize) -> (u8, u64) {
    (NA4, 4 * (entry as u64 + 1))
}
