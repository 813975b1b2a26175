//! Maps: that of the state given, that of another, and garbage.

use super::{holdable, tiles};
use crate::hart::Hart;
use crate::map::{Map, NONE, RANGES, Range};
use crate::random::Random;

/// Owners and counts that lose their meaning when cut to fewer bits.
pub const WIDE: [u64; 8] = [17, 34, 255, 256, 272, 1 << 32, (1 << 32) + 1, u64::MAX];

/// `hart` must be one that can be held.
pub fn map(random: &mut Random, hart: &Hart) -> Map {
    let mut map = hart.compile();
    match random.below(14) {
        0..=3 => map,
        4 => holdable(random).compile(),
        5 | 6 => {
            for _ in 0..=random.below(4) {
                damage(random, &mut map);
            }
            map
        }
        7 => close_together(random),
        8..=12 => tiles(random),
        _ => {
            Map { count: random.telling_word(), ranges: std::array::from_fn(|_| any_range(random)) }
        }
    }
}

fn damage(random: &mut Random, map: &mut Map) {
    let listed = map.listed().len().max(1);
    let place = random.index(listed);
    let other = random.index(listed);
    let range = &mut map.ranges[place];
    match random.below(9) {
        0 => map.count = random.pick(&WIDE),
        1 => map.count = random.below(RANGES as u64 + 1),
        2 => range.owner = random.pick(&WIDE),
        3 => range.owner = random.below(NONE + 2),
        4 => range.first = range.first.wrapping_add(random.below(9)).wrapping_sub(4),
        5 => range.last = range.last.wrapping_add(random.below(9)).wrapping_sub(4),
        6 => std::mem::swap(&mut range.first, &mut range.last),
        7 => map.ranges.swap(place, other),
        _ => *range = any_range(random),
    }
}

/// Short ranges that overlap, leave gaps, or hold nothing.
fn close_together(random: &mut Random) -> Map {
    let ranges = std::array::from_fn(|_| {
        let first = random.below(160);
        let last = first.wrapping_add(random.below(20)).wrapping_sub(3);
        let owner = if random.once_in(12) { random.pick(&WIDE) } else { random.below(NONE + 1) };
        Range { first, last, owner }
    });
    let count = if random.once_in(4) { random.pick(&WIDE) } else { random.below(36) };
    Map { count, ranges }
}

fn any_range(random: &mut Random) -> Range {
    let owner = if random.once_in(2) { random.telling_word() } else { random.below(NONE + 1) };
    Range { first: random.telling_word(), last: random.telling_word(), owner }
}
