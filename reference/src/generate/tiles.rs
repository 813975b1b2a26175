//! Maps of short ranges that mostly touch, so that most accesses near them lie in
//! several: of few owners, with neighbours that share one, and at times disturbed.

use std::array;

use super::map::WIDE;
use crate::map::{Map, NONE, RANGES, Range};
use crate::protection::MEMORY;
use crate::random::Random;

pub fn tiles(random: &mut Random) -> Map {
    let mut map = Map { count: count(random), ranges: undisturbed(random) };
    for _ in 0..random.below(4) {
        disturb(random, &mut map);
    }
    map
}

fn count(random: &mut Random) -> u64 {
    match random.below(8) {
        0 | 1 => random.below(41),
        2 => random.pick(&WIDE),
        _ => RANGES as u64,
    }
}

fn undisturbed(random: &mut Random) -> [Range; RANGES] {
    let spoilt = if random.once_in(3) { random.pick(&WIDE) } else { random.below(NONE) };
    let owners = [random.below(NONE), random.below(NONE), NONE, spoilt];
    let mut owner = random.pick(&owners);
    let mut first = start(random);
    array::from_fn(|_| {
        let last = first.wrapping_add(random.below(6));
        if random.once_in(3) {
            owner = random.pick(&owners);
        }
        let range = Range { first, last, owner };
        let gap = if random.once_in(24) { 1 + random.below(3) } else { 0 };
        first = last.wrapping_add(1 + gap);
        range
    })
}

/// Where the ranges begin: at byte 0, anywhere, or so that they go over the end of
/// memory or of the numbers.
fn start(random: &mut Random) -> u64 {
    match random.below(8) {
        0 => random.below(MEMORY),
        1 | 2 => MEMORY - random.below(120),
        3 => u64::MAX - random.below(120),
        _ => 0,
    }
}

/// Empties a range, moves its ends, gives it an owner that is none, or gives ranges
/// another order.
fn disturb(random: &mut Random, map: &mut Map) {
    let listed = map.listed().len().max(1);
    let (place, other) = (random.index(listed), random.index(listed));
    let range = &mut map.ranges[place];
    match random.below(8) {
        0 => range.last = range.first.wrapping_sub(1 + random.below(4)),
        1 => range.first = range.first.wrapping_add(1 + random.below(4)),
        2 => range.last = range.last.wrapping_add(1 + random.below(9)),
        3 => range.first = range.first.saturating_sub(1 + random.below(9)),
        4 => range.last = range.last.wrapping_add(random.below(64)),
        5 => range.owner = random.pick(&WIDE),
        6 => map.ranges.swap(place, other),
        _ => map.ranges[..listed].reverse(),
    }
}
