//! The map: memory cut into ranges, each owned by its lowest matching entry.

use std::array;

use crate::hart::Hart;
use crate::protection::{MEMORY, Matcher, NA4, NAPOT, TOR, address_matching};

/// The most ranges a map can have.
pub const RANGES: usize = 33;
/// Number of words of a map: the count, then three for each range.
pub const MAP_WORDS: usize = 1 + 3 * RANGES;
/// The owner of bytes that no entry matches.
pub const NONE: u64 = 16;

/// The bytes from `first` to `last`, both included. Every field takes any
/// value, since a map given may be no lawful one.
#[derive(Clone, Copy, PartialEq, Eq, Debug)]
pub struct Range {
    pub first: u64,
    pub last: u64,
    pub owner: u64,
}

#[derive(Clone, Copy, PartialEq, Eq, Debug)]
pub struct Map {
    pub count: u64,
    pub ranges: [Range; RANGES],
}

impl Map {
    const EMPTY: Map = Map { count: 0, ranges: [Range { first: 0, last: 0, owner: 0 }; RANGES] };

    /// The map of a hart at reset: one range without owner.
    pub fn reset() -> Map {
        let mut map = Map::EMPTY;
        map.append(0, NONE);
        map
    }

    pub fn from_words(words: &[u64; MAP_WORDS]) -> Map {
        Map {
            count: words[0],
            ranges: std::array::from_fn(|range| Range {
                first: words[1 + 3 * range],
                last: words[2 + 3 * range],
                owner: words[3 + 3 * range],
            }),
        }
    }

    pub fn to_words(&self) -> [u64; MAP_WORDS] {
        let mut words = [0; MAP_WORDS];
        words[0] = self.count;
        for (range, place) in self.ranges.iter().zip(words[1..].chunks_exact_mut(3)) {
            place.copy_from_slice(&[range.first, range.last, range.owner]);
        }
        words
    }

    /// The ranges up to the count; a count too large is read as the largest.
    pub fn listed(&self) -> &[Range] {
        let count = self.count.min(RANGES as u64);
        &self.ranges[..count as usize]
    }

    /// Ends the last range before `first` and starts one there that goes on to
    /// the end of memory, unless the last range has the same owner already.
    fn append(&mut self, first: u64, owner: u64) {
        let count = self.count as usize;
        if count > 0 {
            let last = &mut self.ranges[count - 1];
            if last.owner == owner {
                return;
            }
            last.last = first - 1;
        }
        self.ranges[count] = Range { first, last: MEMORY - 1, owner };
        self.count += 1;
    }
}

impl Hart {
    /// The map of the protection registers, of a hart that can be held.
    ///
    /// No entry starts or stops matching but at a border, so the owner of the
    /// first byte of a piece between two borders owns the whole piece.
    pub fn compile(&self) -> Map {
        let mut borders = [0; RANGES];
        for (entry, pair) in borders[1..].chunks_exact_mut(2).enumerate() {
            pair.copy_from_slice(&self.borders(entry));
        }
        borders.sort_unstable();
        let matchers = array::from_fn(|entry| self.matcher(entry));
        let mut map = Map::EMPTY;
        for first in borders {
            if first < MEMORY {
                map.append(first, owner(&matchers, first));
            }
        }
        map
    }

    /// The lowest entry that matches the byte, or `NONE`.
    pub fn owner(&self, byte: u64) -> u64 {
        owner(&array::from_fn(|entry| self.matcher(entry)), byte)
    }

    /// The first byte of an entry and the first byte past it; 0 and 0 for an
    /// entry that is off, since memory starts there anyway.
    fn borders(&self, entry: usize) -> [u64; 2] {
        let pmpaddr = self.read_pmpaddr(entry);
        match address_matching(self.pmpcfg[entry]) {
            TOR => [4 * self.bottom_of_range(entry), 4 * pmpaddr],
            NA4 => [4 * pmpaddr, 4 * pmpaddr + 4],
            NAPOT => napot_borders(pmpaddr),
            _ => [0, 0],
        }
    }
}

/// The lowest of all entries that matches the byte, or `NONE`.
fn owner(matchers: &[Matcher; 16], byte: u64) -> u64 {
    matchers.iter().position(|matcher| matcher.matches(byte)).map_or(NONE, |entry| entry as u64)
}

fn napot_borders(pmpaddr: u64) -> [u64; 2] {
    let ones = pmpaddr.trailing_ones();
    let first = 4 * (pmpaddr >> ones << ones);
    [first, first + (1 << (ones + 3))]
}
