//! Request [7] of document 02: every inner boundary of a map is the first byte
//! that an entry matches or the byte after its last. Judged byte by byte, with no
//! look at how a map is made.

use crate::hart::Hart;
use crate::map::Map;
use crate::protection::MEMORY;

/// One end of what an entry matches: its first byte, or the byte after its last.
#[derive(Clone, Copy, PartialEq, Eq, PartialOrd, Ord, Debug)]
pub struct End {
    pub entry: usize,
    pub begins: bool,
}

/// The end at each inner boundary, or what is wrong with the map. No end is at two
/// boundaries, so sixteen entries make at most 32.
pub fn ends(hart: &Hart, map: &Map) -> Result<Vec<End>, String> {
    let boundaries = inner_boundaries(map);
    if map.count != boundaries.len() as u64 + 1 {
        return Err(format!("{} inner boundaries, but a count of {}", boundaries.len(), map.count));
    }
    let mut ends = Vec::new();
    for &boundary in &boundaries {
        let end = end_at(hart, boundary)?;
        if ends.contains(&end) || matches_past(hart, end, boundary, &boundaries) {
            return Err(format!("boundary {boundary:x}: {end:?} is elsewhere too"));
        }
        ends.push(end);
    }
    Ok(ends)
}

/// The first byte of every range but the first.
pub fn inner_boundaries(map: &Map) -> Vec<u64> {
    map.listed().iter().skip(1).map(|range| range.first).collect()
}

/// The lower of the two owners matches on one side of the boundary alone. It is
/// never none, which is above all entries.
fn end_at(hart: &Hart, boundary: u64) -> Result<End, String> {
    if boundary == 0 || boundary >= MEMORY {
        return Err(format!("boundary {boundary:x} is not inside memory"));
    }
    let [before, after] = [boundary - 1, boundary].map(|byte| hart.owner(byte));
    if before == after {
        return Err(format!("boundary {boundary:x} has owner {after} on both sides"));
    }
    let entry = before.min(after) as usize;
    let matched = [boundary - 1, boundary].map(|byte| hart.matches(entry, byte));
    match matched {
        [false, true] => Ok(End { entry, begins: true }),
        [true, false] => Ok(End { entry, begins: false }),
        _ => Err(format!("boundary {boundary:x}: entry {entry} neither begins nor ends there")),
    }
}

/// Whether the entry matches any byte past its end: those on both sides of all
/// boundaries are tried, those at the ends of memory, and those whose distance is
/// a power of two.
fn matches_past(hart: &Hart, end: End, boundary: u64, boundaries: &[u64]) -> bool {
    let sides = boundaries.iter().flat_map(|&other| [other.wrapping_sub(1), other]);
    let distances = (0..56).map(|bit| 1 << bit);
    let away = distances.flat_map(|far: u64| [boundary.wrapping_sub(far), boundary - 1 + far]);
    let mut past = sides
        .chain(away)
        .chain([0, MEMORY - 1])
        .filter(|&byte| byte < MEMORY && (byte < boundary) == end.begins);
    past.any(|byte| hart.matches(end.entry, byte))
}
