//! Request [7] of document 02: a map has at most 32 inner boundaries, each the
//! first byte that an entry matches or the byte after its last.

use reference::boundaries::{End, ends, inner_boundaries};
use reference::protection::{MEMORY, NA4, NAPOT, TOR, address_matching};
use reference::random::Random;
use reference::{Hart, Map, Range, generate};

const STATES: u64 = 20_000;

fn states() -> impl Iterator<Item = Hart> {
    (0..STATES).map(|seed| generate::holdable(&mut Random::new(seed)))
}

fn listed() -> impl Iterator<Item = (Hart, u64)> {
    let settings = generate::settings().into_iter();
    settings.map(|setting| (setting.put(&Hart::reset()), setting.ranges))
}

fn with_entries(entries: &[(u8, u64)]) -> Hart {
    let mut hart = Hart::reset();
    for (entry, &(matching, pmpaddr)) in entries.iter().enumerate() {
        (hart.pmpcfg[entry], hart.pmpaddr[entry]) = (matching << 3, pmpaddr);
    }
    hart
}

fn w9() -> Hart {
    let entries: Vec<(u8, u64)> = (0..16).map(|entry| (NA4, 2 * entry + 1)).collect();
    with_entries(&entries)
}

/// Judges the map of the registers and gives its ends.
fn judged(hart: &Hart) -> Vec<End> {
    let map = hart.compile();
    let ends = ends(hart, &map).unwrap_or_else(|wrong| panic!("{wrong}\n{hart:x?}\n{map:x?}"));
    assert!(ends.len() <= 32);
    assert_eq!(map.count, ends.len() as u64 + 1);
    ends
}

fn both_ends(entry: usize) -> [End; 2] {
    [false, true].map(|begins| End { entry, begins })
}

#[test]
fn boundaries_of_the_worked_settings() {
    let last = (1 << 54) - 1;
    for (entries, ranges) in [
        (vec![(NA4, 3)], 3),
        (vec![(NAPOT, 0)], 2),
        (vec![(NAPOT, 0x2000_0FFF)], 3),
        (vec![(NAPOT, (1 << 52) - 1)], 2),
        (vec![(NAPOT, (1 << 53) - 1)], 1),
        (vec![(NAPOT, last)], 1),
        (vec![(TOR, last)], 2),
        (vec![], 1),
        (vec![(NA4, 3), (NAPOT, 0x1FF)], 4),
    ] {
        assert_eq!(judged(&with_entries(&entries)).len() + 1, ranges, "{entries:x?}");
    }
    let w8 = [(0, true), (0, false), (1, false)].map(|(entry, begins)| End { entry, begins });
    assert_eq!(judged(&with_entries(&[(NA4, 3), (NAPOT, 0x1FF)])), w8);
}

#[test]
fn w9_reaches_the_bound_with_both_ends_of_every_entry() {
    let mut ends = judged(&w9());
    assert_eq!(ends.len(), 32);
    ends.sort_unstable();
    assert_eq!(ends, (0..16).flat_map(both_ends).collect::<Vec<End>>());
}

/// A TOR entry has no first byte to itself, so it never is among 33 ranges.
#[test]
fn boundaries_of_random_states() {
    let mut full = 0;
    for hart in states() {
        if judged(&hart).len() == 32 {
            assert!(hart.pmpcfg.iter().all(|&byte| address_matching(byte) != TOR));
            full += 1;
        }
    }
    assert!(full > STATES / 500, "{full} of {STATES}");
}

#[test]
fn the_listed_settings_have_the_ranges_counted_by_hand() {
    let mut full = 0;
    for (place, (hart, ranges)) in listed().enumerate() {
        assert!(hart.can_hold());
        let ends = judged(&hart);
        assert_eq!(ends.len() as u64 + 1, ranges, "setting {place}: {hart:x?}");
        full += u64::from(ends.len() == 32);
    }
    assert_eq!((listed().count(), full), (1106, 203));
    assert!(listed().any(|(hart, _)| hart == w9()));
}

/// Counted apart from the map, at both ends of memory.
#[test]
fn the_owner_changes_at_the_boundaries_and_nowhere_else() {
    for hart in listed().map(|(hart, _)| hart).chain(states().take(1000)) {
        let boundaries = inner_boundaries(&hart.compile());
        for bytes in [0..600, MEMORY - 600..MEMORY] {
            let changes = bytes.clone().skip(1).filter(|&b| hart.owner(b - 1) != hart.owner(b));
            let inside =
                boundaries.iter().copied().filter(|b| bytes.contains(b) && *b != bytes.start);
            assert!(changes.eq(inside), "{hart:x?}");
        }
    }
}

#[test]
fn a_map_with_another_boundary_is_found_out() {
    let hart = w9();
    let map = hart.compile();
    for place in 1..33 {
        for first in [0, MEMORY, map.ranges[place].first - 4, map.ranges[place].first + 1] {
            let mut moved = map;
            moved.ranges[place].first = first;
            assert!(ends(&hart, &moved).is_err(), "range {place} from {first:x}");
        }
    }
    for count in [0, 34, u64::MAX] {
        assert!(ends(&hart, &Map { count, ..map }).is_err(), "count {count}");
    }
}

/// Not a boundary, though an entry that is hidden begins there.
#[test]
fn a_boundary_inside_one_owner_is_found_out() {
    let hart = with_entries(&[(NAPOT, 0x1FF), (NA4, 3)]);
    let mut map = hart.compile();
    assert_eq!(judged(&hart), [End { entry: 0, begins: false }]);
    map.ranges[2] = map.ranges[1];
    map.ranges[1] = Range { first: 0xC, last: 0xFFF, owner: 0 };
    map.ranges[0].last = 0xB;
    map.count += 1;
    assert!(ends(&hart, &map).is_err());
}
