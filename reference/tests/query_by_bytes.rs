//! Request [5] of document 02: a query reads a range for each byte of the access,
//! and says which entry decided.

mod common;

use common::*;
use reference::protection::MEMORY;
use reference::random::Random;
use reference::{Access, Hart, Map, Mode, NONE, Range, Refusal, Verdict, generate, query};

const READ: u8 = 1;
/// Owners that are neither an entry nor none. Cut to fewer bits, some would be one.
const NO_OWNERS: [u64; 6] = [17, 255, 256, 272, 1 << 32, u64::MAX];

/// All entries are off and readable: a map may name them nevertheless.
fn readable() -> Hart {
    Hart { pmpcfg: [READ; 16], ..Hart::reset() }
}

fn load(map: &Map, address: u64, size: u64) -> Verdict {
    query(&readable(), map, Mode::User, Access::Load, address, size)
}

fn granted(entry: usize) -> Verdict {
    Verdict::Ruled(granted_by(Some(entry)))
}

fn fault(entry: usize) -> Verdict {
    Verdict::Ruled(fault_by(Some(entry), Access::Load))
}

#[test]
fn a15_one_owner_across_the_border_of_two_ranges_is_granted() {
    for owner in 0..16 {
        let map = map_of(&[(0, 3, owner), (4, 99, owner)]);
        for (address, size) in [(3, 2), (2, 4), (1, 4), (0, 8), (3, 8)] {
            assert_eq!(load(&map, address, size), granted(owner as usize));
        }
    }
    let bytes: Vec<_> = (0..8).map(|byte| (byte, byte, 6)).collect();
    assert_eq!(load(&map_of(&bytes), 0, 8), granted(6));
    let map = map_of(&[(0, 3, NONE), (4, 99, NONE)]);
    let machine = query(&readable(), &map, Mode::Machine, Access::Store, 2, 4);
    assert_eq!(machine, Verdict::Ruled(granted_by(None)));
    assert_eq!(load(&map, 2, 4), Verdict::Ruled(fault_by(None, Access::Load)));
}

/// What the owner lacks it lacks across a border too.
#[test]
fn across_a_border_the_owner_decides_as_within_one_range() {
    let map = map_of(&[(0, 3, 5), (4, 99, 5)]);
    let ask = |mode, access| query(&readable(), &map, mode, access, 2, 4);
    let expected = Verdict::Ruled(fault_by(Some(5), Access::Store));
    assert_eq!(ask(Mode::Supervisor, Access::Store), expected);
    assert_eq!(ask(Mode::Machine, Access::Store), granted(5));
    let locked = Hart { pmpcfg: [0x81; 16], ..Hart::reset() };
    assert_eq!(query(&locked, &map, Mode::Machine, Access::Store, 2, 4), expected);
}

#[test]
fn the_lowest_owner_decides_wherever_its_bytes_are() {
    for (first, middle, last) in [(3, 5, 9), (5, 3, 9), (9, 5, 3), (5, 3, 5), (3, 5, 5), (5, 5, 3)]
    {
        let map = map_of(&[(0, 2, first), (3, 4, middle), (5, 99, last)]);
        assert_eq!(load(&map, 0, 8), fault(3));
        assert_eq!(load(&map, 2, 4), fault(3));
    }
    let map = map_of(&[(0, 3, 15), (4, 99, 0)]);
    assert_eq!(load(&map, 3, 2), fault(0));
    assert_eq!(load(&map, 0, 4), granted(15));
}

#[test]
fn a14_bytes_of_an_entry_and_of_none_fault_with_the_entry() {
    for entry in 0..16 {
        for owners in [[entry, NONE], [NONE, entry]] {
            let map = map_of(&[(0, 3, owners[0]), (4, 99, owners[1])]);
            for mode in Mode::ALL {
                let verdict = query(&readable(), &map, mode, Access::Load, 2, 4);
                assert_eq!(verdict, fault(entry as usize));
            }
        }
    }
}

#[test]
fn all_none_and_none_decides() {
    let map = map_of(&[(0, 99, NONE)]);
    for (mode, ruling) in [
        (Mode::Machine, granted_by(None)),
        (Mode::Supervisor, fault_by(None, Access::Load)),
        (Mode::User, fault_by(None, Access::Load)),
    ] {
        let verdict = query(&readable(), &map, mode, Access::Load, 0, 8);
        assert_eq!(verdict, Verdict::Ruled(ruling));
    }
}

/// A hole of one byte, at each byte of the access in turn.
#[test]
fn a_byte_in_no_range_is_refused_wherever_it_is() {
    for size in [1, 2, 4, 8] {
        for hole in 0..size {
            let map = map_of(&[(16, 15 + hole, 3), (17 + hole, 99, 3)]);
            assert_eq!(load(&map, 16, size), UNREAD, "{size} bytes, hole at {hole}");
            assert_eq!(load(&map, 17 + hole, size), granted(3));
        }
    }
    let map = map_of(&[(0, 6, 3)]);
    assert_eq!(load(&map, 0, 8), UNREAD);
    assert_eq!(load(&map, 0, 4), granted(3));
    assert_eq!(load(&map, 6, 1), granted(3));
}

/// The bytes on both sides have owners that differ, which alone would be a fault.
#[test]
fn a13_a_bad_owner_of_any_byte_is_refused_before_owners_differ() {
    for owner in NO_OWNERS {
        for place in 0..8 {
            let bad = Range { first: place, last: place, owner };
            let mut map = map_of(&[(0, 0, 0), (0, 3, 5), (4, 99, 3)]);
            map.ranges[0] = bad;
            assert_eq!(load(&map, 0, 8), UNREAD, "owner {owner:x} of byte {place}");
            assert_eq!(load(&map, 8, 8), granted(3));
        }
        let map = map_of(&[(0, 3, owner), (4, 99, NONE)]);
        assert_eq!(load(&map, 2, 8), UNREAD);
        let machine = query(&Hart::reset(), &map, Mode::Machine, Access::Load, 4, 8);
        assert_eq!(machine, Verdict::Ruled(granted_by(None)));
    }
}

/// A range that is not read may have any owner.
#[test]
fn a_bad_owner_of_a_range_not_read_does_not_matter() {
    for owner in NO_OWNERS {
        let map = map_of(&[(0, 7, 3), (0, 99, owner), (8, 15, owner)]);
        assert_eq!(load(&map, 0, 8), granted(3));
        assert_eq!(load(&map, 1, 8), UNREAD);
    }
}

/// A range of a lower number that starts inside the access is read for its own
/// bytes, and the higher one for those before.
#[test]
fn each_byte_has_the_lowest_numbered_range_that_holds_it() {
    let inside = |owner| map_of(&[(4, 5, owner), (0, 99, 6)]);
    assert_eq!(load(&inside(6), 0, 8), granted(6));
    assert_eq!(load(&inside(2), 0, 8), fault(2));
    assert_eq!(load(&inside(9), 0, 8), fault(6));
    assert_eq!(load(&inside(NONE), 0, 8), fault(6));
    assert_eq!(load(&inside(17), 0, 8), UNREAD);
    assert_eq!(load(&inside(9), 0, 4), granted(6));
    assert_eq!(load(&inside(9), 4, 2), granted(9));
    assert_eq!(load(&inside(9), 6, 8), granted(6));
    let hidden = map_of(&[(0, 99, 6), (4, 5, 2)]);
    assert_eq!(load(&hidden, 0, 8), granted(6));
    assert_eq!(load(&hidden, 4, 2), granted(6));
}

#[test]
fn misordered_ranges_are_read_as_they_are_numbered() {
    let map = map_of(&[(8, 99, 4), (4, 7, 4), (0, 3, 4)]);
    assert_eq!(load(&map, 0, 8), granted(4));
    assert_eq!(load(&map, 2, 8), granted(4));
    assert_eq!(load(&map, 6, 8), granted(4));
    let map = map_of(&[(4, 99, 7), (0, 5, 2)]);
    assert_eq!(load(&map, 2, 2), granted(2));
    assert_eq!(load(&map, 4, 2), granted(7));
    assert_eq!(load(&map, 3, 2), fault(2));
}

#[test]
fn a_range_with_its_last_byte_before_its_first_holds_none() {
    let map = map_of(&[(5, 4, 0), (8, 0, 1), (u64::MAX, 0, 17), (0, 7, 3), (9, 99, 3)]);
    assert_eq!(load(&map, 0, 8), granted(3));
    assert_eq!(load(&map, 4, 4), granted(3));
    assert_eq!(load(&map, 4, 8), UNREAD);
}

/// The last byte alone is in the last range that is read, or in none.
#[test]
fn b31_no_byte_is_read_past_33_ranges_or_the_count() {
    let mut map = map_of(&[(1, 0, 0); 33]);
    map.ranges[0] = Range { first: 0, last: 6, owner: 3 };
    map.ranges[32] = Range { first: 7, last: 7, owner: 3 };
    for count in [33, 34, 40, 256, 1 << 32, u64::MAX] {
        assert_eq!(load(&Map { count, ..map }, 0, 8), granted(3));
    }
    for count in 0..=32 {
        assert_eq!(load(&Map { count, ..map }, 0, 8), UNREAD);
    }
}

/// The map is not read, nor is byte 0 where the addresses wrap.
#[test]
fn past_memory_none_decides_whatever_the_map_says() {
    let whole = map_of(&[(0, u64::MAX, 3)]);
    let bad = map_of(&[(0, u64::MAX, 17)]);
    let none = map_of(&[]);
    for map in [whole, bad, none] {
        for size in [1, 2, 4, 8] {
            for address in [MEMORY - size + 1, MEMORY, u64::MAX - size + 1, u64::MAX] {
                for access in Access::ALL {
                    let verdict = query(&readable(), &map, Mode::Machine, access, address, size);
                    assert_eq!(verdict, Verdict::Ruled(fault_by(None, access)), "{address:x}");
                }
            }
        }
    }
    assert_eq!(load(&whole, MEMORY - 8, 8), granted(3));
}

#[test]
fn the_fourth_word_is_the_entry_and_0_in_a_refusal() {
    for entry in 0..16 {
        assert_eq!(granted(entry).words(), [3, 0, 0, entry as u64]);
        assert_eq!(fault(entry).words(), [6, 5, 0, entry as u64]);
    }
    assert_eq!(Verdict::Ruled(granted_by(None)).words(), [3, 0, 0, 16]);
    assert_eq!(Verdict::Ruled(fault_by(None, Access::Fetch)).words(), [6, 1, 0, 16]);
    assert_eq!(UNREAD.words(), [5, 7, 0, 0]);
    assert_eq!(Verdict::Refused(Refusal::Size).words(), [5, 1, 0, 0]);
}

/// The owner word of the first range in the list that holds the byte.
fn listed_owner(map: &Map, byte: u64) -> Option<u64> {
    for range in map.ranges.iter().take(map.count.min(33) as usize) {
        if (range.first..=range.last).contains(&byte) {
            return Some(range.owner);
        }
    }
    None
}

/// A map of the ranges read alone, each cut to its byte, in falling order.
fn only_what_is_read(map: &Map, address: u64, size: u64) -> Map {
    let bytes = (0..size).rev().map(|offset| address + offset);
    let ranges: Vec<_> =
        bytes.filter_map(|byte| listed_owner(map, byte).map(|owner| (byte, byte, owner))).collect();
    map_of(&ranges)
}

/// The widened one-range clause: nothing of the map counts but the range of each
/// byte.
#[test]
fn a_query_hangs_on_the_ranges_read_alone() {
    let mut refused = 0;
    for seed in 0..100_000 {
        let mut random = Random::new(seed);
        let hart = generate::holdable(&mut random);
        let map = generate::map(&mut random, &hart);
        let address = generate::near_range(&mut random, &map);
        let size = 1 << random.below(4);
        if address > MEMORY - size {
            continue;
        }
        let read = only_what_is_read(&map, address, size);
        let (mode, access) = (random.pick(&Mode::ALL), random.pick(&Access::ALL));
        let verdict = query(&hart, &map, mode, access, address, size);
        assert_eq!(verdict, query(&hart, &read, mode, access, address, size), "seed {seed}");
        refused += u64::from(verdict == UNREAD);
    }
    assert!(refused > 1000, "{refused}");
}
