//! Request [9] of document 02 and source document 002: which bytes entries match with a
//! coarser grain, worked out by hand, and over random entries by a second reading.

mod common;

use common::paging::*;
use common::*;
use reference::protection::MEMORY;
use reference::random::Random;
use reference::{
    Access, Answer, Hart, MACHINE, Mode, NONE, Range, Ruling, SUPERVISOR, USER, generate,
};

const TOR: u8 = 0x0F;
const NAPOT: u8 = 0x1F;
const ALL_ONES: u64 = (1 << 54) - 1;
/// How many random states there are of each G.
const STATES: usize = 300;

/// The first and last byte of each range with an owner, and that.
fn owned(hart: &Hart) -> Vec<(u64, u64, u64)> {
    assert!(hart.can_hold());
    let map = hart.compile();
    let owned = map.listed().iter().filter(|range| range.owner != NONE);
    owned.map(|&Range { first, last, owner }| (first, last, owner)).collect()
}

#[test]
fn tor_ignores_the_low_bits_of_both_bounds() {
    // By 16 bytes: up to word 4, then from there up to word 12.
    let hart = hart_with(2, &[(TOR, 7), (TOR, 0xE)]);
    assert_eq!(owned(&hart), [(0, 0xF, 0), (0x10, 0x2F, 1)]);
    // By 32 bytes both bounds are word 8, so that entry 1 matches no byte.
    let hart = hart_with(3, &[(0, 9), (TOR, 15)]);
    assert_eq!(owned(&hart), []);
    assert_eq!(owned(&Hart { grain: 0, ..hart }), [(36, 59, 1)]);
    // The bounds are 9 and 8 as stored, and 8 and 8 by the grain: none either.
    assert_eq!(owned(&hart_with(3, &[(0, 9), (TOR, 8)])), []);
    // By 4,096 bytes: from 0x1000 up to 0x3000.
    let hart = hart_with(10, &[(0, 0x7FF), (TOR, 0xFFF)]);
    assert_eq!(owned(&hart), [(0x1000, 0x2FFF, 1)]);
    // Less than a grain from byte 0.
    assert_eq!(owned(&hart_with(10, &[(TOR, 0x3FF)])), []);
    assert_eq!(owned(&hart_with(10, &[(TOR, 0x400)])), [(0, 0xFFF, 0)]);
}

/// Irrespective of pmpcfg of the entry before, though that one reads otherwise.
#[test]
fn tor_begins_at_the_grain_whatever_the_entry_before_is() {
    for before in [0, 0x0F, 0x18, 0x1F, 0x98] {
        for (grain, low) in [(1, 1), (2, 3), (3, 7), (10, 0x3FF)] {
            let bottom = 5 << grain;
            for bits in [0, 1, low, low >> 1] {
                let hart = hart_with(grain, &[(before, bottom | bits), (TOR, 7 << grain | bits)]);
                let [first, past] = [4 * bottom, 4 * (7 << grain)];
                for byte in [first, past - 1] {
                    assert!(hart.matches(1, byte), "G {grain}, {before:x}, bits {bits:x}");
                }
                for byte in [first - 1, past] {
                    assert!(!hart.matches(1, byte), "G {grain}, {before:x}, bits {bits:x}");
                }
            }
        }
    }
}

/// W6 by grains.
#[test]
fn tor_with_all_ones_misses_the_last_grain() {
    for grain in 0..=10 {
        let hart = hart_with(grain, &[(TOR, ALL_ONES)]);
        assert_eq!(owned(&hart), [(0, MEMORY - (4 << grain) - 1, 0)]);
    }
}

#[test]
fn napot_matches_by_the_value_read() {
    for (grain, stored, first, last) in [
        (1, 0, 0, 7),
        (1, 1, 0, 15),
        (1, 2, 8, 15),
        (2, 0, 0, 15),
        (2, 1, 0, 15),
        (2, 2, 0, 31),
        (2, 4, 16, 31),
        (2, 5, 16, 31),
        (2, 6, 0, 63),
        (3, 4, 0, 63),
        (3, 8, 32, 63),
        (10, 0, 0, 0xFFF),
        (10, 0x1FE, 0, 0xFFF),
        (10, 0x200, 0, 0x1FFF),
        (10, 0x5A6, 0x1000, 0x1FFF),
        (10, 0x2000_0E00, 0x8000_0000, 0x8000_7FFF),
        (10, 0x2000_0C00, 0x8000_3000, 0x8000_3FFF),
        (10, ALL_ONES - 0x1FF, 0, MEMORY - 1),
        (10, ALL_ONES - 0x3FF, MEMORY - 0x1000, MEMORY - 1),
        (10, ALL_ONES, 0, MEMORY - 1),
    ] {
        let hart = hart_with(grain, &[(NAPOT, stored)]);
        assert_eq!(owned(&hart), [(first, last, 0)], "G {grain}, stored {stored:x}");
        let sides =
            [(first.wrapping_sub(1), false), (first, true), (last, true), (last + 1, false)];
        for (byte, matched) in sides.into_iter().filter(|&(byte, _)| byte < MEMORY) {
            assert_eq!(hart.matches(0, byte), matched, "G {grain}, byte {byte:x}");
        }
    }
}

/// Entry 0 has 16 bytes at 0x10 and no rights.
#[test]
fn the_byte_rule_is_by_grains() {
    let hart = hart_with(2, &[(0x98, 4), (NAPOT, ALL_ONES)]);
    for mode in Mode::ALL {
        let ruling = |address, size| hart.byte_rule(mode.number(), Access::Load, address, size);
        for address in [0x10, 0x18, 0xC, 0x1C, 0x9] {
            assert_eq!(ruling(address, 8), fault_by(Some(0), Access::Load), "{address:x}");
        }
        for address in [0x8, 0x20] {
            assert_eq!(ruling(address, 8), granted_by(Some(1)), "{address:x}");
        }
    }
}

/// The page of the last table, all of which a grain of 4,096 bytes denies; by grains of
/// 4 bytes only its first word pair is denied.
#[test]
fn a_table_read_is_checked_by_grains() {
    let words = tables(&[
        (ROOT, 0, pointer(MIDDLE)),
        (MIDDLE, 0, pointer(LAST)),
        (LAST, 5, entry(0x9000_0000, RWX)),
    ]);
    let address = virtual_address([0, 0, 5], 0x10);
    let denying = with_entry(&translating(SUPERVISOR), 0, 0x18, (BASE + 0x2000) >> 2);
    let (_, answer) = access(&denying, &words, LOAD, address, 8);
    assert_eq!(answer, Answer::Granted { entry: Some(5) });
    let coarse = Hart { grain: 10, ..denying };
    let (_, answer) = access(&coarse, &words, LOAD, address, 8);
    assert_eq!(answer, trapped_by(Some(0), 5, Mode::Machine));
}

/// Whether an entry matches a byte, read once more from 002: TOR compares addresses by
/// grains, NAPOT those bits that are above the lowest zero of what pmpaddr reads.
fn matches(hart: &Hart, entry: usize, byte: u64) -> bool {
    let grains = |bytes: u64| bytes / (4 << hart.grain);
    let address = |entry: usize| grains(4 * hart.pmpaddr[entry]);
    match hart.pmpcfg[entry] / 8 % 4 {
        0 => false,
        1 if entry == 0 => grains(byte) < address(0),
        1 => (address(entry - 1)..address(entry)).contains(&grains(byte)),
        2 => (0..4).any(|offset| 4 * hart.pmpaddr[entry] + offset == byte),
        _ => {
            let reads_one = |bit: u64| bit + 1 < hart.grain || hart.pmpaddr[entry] >> bit & 1 == 1;
            let lowest_zero = (0..).find(|&bit| !reads_one(bit)).unwrap();
            (lowest_zero + 1..54).all(|bit| (hart.pmpaddr[entry] ^ byte / 4) >> bit & 1 == 0)
        }
    }
}

fn owner(hart: &Hart, byte: u64) -> u64 {
    (0..16).find(|&entry| matches(hart, entry, byte)).map_or(NONE, |entry| entry as u64)
}

/// The byte rule of document 01, byte by byte.
fn ruling(hart: &Hart, mode: u64, access: Access, address: u64, size: u64) -> Ruling {
    if address.checked_add(size).is_none_or(|past| past > MEMORY) {
        return fault_by(None, access);
    }
    let owners: Vec<u64> = (address..address + size).map(|byte| owner(hart, byte)).collect();
    let decider = *owners.iter().min().unwrap();
    if decider == NONE {
        return if mode == MACHINE { granted_by(None) } else { fault_by(None, access) };
    }
    let byte = hart.pmpcfg[decider as usize];
    let right = byte >> [2, 0, 1][access as usize] & 1 == 1 || mode == MACHINE && byte < 0x80;
    let entry = Some(decider as usize);
    let granted = right && owners.iter().all(|&owner| owner == decider);
    if granted { granted_by(entry) } else { fault_by(entry, access) }
}

/// Random states, as many of each G.
fn states() -> impl Iterator<Item = (Random, Hart)> {
    let state = |seed| {
        let mut random = Random::new(seed);
        let hart = generate::holdable(&mut random);
        (random, hart)
    };
    (0..=10).flat_map(move |grain| {
        (0..).map(state).filter(move |(_, hart)| hart.grain == grain).take(STATES)
    })
}

/// Bytes on both sides of every place where an entry may begin or end.
fn places(hart: &Hart) -> Vec<u64> {
    let mut places = Vec::new();
    for pmpaddr in hart.pmpaddr {
        let ends = (0..=54).map(|bit| 4 * (pmpaddr >> bit << bit));
        let past = (0..=54).map(|bit| 4 * ((pmpaddr >> bit) + 1 << bit));
        places.extend(ends.chain(past).chain([4 * pmpaddr]));
    }
    places.extend(places.clone().iter().map(|&place| place.wrapping_sub(1)));
    places.extend([0, MEMORY - 1]);
    places.retain(|&place| place < MEMORY);
    places
}

#[test]
fn the_map_is_that_of_the_owners_joined() {
    for (_, hart) in states() {
        let mut starts: Vec<u64> = places(&hart);
        starts.sort_unstable();
        starts.dedup();
        let mut joined: Vec<Range> = Vec::new();
        for first in starts {
            let owner = owner(&hart, first);
            match joined.last_mut() {
                Some(range) if range.owner == owner => {}
                last => {
                    last.into_iter().for_each(|range| range.last = first - 1);
                    joined.push(Range { first, last: MEMORY - 1, owner });
                }
            }
        }
        assert_eq!(hart.compile().listed(), joined, "{hart:x?}");
    }
}

#[test]
fn the_byte_rule_is_that_of_every_byte() {
    let mut by_grain = 0;
    for (mut random, hart) in states() {
        let map = hart.compile();
        let finest = Hart { grain: 0, ..hart };
        let places = places(&hart);
        for place in 0..40 {
            let address = match place % 3 {
                0 => generate::near_range(&mut random, &map),
                1 => random.pick(&places).wrapping_sub(random.below(8)),
                _ => generate::address(&mut random, &hart, &map),
            };
            let size = 1 << random.below(4);
            let mode = random.pick(&[USER, SUPERVISOR, MACHINE]);
            let access = random.pick(&Access::ALL);
            let expected = ruling(&hart, mode, access, address, size);
            let found = hart.byte_rule(mode, access, address, size);
            assert_eq!(found, expected, "{address:x}, {size} bytes, {hart:x?}");
            by_grain += u64::from(found != finest.byte_rule(mode, access, address, size));
        }
    }
    assert!(by_grain > 10_000, "{by_grain}");
}
