//! Request [3] of document 02: the range of a NAPOT entry, over every shape of
//! pmpaddr, from trailing ones counted bit by bit.

use std::collections::BTreeSet;

use reference::protection::MEMORY;
use reference::{Hart, NONE, generate};

const NAPOT: u8 = 3 << 3;

fn trailing_ones(pmpaddr: u64) -> u32 {
    let mut ones = 0;
    while pmpaddr >> ones & 1 == 1 {
        ones += 1;
    }
    ones
}

/// The first and the last byte, by the words of document 01.
fn expected_range(pmpaddr: u64) -> (u64, u64) {
    let ones = trailing_ones(pmpaddr);
    let first = 4 * (pmpaddr - ((1 << ones) - 1));
    (first, (first + (1 << (ones + 3))).min(MEMORY) - 1)
}

fn with_entry(pmpaddr: u64) -> Hart {
    let mut hart = Hart::reset();
    (hart.pmpcfg[0], hart.pmpaddr[0]) = (NAPOT, pmpaddr);
    hart
}

#[test]
fn the_shapes_are_1538_registers_of_every_count_w2_to_w5_among_them() {
    let listed = generate::napot_registers();
    let registers: BTreeSet<u64> = listed.iter().copied().collect();
    assert_eq!((listed.len(), registers.len()), (1538, 1538));
    for &pmpaddr in &registers {
        assert!(pmpaddr < 1 << 54, "{pmpaddr:x}");
    }
    for ones in 0..=54 {
        let expected = if ones < 52 { 55 - ones } else { [2, 1, 1][ones - 52] };
        let found = registers.iter().filter(|&&pmpaddr| trailing_ones(pmpaddr) == ones as u32);
        assert_eq!(found.count(), expected, "{ones} ones");
    }
    for pmpaddr in [0, 0x2000_0FFF, (1 << 52) - 1, (1 << 53) - 1, (1 << 54) - 1] {
        assert!(registers.contains(&pmpaddr), "{pmpaddr:x}");
    }
}

/// Besides the borders, every byte is tried that differs from the first or the
/// last one in a single bit.
#[test]
fn an_entry_matches_just_the_bytes_that_its_trailing_ones_give() {
    for pmpaddr in generate::napot_registers() {
        let (first, last) = expected_range(pmpaddr);
        let hart = with_entry(pmpaddr);
        let near = [first.wrapping_sub(1), first, last, last + 1];
        let turned = (0..56).flat_map(|bit| [first ^ 1 << bit, last ^ 1 << bit]);
        for byte in near.into_iter().chain(turned).filter(|&byte| byte < MEMORY) {
            let expected = first <= byte && byte <= last;
            assert_eq!(hart.matches(0, byte), expected, "{pmpaddr:x}, byte {byte:x}");
        }
    }
}

#[test]
fn the_map_has_just_the_range_that_the_trailing_ones_give() {
    for pmpaddr in generate::napot_registers() {
        let map = with_entry(pmpaddr).compile();
        let owned = map.listed().iter().filter(|range| range.owner != NONE);
        let owned: Vec<_> = owned.map(|range| (range.first, range.last, range.owner)).collect();
        let (first, last) = expected_range(pmpaddr);
        assert_eq!(owned, [(first, last, 0)], "{pmpaddr:x}");
    }
}
