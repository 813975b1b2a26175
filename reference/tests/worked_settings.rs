//! The hand-checked settings W1 to W12 of the scope document, and which entry
//! decides accesses in W1 to W9, worked out by hand too.

mod common;

use common::{fault_by, granted_by, trapped_by};
use reference::protection::MEMORY;
use reference::{
    Access, Answer, Hart, MACHINE, Map, Memory, Mode, NONE, Range, Ruling, SUPERVISOR, Step, USER,
    Verdict, query, step,
};

const TOR: u8 = 1 << 3;
const NA4: u8 = 2 << 3;
const NAPOT: u8 = 3 << 3;
/// R, W and X.
const ALL_RIGHTS: u8 = 7;

fn with_entries(entries: &[(u8, u64)]) -> Hart {
    let mut hart = Hart::reset();
    for (entry, &(configuration, pmpaddr)) in entries.iter().enumerate() {
        hart.pmpcfg[entry] = configuration;
        hart.pmpaddr[entry] = pmpaddr;
    }
    hart
}

fn ranges(hart: &Hart) -> Vec<(u64, u64, u64)> {
    let map = hart.compile();
    map.listed().iter().map(|&Range { first, last, owner }| (first, last, owner)).collect()
}

/// How an access lies to the entries.
#[derive(Clone, Copy, Debug)]
enum Lies {
    /// All its bytes in this entry, the lowest that matches any.
    In(usize),
    /// Some of its bytes in this entry, the lowest that matches any.
    Across(usize),
    Outside,
    PastMemory,
}
use Lies::{Across, In, Outside, PastMemory};

/// Unlocked entries let M pass where they match the whole access, and others where
/// they have the right.
fn ruled(hart: &Hart, lies: Lies, mode: Mode, access: Access) -> Ruling {
    let machine = mode == Mode::Machine;
    match lies {
        In(entry) if machine || hart.pmpcfg[entry] & 7 == ALL_RIGHTS => granted_by(Some(entry)),
        In(entry) | Across(entry) => fault_by(Some(entry), access),
        Outside if machine => granted_by(None),
        Outside | PastMemory => fault_by(None, access),
    }
}

/// Accesses by address and size, first with no rights and then with all, by the
/// byte rule and by a query on the map.
fn assert_decided(hart: &Hart, accesses: &[(u64, u64, Lies)]) {
    for rights in [0, ALL_RIGHTS] {
        let hart = Hart { pmpcfg: hart.pmpcfg.map(|byte| byte & !ALL_RIGHTS | rights), ..*hart };
        for &(address, size, lies) in accesses {
            for (mode, access) in Mode::ALL.into_iter().flat_map(|m| Access::ALL.map(|a| (m, a))) {
                let expected = ruled(&hart, lies, mode, access);
                let found = hart.byte_rule(mode.number(), access, address, size);
                assert_eq!(found, expected, "{address:x}, {size} bytes: {lies:?}");
                let verdict = query(&hart, &hart.compile(), mode, access, address, size);
                assert_eq!(verdict, Verdict::Ruled(expected), "{address:x}, {size} bytes");
            }
        }
    }
}

#[test]
fn w1_partial_match_faults_in_every_mode() {
    for (mode, medeleg) in [(MACHINE, 0), (SUPERVISOR, 0), (USER, 0), (USER, 0x3FF)] {
        for (access, cause) in [(15, 5), (16, 7)] {
            let mut hart = with_entries(&[(NA4 | ALL_RIGHTS, 3)]);
            (hart.mode, hart.medeleg) = (mode, medeleg);
            let mut map = hart.compile();
            let answer =
                step(&mut hart, &mut map, Memory::EMPTY, Step::from_words(access, 8, 8).unwrap());
            let destination = if medeleg == 0 { Mode::Machine } else { Mode::Supervisor };
            assert_eq!(answer, trapped_by(Some(0), cause, destination));
        }
    }
    let hart = with_entries(&[(NA4 | ALL_RIGHTS, 3)]);
    for mode in Mode::ALL {
        for access in Access::ALL {
            let ruling = hart.byte_rule(mode.number(), access, 8, 8);
            assert_eq!(ruling, fault_by(Some(0), access));
            let verdict = query(&hart, &hart.compile(), mode, access, 8, 8);
            assert_eq!(verdict.words(), [6, access.fault(), 0, 0]);
        }
    }
}

/// Entry 0 is bytes C to F.
#[test]
fn w1_the_entry_decides_wherever_it_matches_a_byte() {
    let accesses = [
        (0x8, 8, Across(0)),
        (0x8, 4, Outside),
        (0xB, 1, Outside),
        (0xB, 2, Across(0)),
        (0xB, 8, Across(0)),
        (0xC, 4, In(0)),
        (0xC, 8, Across(0)),
        (0xF, 1, In(0)),
        (0xF, 2, Across(0)),
        (0x10, 8, Outside),
    ];
    assert_decided(&with_entries(&[(NA4, 3)]), &accesses);
}

#[test]
fn w2_to_w5_napot() {
    let last = MEMORY - 1;
    for (pmpaddr, first, past) in [
        (0, 0, 8),
        (0x2000_0FFF, 0x8000_0000, 0x8000_8000),
        ((1 << 52) - 1, 0, 1 << 55),
        ((1 << 53) - 1, 0, MEMORY),
        ((1 << 54) - 1, 0, MEMORY),
    ] {
        let hart = with_entries(&[(NAPOT, pmpaddr)]);
        let mut expected = Vec::new();
        if first > 0 {
            expected.push((0, first - 1, NONE));
        }
        expected.push((first, past - 1, 0));
        if past < MEMORY {
            expected.push((past, last, NONE));
        }
        assert_eq!(ranges(&hart), expected);
        for byte in [0, first.saturating_sub(1), first, past - 1, past.min(last), last] {
            assert_eq!(hart.matches(0, byte), first <= byte && byte < past);
        }
    }
}

#[test]
fn w2_to_w5_deciding_entries() {
    let w2 = [(0, 8, In(0)), (1, 8, Across(0)), (7, 1, In(0)), (7, 2, Across(0)), (8, 8, Outside)];
    assert_decided(&with_entries(&[(NAPOT, 0)]), &w2);
    let w3 = [
        (0x7FFF_FFF8, 8, Outside),
        (0x7FFF_FFF9, 8, Across(0)),
        (0x7FFF_FFFF, 2, Across(0)),
        (0x8000_0000, 8, In(0)),
        (0x8000_7FF8, 8, In(0)),
        (0x8000_7FFC, 8, Across(0)),
        (0x8000_8000, 1, Outside),
    ];
    assert_decided(&with_entries(&[(NAPOT, 0x2000_0FFF)]), &w3);
    let half = 1 << 55;
    let w4 = [(0, 8, In(0)), (half - 8, 8, In(0)), (half - 1, 2, Across(0)), (half, 4, Outside)];
    assert_decided(&with_entries(&[(NAPOT, (1 << 52) - 1)]), &w4);
    let w5 = [
        (0, 1, In(0)),
        (half - 4, 8, In(0)),
        (MEMORY - 8, 8, In(0)),
        (MEMORY - 7, 8, PastMemory),
        (MEMORY - 1, 1, In(0)),
        (MEMORY - 1, 2, PastMemory),
        (MEMORY, 1, PastMemory),
    ];
    assert_decided(&with_entries(&[(NAPOT, (1 << 53) - 1)]), &w5);
    assert_decided(&with_entries(&[(NAPOT, (1 << 54) - 1)]), &w5);
}

#[test]
fn w6_deciding_entries() {
    let accesses = [
        (0, 8, In(0)),
        (MEMORY - 12, 8, In(0)),
        (MEMORY - 11, 8, Across(0)),
        (MEMORY - 8, 4, In(0)),
        (MEMORY - 8, 8, Across(0)),
        (MEMORY - 5, 2, Across(0)),
        (MEMORY - 5, 8, PastMemory),
        (MEMORY - 4, 4, Outside),
        (MEMORY - 4, 8, PastMemory),
    ];
    assert_decided(&with_entries(&[(TOR, (1 << 54) - 1)]), &accesses);
}

#[test]
fn w6_tor_misses_the_last_four_bytes() {
    let hart = with_entries(&[(TOR, (1 << 54) - 1)]);
    assert_eq!(ranges(&hart), [(0, MEMORY - 5, 0), (MEMORY - 4, MEMORY - 1, NONE)]);
    assert!(hart.matches(0, MEMORY - 5));
    assert!(!hart.matches(0, MEMORY - 4));
}

#[test]
fn w7_reset_map() {
    assert_eq!(ranges(&Hart::reset()), [(0, MEMORY - 1, NONE)]);
    assert_eq!(Hart::reset().compile(), Map::reset());
}

#[test]
fn w7_none_decides() {
    let accesses = [(0, 8, Outside), (MEMORY - 8, 8, Outside), (MEMORY - 4, 8, PastMemory)];
    assert_decided(&Hart::reset(), &accesses);
}

#[test]
fn w8_deciding_entries() {
    let accesses = [
        (0x0, 8, In(1)),
        (0x8, 4, In(1)),
        (0x8, 8, Across(0)),
        (0xB, 2, Across(0)),
        (0xC, 4, In(0)),
        (0xE, 2, In(0)),
        (0xE, 4, Across(0)),
        (0xC, 8, Across(0)),
        (0x10, 8, In(1)),
        (0xFF8, 8, In(1)),
        (0xFFC, 8, Across(1)),
        (0xFFF, 2, Across(1)),
        (0x1000, 8, Outside),
    ];
    assert_decided(&with_entries(&[(NA4, 3), (NAPOT, 0x1FF)]), &accesses);
}

/// Entry e is the four bytes from 8e+4 on. Eight bytes from 8e+6 on touch the next
/// entry too, which is the higher one.
#[test]
fn w9_deciding_entries() {
    let entries: Vec<(u8, u64)> = (0..16).map(|entry| (NA4, 2 * entry + 1)).collect();
    for entry in 0..16 {
        let start = 8 * entry as u64;
        let accesses = [
            (start, 4, Outside),
            (start, 8, Across(entry)),
            (start + 3, 2, Across(entry)),
            (start + 4, 4, In(entry)),
            (start + 4, 8, Across(entry)),
            (start + 6, 2, In(entry)),
            (start + 6, 8, Across(entry)),
            (start + 7, 2, Across(entry)),
            (start + 8, 4, Outside),
        ];
        assert_decided(&with_entries(&entries), &accesses);
    }
}

#[test]
fn w8_two_entries() {
    let hart = with_entries(&[(NA4, 3), (NAPOT, 0x1FF)]);
    let expected = [(0, 0xB, 1), (0xC, 0xF, 0), (0x10, 0xFFF, 1), (0x1000, MEMORY - 1, NONE)];
    assert_eq!(ranges(&hart), expected);
}

#[test]
fn w9_sixteen_entries_make_33_ranges() {
    let entries: Vec<(u8, u64)> = (0..16).map(|entry| (NA4, 2 * entry + 1)).collect();
    let ranges = ranges(&with_entries(&entries));
    assert_eq!(ranges.len(), 33);
    for (place, &(first, last, owner)) in ranges.iter().enumerate() {
        let place = place as u64;
        assert_eq!(first, 4 * place);
        assert_eq!(last, if place == 32 { MEMORY - 1 } else { 4 * place + 3 });
        assert_eq!(owner, if place % 2 == 1 { place / 2 } else { NONE });
    }
}

#[test]
fn w10_mret() {
    let mut hart = Hart { mstatus: 0xA_0002_0880, mepc: 0x4444, ..Hart::reset() };
    assert_eq!(step(&mut hart, &mut Map::reset(), Memory::EMPTY, Step::Mret), Answer::Done);
    assert_eq!((hart.mstatus, hart.mode, hart.pc), (0xA_0000_0088, SUPERVISOR, 0x4444));
}

#[test]
fn w11_vectored_interrupt() {
    for (mtvec, pc) in [(0x8000_0001, 0x8000_001C), (u64::MAX - 2, 0x18)] {
        let mut hart = Hart { mode: USER, mtvec, mie: 0x80, lines: 0x80, ..Hart::reset() };
        let answer = step(&mut hart, &mut Map::reset(), Memory::EMPTY, Step::TakeInterrupt);
        assert_eq!(answer, Answer::Decision(true));
        assert_eq!((hart.pc, hart.mode, hart.mcause), (pc, MACHINE, 1 << 63 | 7));
    }
}

#[test]
fn w12_cycles() {
    for (mcycle, cycles, expected) in [(u64::MAX, 1, 0), (0, 70_000, 70_000)] {
        let mut hart = Hart { mcycle, ..Hart::reset() };
        let answer =
            step(&mut hart, &mut Map::reset(), Memory::EMPTY, Step::Elapsed { cycles, retired: 0 });
        assert_eq!((answer, hart.mcycle), (Answer::Done, expected));
    }
}
