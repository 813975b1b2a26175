//! Request [5] of document 02: the byte rule and the steps say which entry decided.

mod common;

use common::*;
use reference::protection::MEMORY;
use reference::random::Random;
use reference::{
    Access, Answer, Cause, Entry, Hart, MACHINE, Mode, NONE, Refusal, Ruling, SUPERVISOR, USER,
    generate,
};

const TOR: u8 = 1 << 3;
const NA4: u8 = 2 << 3;
const NAPOT: u8 = 3 << 3;
const LOCK: u8 = 0x80;
const READ: u8 = 1;
const ALL_RIGHTS: u8 = 7;
/// NAPOT of bytes 0 to 1F.
const AROUND: u64 = 3;
const FETCH: u64 = 14;
const LOAD: u64 = 15;
const STORE: u64 = 16;

/// Entries by number, each with configuration byte and pmpaddr; all others off.
fn with_entries(entries: &[(usize, u8, u64)]) -> Hart {
    let mut hart = Hart::reset();
    for &(entry, configuration, pmpaddr) in entries {
        (hart.pmpcfg[entry], hart.pmpaddr[entry]) = (configuration, pmpaddr);
    }
    hart
}

/// A load must be ruled so in every mode.
fn assert_load(hart: &Hart, address: u64, size: u64, expected: Ruling) {
    for mode in [USER, SUPERVISOR, MACHINE] {
        let found = hart.byte_rule(mode, Access::Load, address, size);
        assert_eq!(found, expected, "mode {mode}, {address:x}, {size} bytes, {hart:x?}");
    }
}

fn fault(entry: usize) -> Ruling {
    fault_by(Some(entry), Access::Load)
}

/// Bytes 2 to 9 lie in words 0, 1 and 2: the first, the middle and the last bytes.
#[test]
fn a_lower_entry_inside_a_higher_one_decides_wherever_it_is() {
    for word in 0..3 {
        let hart = with_entries(&[(2, NA4 | ALL_RIGHTS, word), (9, NAPOT | ALL_RIGHTS, AROUND)]);
        assert_load(&hart, 2, 8, fault(2));
        assert_load(&hart, 16, 8, granted_by(Some(9)));
    }
}

#[test]
fn a_higher_entry_inside_a_lower_one_decides_nothing() {
    for word in 0..3 {
        let hart = with_entries(&[(2, NAPOT | ALL_RIGHTS, AROUND), (9, NA4, word)]);
        assert_load(&hart, 2, 8, granted_by(Some(2)));
    }
}

#[test]
fn a_lone_entry_decides_at_the_first_the_middle_and_the_last_bytes() {
    for entry in [0, 1, 7, 8, 15] {
        for word in 0..3 {
            let hart = with_entries(&[(entry, NA4 | ALL_RIGHTS, word)]);
            assert_load(&hart, 2, 8, fault(entry));
        }
        let elsewhere = with_entries(&[(entry, NA4 | ALL_RIGHTS, 3)]);
        let none = elsewhere.byte_rule(USER, Access::Load, 2, 8);
        assert_eq!(none, fault_by(None, Access::Load));
    }
}

/// The lower of two entries decides, be it before or after the other in memory,
/// and whether or not both together match every byte.
#[test]
fn the_deciding_entry_need_not_be_that_of_the_first_byte() {
    for (one, other) in [(0, 1), (4, 7), (0, 15), (14, 15)] {
        let rising = with_entries(&[(one, NA4 | ALL_RIGHTS, 0), (other, NA4 | ALL_RIGHTS, 1)]);
        let falling = with_entries(&[(other, NA4 | ALL_RIGHTS, 0), (one, NA4 | ALL_RIGHTS, 1)]);
        for (address, size) in [(0, 8), (3, 2), (2, 4), (1, 8)] {
            assert_load(&rising, address, size, fault(one));
            assert_load(&falling, address, size, fault(one));
        }
        assert_load(&falling, 0, 4, granted_by(Some(other)));
        assert_load(&falling, 4, 4, granted_by(Some(one)));
    }
}

#[test]
fn bytes_of_an_entry_and_of_none_fault_with_the_entry() {
    let hart = with_entries(&[(3, NA4 | ALL_RIGHTS, 2)]);
    for (address, size) in [(4, 8), (7, 2), (6, 4), (8, 8), (11, 2), (10, 4), (6, 8)] {
        assert_load(&hart, address, size, fault(3));
    }
}

#[test]
fn a_locked_entry_decides_in_machine_too() {
    let hart = with_entries(&[(6, LOCK | NA4 | READ, 1), (11, LOCK | NAPOT, AROUND)]);
    let rule = |access, address, size| hart.byte_rule(MACHINE, access, address, size);
    assert_eq!(rule(Access::Load, 4, 4), granted_by(Some(6)));
    assert_eq!(rule(Access::Store, 4, 4), fault_by(Some(6), Access::Store));
    assert_eq!(rule(Access::Fetch, 4, 4), fault_by(Some(6), Access::Fetch));
    assert_eq!(rule(Access::Load, 8, 4), fault_by(Some(11), Access::Load));
    assert_eq!(rule(Access::Load, 0, 8), fault_by(Some(6), Access::Load));
    assert_eq!(rule(Access::Load, 0x1C, 8), fault_by(Some(11), Access::Load));
    assert_eq!(rule(Access::Store, 0x20, 8), granted_by(None));
}

/// No byte matches an entry that is off, or a TOR entry with its top at its bottom
/// or below.
#[test]
fn an_entry_without_bytes_never_decides() {
    let hart =
        with_entries(&[(0, LOCK, 0x10), (1, LOCK | TOR, 0x10), (2, LOCK | TOR, 0), (5, NA4, 0)]);
    let fetch = |address| hart.byte_rule(MACHINE, Access::Fetch, address, 4);
    assert_eq!(fetch(0x3C), granted_by(None));
    assert_eq!(fetch(0x40), granted_by(None));
    assert_eq!(fetch(0), granted_by(Some(5)));
}

#[test]
fn past_memory_none_decides_even_where_an_entry_matches_the_first_bytes() {
    let last = (1 << 54) - 1;
    for (configuration, pmpaddr) in [(NAPOT, last), (NA4, last), (NAPOT, last - 1), (TOR, last)] {
        let hart = with_entries(&[(0, LOCK | ALL_RIGHTS | configuration, pmpaddr)]);
        for (before, size) in [(7, 8), (6, 8), (5, 8), (4, 8), (3, 4), (1, 2), (1, 8), (0, 1)] {
            let none = fault_by(None, Access::Load);
            assert_load(&hart, MEMORY - before, size, none);
            assert_load(&hart, u64::MAX - before, size, none);
        }
    }
}

/// The rule is not only for the sizes a load can have.
#[test]
fn any_size_from_1_up() {
    let hart = with_entries(&[(8, NA4 | ALL_RIGHTS, 4), (12, NAPOT | ALL_RIGHTS, AROUND)]);
    for size in 1..=16 {
        assert_load(&hart, 0, size, granted_by(Some(12)));
    }
    for size in 17..=100 {
        assert_load(&hart, 0, size, fault(8));
    }
    for size in 1..=12 {
        assert_load(&hart, 20, size, granted_by(Some(12)));
    }
    for size in 13..=100 {
        assert_load(&hart, 20, size, fault(12));
        assert_load(&hart, MEMORY - size + 1, size, fault_by(None, Access::Load));
    }
}

/// The lowest entry that matches any byte, from the owners of the bytes.
fn expected_entry(hart: &Hart, address: u64, size: u64) -> Entry {
    let owners = (0..size).map(|offset| hart.owner(address + offset));
    owners.min().filter(|&owner| owner != NONE).map(|owner| owner as usize)
}

#[test]
fn on_random_states_the_lowest_owner_of_the_bytes_decides() {
    let mut partial = 0;
    for seed in 0..20_000 {
        let mut random = Random::new(seed);
        let hart = generate::holdable(&mut random);
        let address = generate::address(&mut random, &hart, &hart.compile());
        let size = 1 + random.below(20);
        if address >= MEMORY - size {
            continue;
        }
        let entry = expected_entry(&hart, address, size);
        let owner = entry.map_or(NONE, |entry| entry as u64);
        let all = (0..size).all(|offset| hart.owner(address + offset) == owner);
        partial += u64::from(!all);
        for access in Access::ALL {
            let expected = if all { granted_by(entry) } else { fault_by(entry, access) };
            let unlocked = Hart { pmpcfg: hart.pmpcfg.map(|byte| byte & !LOCK), ..hart };
            assert_eq!(unlocked.byte_rule(MACHINE, access, address, size), expected);
        }
    }
    assert!(partial > 1000, "{partial}");
}

/// A fetch is at pc; loads and stores may be judged by MPP and delegated.
#[test]
fn steps_14_to_16_answer_with_the_entry() {
    let mut hart = with_entries(&[(4, NA4 | READ, 0x400), (10, NAPOT, 0x1FF)]);
    for (mode, destination) in [(USER, Mode::Supervisor), (SUPERVISOR, Mode::Supervisor)] {
        (hart.mode, hart.medeleg) = (mode, 0x3FF);
        assert_eq!(run(&hart, LOAD, 0x1000, 4), (hart, Answer::Granted { entry: Some(4) }));
        assert_eq!(run(&hart, STORE, 0x1000, 4).1, trapped_by(Some(4), 7, destination));
        assert_eq!(run(&hart, FETCH, 0, 0).1, trapped_by(Some(4), 1, destination));
        assert_eq!(run(&hart, LOAD, 0xFFC, 8).1, trapped_by(Some(4), 5, destination));
        assert_eq!(run(&hart, LOAD, 0xFF8, 8).1, trapped_by(Some(10), 5, destination));
        assert_eq!(run(&hart, LOAD, 0x1004, 8).1, trapped_by(None, 5, destination));
        assert_eq!(run(&hart, STORE, MEMORY - 4, 8).1, trapped_by(None, 7, destination));
    }
    hart.mode = MACHINE;
    assert_eq!(run(&hart, FETCH, 0, 0), (hart, Answer::Granted { entry: Some(4) }));
    assert_eq!(run(&hart, STORE, 0, 8), (hart, Answer::Granted { entry: Some(10) }));
    assert_eq!(run(&hart, STORE, 0x1004, 8), (hart, Answer::Granted { entry: None }));
    assert_eq!(run(&hart, STORE, 0xFFE, 4).1, trapped_by(Some(4), 7, Mode::Machine));
    assert_eq!(run(&hart, LOAD, 0, 5).1, refused(Refusal::Size));
}

/// Entry 0 matches every byte, yet decides nothing here: there is no access.
#[test]
fn a2_a_trap_that_comes_from_no_access_has_none() {
    for mode in [USER, SUPERVISOR, MACHINE] {
        let mut hart = with_entries(&[(0, LOCK | NAPOT, (1 << 54) - 1)]);
        hart.mode = mode;
        for (number, a, b, code) in [
            (1, 0xF11, 0, 2),
            (4, 0x7C0, 0, 2),
            (5, 0, 0, 0),
            (5, 1, 0x1000, 1),
            (5, 5, 0x1000, 5),
            (5, 7, 0x1000, 7),
            (11, 0, 0, 8 + mode),
            (12, 0, 0, 3),
            (13, 0x1002, 0, 0),
        ] {
            assert_eq!(run(&hart, number, a, b).1, trapped(code, Mode::Machine), "step {number}");
        }
    }
    for number in [8, 9, 10] {
        assert_eq!(run(&in_mode(USER), number, 0, 0).1, illegal());
    }
}

#[test]
fn the_fourth_word_is_the_entry_and_0_where_there_can_be_none() {
    let cause = Cause::Exception(5);
    let words = |entry| {
        let trap = Answer::Trapped { cause, destination: Mode::Supervisor, entry };
        [Answer::Granted { entry }.words(), trap.words()]
    };
    for entry in 0..16 {
        let word = entry as u64;
        assert_eq!(words(Some(entry)), [[3, 0, 0, word], [4, 5, 1, word]]);
    }
    assert_eq!(words(None), [[3, 0, 0, 16], [4, 5, 1, 16]]);
    assert_eq!(illegal().words(), [4, 2, 3, 16]);
    assert_eq!(Answer::Done.words(), [0, 0, 0, 0]);
    assert_eq!(Answer::Value(u64::MAX).words(), [1, u64::MAX, 0, 0]);
    assert_eq!(Answer::Decision(true).words(), [2, 1, 0, 0]);
    assert_eq!(Answer::Decision(false).words(), [2, 0, 0, 0]);
    assert_eq!(refused(Refusal::Argument).words(), [5, 2, 0, 0]);
}
