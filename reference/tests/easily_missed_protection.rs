//! Rules easily missed about protection and queries, numbered as in the list
//! of readings.

mod common;

use common::*;
use reference::protection::MEMORY;
use reference::{
    Access, Answer, Hart, MACHINE, Map, Mode, NONE, Range, Refusal, Ruling, SUPERVISOR, USER,
    Verdict, query,
};

const TOR: u8 = 1 << 3;
const NA4: u8 = 2 << 3;
const NAPOT: u8 = 3 << 3;
const LOCK: u8 = 0x80;
const MPRV: u64 = 1 << 17;
const LOAD: u64 = 15;
const STORE: u64 = 16;

fn with_entry(entry: usize, configuration: u8, pmpaddr: u64) -> Hart {
    let mut hart = Hart::reset();
    hart.pmpcfg[entry] = configuration;
    hart.pmpaddr[entry] = pmpaddr;
    hart
}

#[test]
fn b14_a_partial_match_faults_even_in_machine_without_lock() {
    let hart = with_entry(5, NA4 | 7, 3);
    let load = |address, size| hart.byte_rule(MACHINE, Access::Load, address, size);
    for (address, size) in [(9, 8), (8, 8), (15, 2)] {
        assert_eq!(load(address, size), fault_by(Some(5), Access::Load));
    }
    assert_eq!(load(16, 8), granted_by(None));
    assert_eq!(load(4, 8), granted_by(None));
    assert_eq!(hart.byte_rule(USER, Access::Store, 14, 2), granted_by(Some(5)));
}

#[test]
fn the_lowest_matching_entry_decides_alone() {
    let mut hart = with_entry(1, NAPOT | 7, 0x1FF);
    hart.pmpcfg[0] = NA4;
    hart.pmpaddr[0] = 3;
    let load = |address, size| hart.byte_rule(USER, Access::Load, address, size);
    assert_eq!(load(12, 4), fault_by(Some(0), Access::Load));
    assert_eq!(load(16, 4), granted_by(Some(1)));
    assert_eq!(load(14, 4), fault_by(Some(0), Access::Load));
    assert_eq!(load(0x1000, 1), fault_by(None, Access::Load));
}

#[test]
fn rights_and_locks() {
    for rights in [0, 1, 3, 4, 5, 7] {
        for (access, bit) in [(Access::Load, 1), (Access::Store, 2), (Access::Fetch, 4)] {
            let open = with_entry(2, NAPOT | rights, 0);
            let locked = with_entry(2, LOCK | NAPOT | rights, 0);
            let ruling = Ruling::new(rights & bit != 0, access, Some(2));
            for mode in [USER, SUPERVISOR] {
                assert_eq!(open.byte_rule(mode, access, 0, 8), ruling);
                assert_eq!(locked.byte_rule(mode, access, 0, 8), ruling);
            }
            assert_eq!(open.byte_rule(MACHINE, access, 0, 8), granted_by(Some(2)));
            assert_eq!(locked.byte_rule(MACHINE, access, 0, 8), ruling);
        }
    }
}

#[test]
fn b15_empty_tor_and_the_greatest_napot() {
    for (below, above) in [(5, 5), (6, 5), ((1 << 54) - 1, 0)] {
        let mut hart = with_entry(1, TOR | 7, above);
        hart.pmpaddr[0] = below;
        assert_eq!(hart.compile(), Map::reset());
        let ruling = hart.byte_rule(USER, Access::Load, 20, 1);
        assert_eq!(ruling, fault_by(None, Access::Load));
    }
    let hart = with_entry(0, NAPOT | 7, (1 << 54) - 1);
    assert_eq!(hart.compile().listed(), [Range { first: 0, last: MEMORY - 1, owner: 0 }]);
    assert_eq!(hart.byte_rule(USER, Access::Load, MEMORY - 1, 1), granted_by(Some(0)));
}

#[test]
fn b16_past_memory_faults_before_entries_and_map() {
    let hart = with_entry(0, NAPOT | 7, (1 << 54) - 1);
    let none = Map { count: 0, ..odd_map() };
    for (address, size) in
        [(MEMORY, 1), (MEMORY - 7, 8), (u64::MAX, 8), (u64::MAX, 1), (u64::MAX - 7, 8)]
    {
        for mode in Mode::ALL {
            for access in Access::ALL {
                let past = fault_by(None, access);
                assert_eq!(hart.byte_rule(mode.number(), access, address, size), past);
                let verdict = query(&hart, &none, mode, access, address, size);
                assert_eq!(verdict, Verdict::Ruled(past));
            }
        }
        let (after, answer) = run(&hart, LOAD, address, size);
        assert_eq!(answer, trapped(5, Mode::Machine));
        assert_eq!(after, after_exception_to_machine(&hart, 5, address));
        assert_eq!(run(&hart, STORE, address, size + 8).1, refused(Refusal::Size));
        let verdict = query(&hart, &none, Mode::User, Access::Load, address, 0);
        assert_eq!(verdict, Verdict::Refused(Refusal::Size));
    }
    assert_eq!(run(&hart, LOAD, MEMORY - 8, 8), (hart, Answer::Granted { entry: Some(0) }));
}

#[test]
fn a11_mprv_is_honoured_in_any_mode_and_never_by_a_fetch() {
    let mut hart = with_entry(0, NA4, 0x400);
    let entry = Some(0);
    let granted = Answer::Granted { entry };
    let trapped = |code| trapped_by(entry, code, Mode::Machine);
    for mode in [USER, SUPERVISOR, MACHINE] {
        hart.mode = mode;
        hart.mstatus = 0xA_0000_0000 | MPRV | 3 << 11;
        assert_eq!(run(&hart, LOAD, 0x1000, 4), (hart, granted));
        hart.mstatus = 0xA_0000_0000 | MPRV;
        assert_eq!(run(&hart, STORE, 0x1000, 4).1, trapped(7));
        hart.mstatus = 0xA_0000_0000 | 3 << 11;
        let judged = if mode == MACHINE { granted } else { trapped(5) };
        assert_eq!(run(&hart, LOAD, 0x1000, 4).1, judged);
        let other = if mode == MACHINE { USER } else { MACHINE };
        hart.mstatus = 0xA_0000_0000 | MPRV | other << 11;
        let judged = if mode == MACHINE { granted } else { trapped(1) };
        assert_eq!(run(&hart, 14, 0, 0).1, judged);
    }
}

#[test]
fn b26_a_fault_judged_as_user_is_delivered_to_machine() {
    let mut hart = with_entry(0, NAPOT, 0x1FF);
    hart.mstatus |= MPRV;
    hart.medeleg = 0x3FF;
    let (after, answer) = run(&hart, LOAD, 0x10, 8);
    assert_eq!(answer, trapped_by(Some(0), 5, Mode::Machine));
    assert_eq!(after, after_exception_to_machine(&hart, 5, 0x10));
}

#[test]
fn a12_the_a_field_of_the_owner_is_not_asked() {
    let hart = with_entry(4, 1, 0);
    let map = map_of(&[(0, 99, 4)]);
    let ask = |mode, access| query(&hart, &map, mode, access, 0, 8);
    let granted = Verdict::Ruled(granted_by(Some(4)));
    assert_eq!(ask(Mode::User, Access::Load), granted);
    let fault = Verdict::Ruled(fault_by(Some(4), Access::Store));
    assert_eq!(ask(Mode::User, Access::Store), fault);
    assert_eq!(ask(Mode::Machine, Access::Store), granted);
}

#[test]
fn b31_the_lowest_numbered_range_of_at_most_33() {
    let hart = with_entry(0, NA4 | 1, 0);
    let ask = |map: &Map| query(&hart, map, Mode::User, Access::Load, 10, 1);
    let granted = Verdict::Ruled(granted_by(Some(0)));
    let fault = Verdict::Ruled(fault_by(None, Access::Load));
    assert_eq!(ask(&map_of(&[(0, 99, 0), (10, 10, NONE)])), granted);
    assert_eq!(ask(&map_of(&[(10, 10, NONE), (0, 99, 0)])), fault);
    assert_eq!(ask(&map_of(&[(11, 9, NONE), (10, 9, NONE), (9, 10, 0)])), granted);
    assert_eq!(ask(&map_of(&[(11, 9, 0)])), UNREAD);
    let mut map = map_of(&[(1, 0, 0); 33]);
    map.ranges[32] = Range { first: 10, last: 10, owner: 0 };
    for count in [33, 34, 1 << 32, u64::MAX] {
        assert_eq!(ask(&Map { count, ..map }), granted);
    }
    for count in [0, 1, 32] {
        assert_eq!(ask(&Map { count, ..map }), UNREAD);
    }
}
