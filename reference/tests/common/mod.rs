//! Short forms shared by the tests.
#![allow(dead_code)]

pub mod paging;

use reference::{
    Access, Answer, Cause, Entry, Hart, MACHINE, Map, Memory, Mode, Range, Refusal, Ruling, Step,
    Verdict, make, step,
};

pub const WRITE: u64 = 1;
pub const SET: u64 = 2;
pub const CLEAR: u64 = 3;
pub const READ: u64 = 4;

/// A map that no registers have, to see whether a step hands it back.
pub fn odd_map() -> Map {
    let range = Range { first: 5, last: 1 << 60, owner: 99 };
    Map { count: 77, ranges: [range; 33] }
}

/// A map of these ranges, each with first byte, last byte and owner.
pub fn map_of(ranges: &[(u64, u64, u64)]) -> Map {
    let mut map = Map { count: ranges.len() as u64, ..odd_map() };
    for (place, &(first, last, owner)) in map.ranges.iter_mut().zip(ranges) {
        *place = Range { first, last, owner };
    }
    map
}

/// One step, given and handing back an odd map.
pub fn run(hart: &Hart, number: u64, a: u64, b: u64) -> (Hart, Answer) {
    let (hart, map, answer) = run_with_map(hart, &odd_map(), number, a, b);
    assert_eq!(map, odd_map());
    (hart, answer)
}

pub fn run_with_map(hart: &Hart, map: &Map, number: u64, a: u64, b: u64) -> (Hart, Map, Answer) {
    run_with_memory(hart, map, Memory::EMPTY, number, a, b)
}

pub fn run_with_memory(
    hart: &Hart,
    map: &Map,
    memory: Memory,
    number: u64,
    a: u64,
    b: u64,
) -> (Hart, Map, Answer) {
    let (mut hart, mut map) = (*hart, *map);
    let answer = step(&mut hart, &mut map, memory, Step::from_words(number, a, b).unwrap());
    (hart, map, answer)
}

/// A hart of this grain whose entries have these configuration bytes and addresses, from
/// 0 on.
pub fn hart_with(grain: u64, entries: &[(u8, u64)]) -> Hart {
    let mut hart = make(grain).0;
    for (entry, &(byte, pmpaddr)) in entries.iter().enumerate() {
        (hart.pmpcfg[entry], hart.pmpaddr[entry]) = (byte, pmpaddr);
    }
    hart
}

pub fn in_mode(mode: u64) -> Hart {
    Hart { mode, ..Hart::reset() }
}

/// A trap that no entry decided.
pub fn trapped(code: u64, destination: Mode) -> Answer {
    trapped_by(None, code, destination)
}

pub fn trapped_by(entry: Entry, code: u64, destination: Mode) -> Answer {
    Answer::Trapped { cause: Cause::Exception(code), destination, entry }
}

pub fn granted_by(entry: Entry) -> Ruling {
    Ruling::Granted { entry }
}

pub fn fault_by(entry: Entry, access: Access) -> Ruling {
    Ruling::Fault { cause: access.fault(), entry }
}

pub fn illegal() -> Answer {
    trapped(2, Mode::Machine)
}

pub fn refused(refusal: Refusal) -> Answer {
    Answer::Refused(refusal)
}

/// The verdict of a query whose map cannot be read at every byte.
pub const UNREAD: Verdict = Verdict::Refused(Refusal::Map);

/// The state after an exception to M from a hart whose mtvec is 0.
pub fn after_exception_to_machine(hart: &Hart, code: u64, value: u64) -> Hart {
    let mie = hart.mstatus >> 3 & 1;
    Hart {
        mode: MACHINE,
        pc: 0,
        mepc: hart.pc,
        mcause: code,
        mtval: value,
        mstatus: hart.mstatus & !0x1888 | mie << 7 | hart.mode << 11,
        ..*hart
    }
}
