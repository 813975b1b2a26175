//! A query in one pass over a map's ranges, as plain Rust would have it: the
//! reference's own searches the map for each byte, for clarity.

use reference::protection::leaves_memory;
use reference::{Access, Hart, Map, Mode, NONE, Refusal, Ruling, Verdict, query};

pub fn one_pass(
    hart: &Hart,
    map: &Map,
    mode: Mode,
    access: Access,
    address: u64,
    size: u64,
) -> Verdict {
    if !hart.can_hold() {
        return Verdict::Refused(Refusal::State);
    }
    if !matches!(size, 1 | 2 | 4 | 8) {
        return Verdict::Refused(Refusal::Size);
    }
    if leaves_memory(address, size) {
        return Verdict::Ruled(Ruling::new(false, access, None));
    }
    let last = address + (size - 1);
    // The next byte to be read, and the lowest and the highest owner so far.
    let (mut next, mut low, mut high) = (address, NONE, 0);
    for range in map.listed() {
        if range.last < next || last < range.first {
            continue;
        }
        // In a map in order no range begins behind the next byte.
        if next < range.first {
            return query(hart, map, mode, access, address, size);
        }
        low = low.min(range.owner);
        high = high.max(range.owner);
        if last <= range.last {
            return decided(hart, mode, access, low, high);
        }
        next = range.last + 1;
    }
    Verdict::Refused(Refusal::Map)
}

fn decided(hart: &Hart, mode: Mode, access: Access, low: u64, high: u64) -> Verdict {
    if NONE < high {
        return Verdict::Refused(Refusal::Map);
    }
    let entry = (low != NONE).then_some(low as usize);
    let granted = low == high && hart.permitted_by(entry, mode.number(), access);
    Verdict::Ruled(Ruling::new(granted, access, entry))
}
