//! The access query, answered from a map.

use crate::answer::{Entry, Refusal, Ruling, Verdict};
use crate::hart::{Hart, Mode};
use crate::map::{Map, NONE, Range};
use crate::protection::{Access, leaves_memory};

impl Range {
    fn holds(&self, byte: u64) -> bool {
        self.first <= byte && byte <= self.last
    }
}

pub fn lawful_size(size: u64) -> bool {
    matches!(size, 1 | 2 | 4 | 8)
}

/// What the map says of an access in the effective mode `mode`.
pub fn query(
    hart: &Hart,
    map: &Map,
    mode: Mode,
    access: Access,
    address: u64,
    size: u64,
) -> Verdict {
    if !hart.can_hold() {
        return Verdict::Refused(Refusal::State);
    }
    if !lawful_size(size) {
        return Verdict::Refused(Refusal::Size);
    }
    if leaves_memory(address, size) {
        return Verdict::Ruled(Ruling::new(false, access, None));
    }
    match owners(map, address, size) {
        Some(owners) => Verdict::Ruled(ruling(hart, &owners, mode, access)),
        None => Verdict::Refused(Refusal::Map),
    }
}

/// The owner of each byte of the access; nothing if that of any byte cannot be
/// read.
fn owners(map: &Map, address: u64, size: u64) -> Option<Vec<u64>> {
    (0..size).map(|offset| owner_read(map, address + offset)).collect()
}

/// The owner of the lowest-numbered range that holds the byte, if there is one and
/// its owner is an entry or none.
fn owner_read(map: &Map, byte: u64) -> Option<u64> {
    let range = map.listed().iter().find(|range| range.holds(byte))?;
    (range.owner <= NONE).then_some(range.owner)
}

/// The lowest owner decides, none being above every entry, and must be that of
/// every byte. Of the entry only the configuration byte is asked, and not its A
/// field: the map has already said what it matches.
fn ruling(hart: &Hart, owners: &[u64], mode: Mode, access: Access) -> Ruling {
    let lowest = owners.iter().copied().fold(NONE, u64::min);
    let entry: Entry = (lowest != NONE).then_some(lowest as usize);
    let of_every_byte = owners.iter().all(|&owner| owner == lowest);
    let granted = of_every_byte && hart.permitted_by(entry, mode.number(), access);
    Ruling::new(granted, access, entry)
}
