//! A walk apart from the model's own, which tells where an access ends.

use reference::sv39::{PAGE, pte};
use reference::{Access, Hart, Memory, Ruling, SUPERVISOR, USER, status};

use crate::diagnosis::{End, Flaw};

#[derive(Clone, Copy)]
pub struct Walker<'a> {
    pub hart: &'a Hart,
    pub memory: Memory<'a>,
    pub mode: u64,
    pub access: Access,
}

impl Walker<'_> {
    /// The number of parts, the part that ends it, and how.
    pub fn end(&self, address: u64, size: u64) -> (u64, u64, End) {
        if !self.memory.is_lawful() {
            return (1, 1, End::Refused);
        }
        if self.mode > SUPERVISOR || self.hart.satp >> 63 == 0 {
            return (1, 1, End::Untranslated);
        }
        let last = address.wrapping_add(size - 1);
        if address / PAGE == last / PAGE {
            return (1, 1, self.part(address, size));
        }
        let second = last / PAGE * PAGE;
        match self.part(address, second.wrapping_sub(address)) {
            End::Granted(_) => (2, 2, self.part(second, last - second + 1)),
            end => (2, 1, end),
        }
    }

    fn part(&self, address: u64, size: u64) -> End {
        match self.leaf(address) {
            Err(end) => end,
            Ok((entry, level)) => {
                let below = (1 << (12 + 9 * level)) - 1;
                let physical = (entry << 2) & !below | address & below;
                match self.hart.byte_rule(self.mode, self.access, physical, size) {
                    Ruling::Granted { .. } => End::Granted(level),
                    Ruling::Fault { .. } => End::Denied,
                }
            }
        }
    }

    /// The entry of the page, and its level.
    fn leaf(&self, address: u64) -> Result<(u64, u32), End> {
        if !matches!(address >> 38, 0 | 0x3FF_FFFF) {
            return Err(End::Page(Flaw::NotCanonical));
        }
        let (mut level, mut table) = (2, self.hart.satp << 12 & 0xFF_FFFF_FFFF_F000);
        loop {
            let entry = self.read(table | (address >> (12 + 9 * level) & 0x1FF) << 3)?;
            if let Some(flaw) = self.flaw(entry, level) {
                return Err(End::Page(flaw));
            }
            if entry & 0xF != 1 {
                return Ok((entry, level));
            }
            (level, table) = (level - 1, entry >> 10 << 12);
        }
    }

    fn read(&self, place: u64) -> Result<u64, End> {
        match self.hart.byte_rule(SUPERVISOR, Access::Load, place, 8) {
            Ruling::Fault { entry, .. } => Err(End::TableDenied(entry.is_some())),
            Ruling::Granted { .. } if place < self.memory.base => Err(End::OutsideSlice),
            Ruling::Granted { .. } => {
                let word = (place - self.memory.base) as usize / 8;
                self.memory.words.get(word).copied().ok_or(End::OutsideSlice)
            }
        }
    }

    fn flaw(&self, entry: u64, level: u32) -> Option<Flaw> {
        let has = |bits| entry & bits == bits;
        let pointer = entry & 0xE == 0;
        let marks = entry & (pte::U | pte::A | pte::D);
        let status = self.hart.mstatus;
        let usable = match self.access {
            Access::Fetch => has(pte::X),
            Access::Load => has(pte::R) || has(pte::X) && status & status::MXR != 0,
            Access::Store => has(pte::W),
        };
        let sum = status & status::SUM != 0 && self.access != Access::Fetch;
        match self.mode {
            _ if !has(pte::V) => Some(Flaw::Invalid),
            _ if has(pte::W) && !has(pte::R) => Some(Flaw::WriteOnly),
            _ if entry >> 54 != 0 => Some(Flaw::Reserved),
            _ if pointer && marks != 0 => Some(Flaw::PointerBits),
            _ if pointer && level == 0 => Some(Flaw::PointerAtLevel0),
            _ if pointer => None,
            _ if !usable => Some(Flaw::Rights),
            USER if !has(pte::U) => Some(Flaw::OfSupervisor),
            SUPERVISOR if has(pte::U) && !sum => Some(Flaw::OfUser),
            _ if entry >> 10 & ((1 << (9 * level)) - 1) != 0 => Some(Flaw::Misaligned),
            _ if !has(pte::A) => Some(Flaw::NotAccessed),
            _ if self.access == Access::Store && !has(pte::D) => Some(Flaw::NotDirty),
            _ => None,
        }
    }
}
