//! The byte rule: what each protection entry matches, byte by byte, and what
//! the lowest matching entry says of an access.

use crate::answer::{Entry, Ruling};
use crate::hart::{Hart, MACHINE};

/// Number of bytes of physical memory.
pub const MEMORY: u64 = 1 << 56;

/// Values of the A field of a configuration byte.
pub const OFF: u8 = 0;
pub const TOR: u8 = 1;
pub const NA4: u8 = 2;
pub const NAPOT: u8 = 3;

/// The lock bit of a configuration byte.
pub const LOCK: u8 = 0x80;

/// The A field of a configuration byte.
pub fn address_matching(configuration: u8) -> u8 {
    configuration >> 3 & 3
}

#[derive(Clone, Copy, PartialEq, Eq, Debug)]
pub enum Access {
    Fetch,
    Load,
    Store,
}

impl Access {
    pub const ALL: [Access; 3] = [Access::Fetch, Access::Load, Access::Store];

    /// The exception of a refused access.
    pub fn fault(self) -> u64 {
        match self {
            Access::Fetch => 1,
            Access::Load => 5,
            Access::Store => 7,
        }
    }

    /// The exception of an access to a page that does not permit it.
    pub fn page_fault(self) -> u64 {
        match self {
            Access::Fetch => 12,
            Access::Load => 13,
            Access::Store => 15,
        }
    }

    /// The bit of a configuration byte that permits this access.
    fn permission(self) -> u8 {
        match self {
            Access::Load => 1,
            Access::Store => 2,
            Access::Fetch => 4,
        }
    }
}

/// Whether any byte of the access is at or past the end of memory.
pub fn leaves_memory(address: u64, size: u64) -> bool {
    address >= MEMORY || MEMORY - address < size
}

/// Whether an entry that matches the whole access permits it.
fn permits(configuration: u8, mode: u64, access: Access) -> bool {
    if mode == MACHINE && configuration & LOCK == 0 {
        return true;
    }
    configuration & access.permission() != 0
}

/// What an entry matches, words being four bytes.
#[derive(Clone, Copy)]
pub(crate) enum Matcher {
    /// The words from `bottom` up to but not including `top`.
    Range { bottom: u64, top: u64 },
    /// The word at this address alone.
    Word(u64),
    /// The words that have the bits of `pmpaddr` where they are compared.
    Bits { pmpaddr: u64, compared: u64 },
}

impl Matcher {
    const NOTHING: Matcher = Matcher::Range { bottom: 0, top: 0 };

    /// All bits but the trailing ones of pmpaddr and the zero above them.
    fn naturally_aligned(pmpaddr: u64) -> Matcher {
        let free = pmpaddr ^ pmpaddr.wrapping_add(1);
        Matcher::Bits { pmpaddr, compared: !free }
    }

    /// Whether the one byte at `byte`, which is in memory, is matched.
    pub(crate) fn matches(self, byte: u64) -> bool {
        let word = byte >> 2;
        match self {
            Matcher::Range { bottom, top } => bottom <= word && word < top,
            Matcher::Word(pmpaddr) => word == pmpaddr,
            Matcher::Bits { pmpaddr, compared } => (word ^ pmpaddr) & compared == 0,
        }
    }
}

impl Hart {
    /// Whether `entry` matches the one byte at `byte`, which is in memory.
    pub fn matches(&self, entry: usize, byte: u64) -> bool {
        self.matcher(entry).matches(byte)
    }

    /// By the grain, of a hart that can be held.
    pub(crate) fn matcher(&self, entry: usize) -> Matcher {
        match address_matching(self.pmpcfg[entry]) {
            OFF => Matcher::NOTHING,
            TOR => Matcher::Range { bottom: self.bottom_of_range(entry), top: self.bound(entry) },
            NA4 => Matcher::Word(self.pmpaddr[entry]),
            _ => Matcher::naturally_aligned(self.napot(entry)),
        }
    }

    /// The lower bound of a TOR entry.
    pub(crate) fn bottom_of_range(&self, entry: usize) -> u64 {
        if entry == 0 { 0 } else { self.bound(entry - 1) }
    }

    /// The byte rule for an access of `size` bytes, any number from 1 up, in the
    /// effective mode `mode`.
    pub fn byte_rule(&self, mode: u64, access: Access, address: u64, size: u64) -> Ruling {
        if leaves_memory(address, size) {
            return Ruling::new(false, access, None);
        }
        let entry = self.deciding_entry(address, size);
        let matches_all = |entry| {
            let matcher = self.matcher(entry);
            (0..size).all(|offset| matcher.matches(address + offset))
        };
        let granted = entry.is_none_or(matches_all) && self.permitted_by(entry, mode, access);
        Ruling::new(granted, access, entry)
    }

    /// The lowest entry that matches any byte of an access inside memory.
    fn deciding_entry(&self, address: u64, size: u64) -> Entry {
        (0..16).find(|&entry| {
            let matcher = self.matcher(entry);
            (0..size).any(|offset| matcher.matches(address + offset))
        })
    }

    /// What the deciding entry says of an access that lies wholly in it. Where none
    /// decides, M alone has its way.
    pub fn permitted_by(&self, entry: Entry, mode: u64, access: Access) -> bool {
        match entry {
            Some(entry) => permits(self.pmpcfg[entry], mode, access),
            None => mode == MACHINE,
        }
    }
}
