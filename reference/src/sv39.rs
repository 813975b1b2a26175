//! The Sv39 walk from a virtual address to a physical one, in the order of the
//! privileged standard. Hardware never sets A or D, and memory is never written.

use crate::answer::{Entry, Ruling};
use crate::hart::{Hart, MACHINE, SUPERVISOR, USER};
use crate::memory::Memory;
use crate::protection::Access;
use crate::status;

pub const PAGE: u64 = 1 << PAGE_SHIFT;
const PAGE_SHIFT: u32 = 12;
/// Bits of a virtual page number at one level.
const VPN_BITS: u32 = 9;
/// Bits of a virtual address; those above are copies of the highest.
const ADDRESS_BITS: u32 = 39;

/// Fields of satp.
pub mod satp {
    pub const MODE_SHIFT: u32 = 60;
    pub const BARE: u64 = 0;
    pub const SV39: u64 = 8;
    pub const PPN: u64 = (1 << 44) - 1;
}

/// Bits of a page-table entry.
pub mod pte {
    pub const V: u64 = 1 << 0;
    pub const R: u64 = 1 << 1;
    pub const W: u64 = 1 << 2;
    pub const X: u64 = 1 << 3;
    pub const U: u64 = 1 << 4;
    pub const G: u64 = 1 << 5;
    pub const A: u64 = 1 << 6;
    pub const D: u64 = 1 << 7;
    pub const PPN_SHIFT: u32 = 10;
    /// Reserved, or of extensions that this hart does not have.
    pub const RESERVED: u64 = !0 << 54;
}

/// Why an access is not granted: the exception, and the entry that decided.
#[derive(Clone, Copy, PartialEq, Eq, Debug)]
pub struct Fault {
    pub cause: u64,
    pub entry: Entry,
}

impl Hart {
    /// Whether accesses in the effective mode `mode` have virtual addresses.
    pub fn is_translated(&self, mode: u64) -> bool {
        mode != MACHINE && self.satp >> satp::MODE_SHIFT == satp::SV39
    }

    /// The physical address of a virtual one in the effective mode `mode`, S or U.
    pub fn walk(
        &self,
        memory: Memory,
        mode: u64,
        access: Access,
        address: u64,
    ) -> Result<u64, Fault> {
        let page_fault = Err(Fault { cause: access.page_fault(), entry: None });
        if !is_canonical(address) {
            return page_fault;
        }
        let mut table = (self.satp & satp::PPN) << PAGE_SHIFT;
        for level in [2, 1, 0] {
            let entry = self.read_table(memory, access, table + 8 * vpn(address, level))?;
            if !is_valid(entry) {
                return page_fault;
            }
            if is_leaf(entry) {
                let granted = self.page_permits(entry, mode, access)
                    && is_aligned(entry, level)
                    && is_marked(entry, access);
                return if granted { Ok(physical(entry, level, address)) } else { page_fault };
            }
            if entry & (pte::U | pte::A | pte::D) != 0 {
                return page_fault;
            }
            table = page(entry);
        }
        page_fault
    }

    /// Reads an entry of a page table. The byte rule judges that as a load in S,
    /// before the words lent are looked at.
    fn read_table(&self, memory: Memory, access: Access, address: u64) -> Result<u64, Fault> {
        let cause = access.fault();
        match self.byte_rule(SUPERVISOR, Access::Load, address, 8) {
            Ruling::Fault { entry, .. } => Err(Fault { cause, entry }),
            Ruling::Granted { .. } => memory.word(address).ok_or(Fault { cause, entry: None }),
        }
    }

    /// Whether the page's own rights permit the access.
    fn page_permits(&self, entry: u64, mode: u64, access: Access) -> bool {
        let rights = match access {
            Access::Fetch => pte::X,
            Access::Load if self.mstatus & status::MXR != 0 => pte::R | pte::X,
            Access::Load => pte::R,
            Access::Store => pte::W,
        };
        entry & rights != 0 && self.page_reached(entry & pte::U != 0, mode, access)
    }

    /// Whether the mode may use a page that is one of U, or is not.
    fn page_reached(&self, of_user: bool, mode: u64, access: Access) -> bool {
        match mode {
            USER => of_user,
            _ => !of_user || access != Access::Fetch && self.mstatus & status::SUM != 0,
        }
    }
}

/// Whether the bits above an address of 39 bits are copies of its highest.
fn is_canonical(address: u64) -> bool {
    let spare = u64::BITS - ADDRESS_BITS;
    (address as i64) << spare >> spare == address as i64
}

/// The virtual page number of a level.
fn vpn(address: u64, level: u32) -> u64 {
    address >> (PAGE_SHIFT + VPN_BITS * level) & ((1 << VPN_BITS) - 1)
}

fn is_valid(entry: u64) -> bool {
    entry & pte::V != 0 && entry & (pte::R | pte::W) != pte::W && entry & pte::RESERVED == 0
}

fn is_leaf(entry: u64) -> bool {
    entry & (pte::R | pte::X) != 0
}

/// Whether a superpage begins at a multiple of its size.
fn is_aligned(entry: u64, level: u32) -> bool {
    page(entry) & offset_mask(level) == 0
}

fn is_marked(entry: u64, access: Access) -> bool {
    entry & pte::A != 0 && (access != Access::Store || entry & pte::D != 0)
}

/// The first byte of the page or table that an entry points to.
fn page(entry: u64) -> u64 {
    entry >> pte::PPN_SHIFT << PAGE_SHIFT
}

/// The bits of an address inside a page of a level.
fn offset_mask(level: u32) -> u64 {
    (1 << (PAGE_SHIFT + VPN_BITS * level)) - 1
}

fn physical(entry: u64, level: u32, address: u64) -> u64 {
    page(entry) | address & offset_mask(level)
}
