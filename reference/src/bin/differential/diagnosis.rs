//! How an access under Sv39 ends and why, judged apart from the model's walk, so that
//! one sees whether page tables have led everywhere.

use reference::{Access, Hart, Memory, STEP_WORDS, status};

use crate::accesses::asked;
use crate::grains::finest;
use crate::walker::Walker;

/// How the accesses in order end: at the first that is not granted.
#[derive(Clone, Copy, PartialEq, Eq, Debug)]
pub enum End {
    /// Refusal 13.
    Refused,
    Untranslated,
    /// Through a page of this level.
    Granted(u32),
    Page(Flaw),
    /// A table read is denied by the entry, or by none.
    TableDenied(bool),
    OutsideSlice,
    /// The access itself is denied.
    Denied,
}

/// Why there is a page fault: the first that holds.
#[derive(Clone, Copy, PartialEq, Eq, Debug)]
pub enum Flaw {
    NotCanonical,
    Invalid,
    WriteOnly,
    Reserved,
    PointerBits,
    PointerAtLevel0,
    Rights,
    /// A page of U that S may not use.
    OfUser,
    /// A page of S, to U.
    OfSupervisor,
    Misaligned,
    NotAccessed,
    NotDirty,
}

pub struct Diagnosis {
    pub access: Access,
    /// The mode of the hart, and the one that the access is judged in.
    pub mode: u64,
    pub effective: u64,
    pub address: u64,
    /// In how many parts it is, and in which it ends.
    pub parts: u64,
    pub part: u64,
    pub end: End,
    /// Whether the end would be another without SUM, without MXR, or with a G of 0.
    pub by_sum: bool,
    pub by_mxr: bool,
    pub by_grain: bool,
}

impl Diagnosis {
    /// Of a step 14 to 16 that refusals 3 and 1 leave.
    pub fn of(hart: &Hart, memory: Memory, words: [u64; STEP_WORDS]) -> Option<Diagnosis> {
        let (effective, access, address, size) = asked(hart, words)?;
        if !hart.can_hold() || !matches!(size, 1 | 2 | 4 | 8) {
            return None;
        }
        let walker = Walker { hart, memory, mode: effective, access };
        let (parts, part, end) = walker.end(address, size);
        let ends_otherwise =
            |hart: Hart| Walker { hart: &hart, ..walker }.end(address, size).2 != end;
        let without = |bit: u64| ends_otherwise(Hart { mstatus: hart.mstatus & !bit, ..*hart });
        let (by_sum, by_mxr) = (without(status::SUM), without(status::MXR));
        let by_grain = hart.grain > 0 && ends_otherwise(finest(hart));
        let mode = hart.mode;
        Some(Diagnosis {
            access,
            mode,
            effective,
            address,
            parts,
            part,
            end,
            by_sum,
            by_mxr,
            by_grain,
        })
    }

    /// The first two words of the answer.
    pub fn answer(&self) -> Option<[u64; 2]> {
        let kind = self.access as usize;
        match self.end {
            End::Refused => Some([5, 13]),
            End::Untranslated => None,
            End::Granted(_) => Some([3, 0]),
            End::Page(_) => Some([4, [12, 13, 15][kind]]),
            End::TableDenied(_) | End::OutsideSlice | End::Denied => Some([4, [1, 5, 7][kind]]),
        }
    }

    pub fn is_translated(&self) -> bool {
        !matches!(self.end, End::Refused | End::Untranslated)
    }

    pub fn is_granted(&self) -> bool {
        matches!(self.end, End::Granted(_))
    }
}
