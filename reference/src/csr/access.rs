//! Which CSR numbers are present, and who may read and write them.

use super::number::{CYCLE, SATP};
use crate::hart::{Hart, MACHINE, SUPERVISOR, USER};
use crate::status;

/// Whether the hart has a CSR of this number.
pub const fn present(number: u64) -> bool {
    machine_present(number) || supervisor_present(number) || unprivileged_present(number)
}

const fn machine_present(number: u64) -> bool {
    matches!(number,
        0xF11..=0xF15
        | 0x300..=0x306 | 0x30A
        | 0x320 | 0x323..=0x33F
        | 0x340..=0x344
        | 0x3A0 | 0x3A2 | 0x3B0..=0x3BF
        | 0xB00 | 0xB02 | 0xB03..=0xB1F)
}

const fn supervisor_present(number: u64) -> bool {
    matches!(number, 0x100 | 0x104 | 0x105 | 0x106 | 0x10A | 0x140..=0x144 | 0x180)
}

const fn unprivileged_present(number: u64) -> bool {
    matches!(number, 0xC00 | 0xC02 | 0xC03..=0xC1F)
}

/// The lowest mode that may reach this number: its bits 9:8.
pub const fn lowest_mode(number: u64) -> u64 {
    number >> 8 & 3
}

/// Bits 11:10 both set mean that the number can only be read.
pub const fn read_only(number: u64) -> bool {
    number >> 10 & 3 == 3
}

/// A way to judge CSR accesses. A step is judged by the rule; another way, for
/// comparison of speed, must agree with it.
pub trait Judge {
    /// Whether an access to this number, at most 4095, is legal.
    fn is_legal(hart: &Hart, number: u64, write_attempt: bool) -> bool;
}

/// The access rule of document 01.
pub struct Rule;

impl Judge for Rule {
    #[inline]
    fn is_legal(hart: &Hart, number: u64, write_attempt: bool) -> bool {
        present(number)
            && hart.mode >= lowest_mode(number)
            && !(write_attempt && read_only(number))
            && hart.is_open(number)
    }
}

impl Hart {
    /// Whether neither TVM nor the counter enables close the number to the hart's
    /// mode. True for every number that they do not bear on, present or not.
    #[inline]
    fn is_open(&self, number: u64) -> bool {
        !self.satp_trapped(number) && self.counter_enabled(number)
    }

    fn satp_trapped(&self, number: u64) -> bool {
        number == SATP && self.mode == SUPERVISOR && self.mstatus & status::TVM != 0
    }

    /// True for every number that is no counter of unprivileged code.
    fn counter_enabled(&self, number: u64) -> bool {
        if !unprivileged_present(number) || self.mode == MACHINE {
            return true;
        }
        let bit = 1 << (number - CYCLE);
        let supervisor = self.mcounteren & bit != 0;
        let user = self.mode != USER || self.scounteren & bit != 0;
        supervisor && user
    }
}
