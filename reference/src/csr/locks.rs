//! Writes of the protection registers under their locks, which are judged
//! before the write, and under the grain.

use crate::hart::Hart;
use crate::holdable::mask;
use crate::protection::{LOCK, TOR, address_matching};

const READ: u8 = 1;
const WRITE: u8 = 2;

impl Hart {
    /// Writes the eight bytes from entry `lowest`, each judged for itself.
    /// Says whether any of them differs afterwards.
    pub(super) fn write_pmpcfg(&mut self, lowest: usize, value: u64) -> bool {
        let old = self.pmpcfg;
        for (entry, byte) in (lowest..).zip(value.to_le_bytes()) {
            if !self.locked(entry) && !self.bars(byte) {
                self.pmpcfg[entry] = lawful_configuration(byte);
            }
        }
        self.pmpcfg != old
    }

    /// Stores all 54 bits, whatever the grain. Says whether the register, as stored,
    /// differs afterwards.
    pub(super) fn write_pmpaddr(&mut self, entry: usize, value: u64) -> bool {
        if self.address_locked(entry) {
            return false;
        }
        let old = self.pmpaddr[entry];
        self.pmpaddr[entry] = value & mask::PMPADDR;
        self.pmpaddr[entry] != old
    }

    fn locked(&self, entry: usize) -> bool {
        self.pmpcfg[entry] & LOCK != 0
    }

    /// A locked TOR entry also freezes the address below it, its lower bound.
    fn address_locked(&self, entry: usize) -> bool {
        self.locked(entry) || entry < 15 && self.locked_range_top(entry + 1)
    }

    fn locked_range_top(&self, entry: usize) -> bool {
        self.locked(entry) && address_matching(self.pmpcfg[entry]) == TOR
    }
}

/// W without R is reserved, so W goes where R is not.
fn lawful_configuration(byte: u8) -> u8 {
    let kept = byte & mask::PMPCFG;
    if kept & READ == 0 { kept & !WRITE } else { kept }
}
