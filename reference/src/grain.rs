//! Request [9] of document 02: protection by a grain of 2^(G+2) bytes. Bits of pmpaddr
//! below the grain are stored, and read and matched as source document 002 says.

use crate::hart::Hart;
use crate::map::Map;
use crate::protection::{NA4, NAPOT, OFF, TOR, address_matching};

/// The greatest G that a hart can have.
pub const COARSEST: u64 = 10;

/// A hart as after reset, and its map. A G above the greatest counts as 0.
pub fn make(grain: u64) -> (Hart, Map) {
    let grain = if grain > COARSEST { 0 } else { grain };
    (Hart { grain, ..Hart::reset() }, Map::reset())
}

impl Hart {
    /// What pmpaddr reads under its entry's A, of a hart that can be held: the low G
    /// bits are zeros, or, for NAPOT, the low G-1 bits are ones.
    pub fn read_pmpaddr(&self, entry: usize) -> u64 {
        match address_matching(self.pmpcfg[entry]) {
            OFF | TOR => self.bound(entry),
            NAPOT => self.napot(entry),
            _ => self.pmpaddr[entry],
        }
    }

    /// pmpaddr as a bound of TOR, whatever A its entry has: without its low G bits.
    pub(crate) fn bound(&self, entry: usize) -> u64 {
        self.pmpaddr[entry] & !self.low_bits()
    }

    /// pmpaddr as NAPOT reads and matches it: with its low G-1 bits set.
    pub(crate) fn napot(&self, entry: usize) -> u64 {
        self.pmpaddr[entry] | self.low_bits() >> 1
    }

    /// The low G bits of pmpaddr.
    fn low_bits(&self) -> u64 {
        (1 << self.grain) - 1
    }

    /// Whether the grain lets no entry have this configuration byte: NA4 is finer than
    /// any grain but the finest.
    pub(crate) fn bars(&self, configuration: u8) -> bool {
        self.grain > 0 && address_matching(configuration) == NA4
    }
}
