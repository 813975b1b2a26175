//! The words lent to a step: the page tables that a walk may read.

use crate::protection::MEMORY;

/// Words of 64 bits standing at a physical address. Every base may be given; not
/// every one is lawful.
#[derive(Clone, Copy, PartialEq, Eq, Debug)]
pub struct Memory<'a> {
    pub words: &'a [u64],
    pub base: u64,
}

impl Memory<'_> {
    /// No words, at address 0.
    pub const EMPTY: Memory<'static> = Memory { words: &[], base: 0 };

    /// Whether the base is a multiple of 8 and no word reaches past memory.
    pub fn is_lawful(&self) -> bool {
        self.base.is_multiple_of(8)
            && self.base <= MEMORY
            && self.words.len() as u64 <= (MEMORY - self.base) / 8
    }

    /// The word at an address that is a multiple of 8 as the base is, if it is lent.
    pub fn word(&self, address: u64) -> Option<u64> {
        let place = address.checked_sub(self.base)? / 8;
        self.words.get(place as usize).copied()
    }
}
