//! How accesses by steps lie to the entries, and so which entry decides them.

use std::fmt::{self, Display, Formatter};

use reference::protection::leaves_memory;
use reference::{Hart, NONE, STEP_WORDS};

use crate::accesses::asked;
use crate::classes::{Class, Tally};
use crate::lent::Lent;
use crate::report::Difference;

/// The lowest entry that matches each byte of an access; nothing past memory.
pub struct Access {
    owners: Vec<u64>,
}

const CLASSES: [Class<Access>; 5] = [
    Class { name: "past memory", one_in: 10, holds: |access| access.owners.is_empty() },
    Class { name: "with no entry", one_in: 10, holds: |access| access.decider() == Some(NONE) },
    Class { name: "whole in an entry", one_in: 10, holds: |access| access.is_whole() },
    Class { name: "partly in an entry", one_in: 30, holds: |access| access.is_partial() },
    Class {
        name: "decided by an entry that does not match the first byte",
        one_in: 100,
        holds: |access| access.is_partial() && access.decider() != access.owners.first().copied(),
    },
];

impl Access {
    /// The access of an accepted step 14 to 16 with a physical address.
    fn of(lent: &Lent, words: [u64; STEP_WORDS]) -> Option<Access> {
        let hart = Hart::from_words(&lent.hart);
        let (mode, _, address, size) = asked(&hart, words)?;
        let accepted = hart.can_hold() && lent.memory().is_lawful();
        if !accepted || !matches!(size, 1 | 2 | 4 | 8) || hart.is_translated(mode) {
            return None;
        }
        let inside = if leaves_memory(address, size) { 0 } else { size };
        Some(Access { owners: (0..inside).map(|offset| hart.owner(address + offset)).collect() })
    }

    fn decider(&self) -> Option<u64> {
        self.owners.iter().copied().min()
    }

    fn is_partial(&self) -> bool {
        self.owners.iter().any(|&owner| Some(owner) != self.decider())
    }

    fn is_whole(&self) -> bool {
        self.decider().is_some_and(|owner| owner != NONE) && !self.is_partial()
    }
}

/// How many accesses there were of each class.
pub struct Deciders(Tally<Access>);

impl Deciders {
    pub fn new() -> Deciders {
        Deciders(Tally::new("accesses", &CLASSES))
    }

    /// Counts a step, if it is an accepted access.
    pub fn count(&mut self, lent: &Lent, words: [u64; STEP_WORDS]) {
        if let Some(access) = Access::of(lent, words) {
            self.0.count(&access);
        }
    }

    pub fn check(&self, stage: &str) -> Result<(), Difference> {
        self.0.check(stage)
    }
}

impl Display for Deciders {
    fn fmt(&self, formatter: &mut Formatter) -> fmt::Result {
        self.0.fmt(formatter)
    }
}
