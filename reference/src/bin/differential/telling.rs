//! What a stage of steps has that tells programs apart.

use std::fmt::{self, Display, Formatter};

use reference::STEP_WORDS;

use crate::deciders::Deciders;
use crate::grains::Grains;
use crate::lent::Lent;
use crate::orders::Orders;
use crate::report::Difference;

/// How often the two orders of interrupts differ, which entries decide, and what hangs on
/// the grain.
pub struct Telling {
    orders: Orders,
    deciders: Deciders,
    grains: Grains,
}

impl Telling {
    pub fn new() -> Telling {
        Telling { orders: Orders::default(), deciders: Deciders::new(), grains: Grains::new() }
    }

    pub fn count(&mut self, lent: &Lent, words: [u64; STEP_WORDS]) {
        self.orders.count(lent, words);
        self.deciders.count(lent, words);
        self.grains.count(lent, words);
    }

    /// Fails where the accesses or the steps are not of all classes.
    pub fn check(&self, stage: &str) -> Result<(), Difference> {
        self.deciders.check(stage)?;
        self.grains.check(stage)
    }
}

impl Display for Telling {
    fn fmt(&self, formatter: &mut Formatter) -> fmt::Result {
        write!(formatter, "{}, {} and {}", self.orders, self.deciders, self.grains)
    }
}
