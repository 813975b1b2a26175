//! How often the order of request [2] and the single order of document 01
//! choose differently, so that one sees whether the comparison tells them apart.

use std::fmt::{self, Display, Formatter};

use reference::Hart;

use crate::lent::Lent;

pub const TAKE_INTERRUPT: u64 = 7;
/// The list of document 01, written here apart from the model's own, so that the
/// count does not lean on that.
const SINGLE_ORDER: [u64; 6] = [11, 3, 7, 9, 1, 5];

/// How many steps 7 were accepted, and in how many of them the single order
/// would have chosen another interrupt.
#[derive(Default)]
pub struct Orders {
    steps: u64,
    pub differing: u64,
}

impl Orders {
    /// Counts a step, if it is an accepted step 7.
    pub fn count(&mut self, lent: &Lent, words: [u64; 3]) {
        let hart = Hart::from_words(&lent.hart);
        if words[0] == TAKE_INTERRUPT && hart.can_hold() {
            self.steps += 1;
            self.differing += u64::from(hart.next_interrupt() != single_order_choice(&hart));
        }
    }
}

impl Display for Orders {
    fn fmt(&self, formatter: &mut Formatter) -> fmt::Result {
        let Orders { steps, differing } = self;
        write!(formatter, "{steps} accepted steps 7 ({differing} unlike the single order)")
    }
}

/// The interrupt that the single order chooses, wherever it is bound.
fn single_order_choice(hart: &Hart) -> Option<u64> {
    SINGLE_ORDER.into_iter().find(|&code| hart.takeable(code))
}
