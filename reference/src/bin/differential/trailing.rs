//! How often a count of trailing zeros gives a NAPOT entry another range than
//! its trailing ones do, so that one sees whether the comparison tells the two
//! counts apart.

use std::fmt::{self, Display, Formatter};

use reference::protection::{MEMORY, NAPOT, address_matching};
use reference::{Hart, Range};

/// How many NAPOT entries there were, and how many of them would have another
/// range if the trailing zeros of pmpaddr were counted.
#[derive(Default)]
pub struct Trailing {
    entries: u64,
    pub differing: u64,
}

impl Trailing {
    /// Counts an entry with the range it has, if it is a NAPOT entry. Others are
    /// left out so that a walk of them fails: NA4 gives the same number by chance.
    pub fn count(&mut self, hart: &Hart, entry: usize, range: Range) {
        if address_matching(hart.pmpcfg[entry]) == NAPOT {
            let otherwise = borders_by_zeros(hart.pmpaddr[entry]);
            self.entries += 1;
            self.differing += u64::from([range.first, range.last] != otherwise);
        }
    }
}

impl Display for Trailing {
    fn fmt(&self, formatter: &mut Formatter) -> fmt::Result {
        let Trailing { entries, differing } = self;
        write!(formatter, "{entries} entries ({differing} unlike a count of trailing zeros)")
    }
}

/// The first and the last byte by the rule of document 01 with the wrong count.
/// Clearing the bits counted changes nothing, since they are zeros.
fn borders_by_zeros(pmpaddr: u64) -> [u64; 2] {
    let zeros = pmpaddr.trailing_zeros().min(54);
    let first = 4 * pmpaddr;
    let past = first + (1 << (zeros + 3));
    [first, past.min(MEMORY) - 1]
}
