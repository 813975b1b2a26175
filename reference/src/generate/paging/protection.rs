//! Protection entries for a setting of page tables: one for all memory, mostly, and
//! below it some over what walks read and lead to.

use super::tables::Tables;
use super::{POOL, pick_page};
use crate::generate::entries::RIGHTS;
use crate::hart::Hart;
use crate::holdable::mask;
use crate::protection::{LOCK, NA4, NAPOT, TOR};
use crate::random::Random;
use crate::sv39::PAGE;

const ALL_RIGHTS: u8 = 7;

pub fn fill(random: &mut Random, hart: &mut Hart, tables: &Tables, pages: &[u64; POOL]) {
    (hart.pmpcfg, hart.pmpaddr) = ([0; 16], [0; 16]);
    for _ in 0..random.pick(&[0, 1, 1, 2, 3]) {
        let entry = 1 + random.index(10);
        let page = pick_page(random, pages);
        let place = random_place(random, tables, page);
        cover(random, hart, entry, place);
    }
    if !random.once_in(30) {
        let entry = 11 + random.index(5);
        let rights = if random.once_in(16) { random.pick(&RIGHTS) } else { ALL_RIGHTS };
        hart.pmpcfg[entry] = NAPOT << 3 | rights;
        hart.pmpaddr[entry] = mask::PMPADDR;
    }
}

/// What a walk to the page reads or leads to: there any byte, the first or the last. Or
/// so of the next page, where the second part of an access is.
fn random_place(random: &mut Random, tables: &Tables, page: u64) -> u64 {
    let visited = tables.visited(page);
    let next = tables.visited(page.wrapping_add(PAGE));
    match random.below(8) {
        0 => random.pick(&visited),
        1 => visited[visited.len() - 1] | 0xFF8,
        2 => visited[visited.len() - 1],
        3 | 4 => next[next.len() - 1],
        5 | 6 => next[next.len().min(3) - 1],
        _ => random.pick(&next),
    }
}

/// Gives an entry the four bytes at a place, the eight or the page around it, or all
/// from the entry below on; with a coarser grain, at least the grain around it.
fn cover(random: &mut Random, hart: &mut Hart, entry: usize, place: u64) {
    let word = place >> 2;
    let (matching, pmpaddr) = match random.below(8) {
        0 if hart.grain == 0 => (NA4, word),
        1 if hart.grain == 0 => (NA4, word | 1),
        0 | 1 => (NAPOT, word & !(1 << (hart.grain - 1))),
        2..=4 => (NAPOT, word & !1),
        5 | 6 => (NAPOT, word & !0x3FF | 0x1FF),
        _ => {
            hart.pmpaddr[entry - 1] = word;
            (TOR, (word + 2 + random.below(8)).min(mask::PMPADDR))
        }
    };
    let lock = if random.once_in(4) { LOCK } else { 0 };
    hart.pmpcfg[entry] = matching << 3 | random.pick(&RIGHTS) | lock;
    hart.pmpaddr[entry] = pmpaddr;
}
