//! Page tables that mostly lead to a page, and accesses by them: pages of all sizes,
//! every flaw of an entry, protection entries over tables and pages, and slices that
//! leave some tables out.

mod accesses;
mod protection;
mod slice;
mod tables;

use crate::hart::Hart;
use crate::random::Random;
use crate::sv39::satp;

use tables::Tables;

/// How many pages the accesses of one setting are to.
const POOL: usize = 4;

/// One of the pages, those listed first more often.
fn pick_page(random: &mut Random, pages: &[u64; POOL]) -> u64 {
    pages[random.index(POOL).min(random.index(POOL))]
}

/// One hart with its page tables, and pages to access.
pub struct Paging {
    pub hart: Hart,
    pub base: u64,
    pub words: Vec<u64>,
    /// The first bytes of virtual pages that the tables have entries for.
    pages: [u64; POOL],
    /// How many of them in 16 are those of U.
    user: u64,
}

pub fn paging(random: &mut Random) -> Paging {
    let tables = Tables::new(random);
    let pages = std::array::from_fn(|_| tables.page(random));
    let mut hart = super::holdable(random);
    hart.satp = tables.root() >> 12;
    if !random.once_in(24) {
        hart.satp |= satp::SV39 << satp::MODE_SHIFT;
    }
    protection::fill(random, &mut hart, &tables, &pages);
    let user = tables.user;
    let (base, words) = slice::slice(random, tables, &pages);
    Paging { hart, base, words, pages, user }
}
