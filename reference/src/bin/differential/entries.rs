//! Every page-table entry with the same page at every level, by every kind of access.

use std::fmt::{self, Display, Formatter};

use reference::random::Random;
use reference::sv39::{PAGE, pte, satp};
use reference::{
    ANSWER_WORDS, Hart, MACHINE, STEP_WORDS, SUPERVISOR, USER, generate, mask, status,
};

use crate::compare::compare_ways;
use crate::lent::Lent;
use crate::report::{Difference, Stage};
use crate::sizes::Sizes;

const FETCH: u64 = 14;
/// Where the three tables stand, and the page.
const BASE: u64 = 0x8000_0000;
const FRAME: u64 = 0x4000_0000;
/// A page that S may use in every way.
const WHOLE: u64 = FRAME >> 2 | pte::V | pte::R | pte::W | pte::X | pte::A | pte::D;

/// The lowest 8 bits of an entry, at 3 levels, by 3 kinds, as U or S, with SUM and MXR.
const BITS: u64 = 256 * 3 * 3 * 2 * 2 * 2;
/// Each of the other 54 bits turned over, at 3 levels, by 3 kinds.
const TURNED: u64 = 54 * 3 * 3;

/// How many of a walk are granted, and have an access fault, counted by hand; all
/// others have a page fault.
///
/// Of the lowest bits V and A must be 1, and G may be either. U, with its mode and SUM,
/// has 5 good choices: U=1 for U (2), U=0 for S (2), U=1 for S with SUM; without the
/// last for a fetch. Loads: either D; with R 4 choices of W and X under either MXR, and
/// X alone under MXR, so 2 * 2 * 5 * 9. Stores: D; R and W, with either X and MXR, so
/// 2 * 5 * 4. Fetches: either D; X with R, with R and W or alone, under either MXR, so
/// 2 * 2 * 4 * 6. Of the bits turned over, 44 are those of PPN: they leave all pages of
/// 4 KiB, those of 2 MiB but for the lowest 9, and of 1 GiB but for the lowest 18.
const GRANTED: u64 = 3 * (180 + 40 + 96) + 3 * (44 + 35 + 26);
/// Pointers, with either G, lead out of the slice from levels 2 and 1.
const ACCESS_FAULTS: u64 = 2 * 2 * 3 * 2 * 2 * 2;

/// How many accesses there were, how many granted, and with an access fault.
#[derive(Default, PartialEq, Eq)]
pub struct Entries {
    accesses: u64,
    granted: u64,
    access_faults: u64,
}

impl Entries {
    fn count(&mut self, answer: [u64; ANSWER_WORDS]) {
        self.accesses += 1;
        self.granted += u64::from(answer[0] == 3);
        self.access_faults += u64::from(matches!(answer, [4, 1 | 5 | 7, ..]));
    }
}

impl Display for Entries {
    fn fmt(&self, formatter: &mut Formatter) -> fmt::Result {
        let Entries { accesses, granted, access_faults } = self;
        write!(formatter, "{accesses} accesses ({granted} granted, {access_faults} access faults)")
    }
}

/// Every entry, from a state that is random in all else. Gives how the accesses ended,
/// which must be as often as counted by hand.
pub fn walk(sizes: &Sizes) -> Result<Entries, Difference> {
    let mut entries = Entries::default();
    let cases = sizes.walks * (BITS + TURNED);
    Stage::new("entries", sizes, cases).run(|random, case| {
        let (lent, words) = access(random, case % (BITS + TURNED));
        entries.count(compare_ways(&lent, words)?);
        Ok(())
    })?;
    let [granted, access_faults] = [GRANTED, ACCESS_FAULTS].map(|count| sizes.walks * count);
    let expected = Entries { accesses: cases, granted, access_faults };
    if sizes.only.is_none() && entries != expected {
        return Err(Difference(format!(
            "entries\nthe walks do not end as they must: {entries}, and there must be {expected}"
        )));
    }
    Ok(entries)
}

fn access(random: &mut Random, mut case: u64) -> (Lent, [u64; STEP_WORDS]) {
    let turned = case >= BITS;
    case -= if turned { BITS } else { 0 };
    let mut next = |choices| {
        let choice = case % choices;
        case /= choices;
        choice
    };
    let (level, kind) = (next(3), next(3));
    let (entry, mode, bits) = if turned {
        (WHOLE ^ 1 << (10 + next(54)), SUPERVISOR, random.bits(status::SUM | status::MXR))
    } else {
        let mode = [USER, SUPERVISOR][next(2) as usize];
        let bits = [0, status::SUM][next(2) as usize] | [0, status::MXR][next(2) as usize];
        (FRAME >> 2 | next(256) | random.below(4) << 8, mode, bits)
    };
    let address = PAGE * random.below(1 << 26) + 8 * random.below(512);
    let hart = hart(random, kind, mode, bits, address);
    let map = generate::map(random, &hart).to_words();
    let words = tables(level, address, entry).into();
    let lent = Lent::new(hart.to_words(), map).with_memory(BASE, words);
    (lent, [FETCH + kind, address, 1 << random.below(4)])
}

/// Translates as `mode`, for loads and stores at times by MPRV, with one protection
/// entry for all memory.
fn hart(random: &mut Random, kind: u64, mode: u64, bits: u64, address: u64) -> Hart {
    let hart = generate::holdable(random);
    let by_mpp = kind > 0 && random.once_in(2);
    let kept = hart.mstatus & !(status::SUM | status::MXR);
    let mstatus = status::with(status::with_mpp(kept | bits, mode), status::MPRV, by_mpp);
    let mode = if by_mpp { random.pick(&[USER, SUPERVISOR, MACHINE]) } else { mode };
    let satp = satp::SV39 << satp::MODE_SHIFT | BASE >> 12;
    let mut hart = Hart { mode, mstatus, satp, pc: address, pmpcfg: [0; 16], ..hart };
    let entry = random.index(16);
    (hart.pmpcfg[entry], hart.pmpaddr[entry]) = (0x1F, mask::PMPADDR);
    hart
}

/// Pointers down to a level, and there the entry.
fn tables(level: u64, address: u64, entry: u64) -> Vec<u64> {
    let mut words = vec![0; 3 * 512];
    for (table, above) in [2, 1, 0].into_iter().enumerate() {
        let place = 512 * table + (address >> (12 + 9 * above) & 511) as usize;
        if above == level {
            words[place] = entry;
            break;
        }
        words[place] = (BASE + PAGE * (table as u64 + 1)) >> 2 | pte::V;
    }
    words
}
