//! Every grain under every A, with bits of pmpaddr set and clear around the grain: what
//! is read and kept, the map, A=2, and accesses at both ends of the entry.

use std::fmt::{self, Display, Formatter};

use reference::csr::number;
use reference::protection::{LOCK, NAPOT, OFF, TOR};
use reference::random::Random;
use reference::{COARSEST, Hart, MACHINE, STEP_WORDS, generate, mask};

use crate::accesses::compare_borders;
use crate::compare::{compare_step, compare_ways, step_both};
use crate::grains::{finest, read, span};
use crate::lent::Lent;
use crate::report::{Difference, Stage};
use crate::sizes::Sizes;

/// In how many entries of a walk pmpaddr reads unlike what is stored.
///
/// There are 35 patterns of the lowest 12 bits: trailing ones, from none to 12; all but
/// one bit, the highest one apart; and a single bit, the lowest apart. Under OFF and TOR
/// those read as stored whose low G bits are zeros: 0, the single bits from G on, so
/// 12-G, and for G=1 that without bit 0. The others are 22 for G=1, and 22+G from 2 on.
/// Under NAPOT those read as stored whose low h=G-1 bits are ones: 13-h of the trailing
/// ones, and 11-h of those without one bit. The others are 11+2h from G=2 on.
const READS: u64 = 2 * (22 + 24 + 25 + 26 + 27 + 28 + 29 + 30 + 31 + 32) + NAPOT_SPANS;
/// In how many the bytes are others than with a G of 0: a NAPOT entry that reads unlike
/// what is stored has a longer range. A TOR entry has the same pattern in both bounds,
/// which are far enough apart for it never to be empty.
const SPANS: u64 = (READS - NAPOT_SPANS) / 2 + NAPOT_SPANS;
const NAPOT_SPANS: u64 = 13 + 15 + 17 + 19 + 21 + 23 + 25 + 27 + 29;

const MATCHING: [u8; 3] = [OFF, TOR, NAPOT];
/// The bits above the patterns, of an entry and of the one below it.
const ABOVE: u64 = 0x5A_5000;
const ABOVE_BELOW: u64 = 0x5A_4000;

const WRITE: u64 = 1;
const SET: u64 = 2;
const CLEAR: u64 = 3;
const READ: u64 = 4;
/// The lowest bit of a configuration byte.
const READABLE: u8 = 1;

/// How many entries there were, how many read unlike what is stored, and how many have
/// other bytes than with a G of 0.
#[derive(Default, PartialEq, Eq)]
pub struct Coarse {
    entries: u64,
    reads: u64,
    spans: u64,
}

impl Coarse {
    fn count(&mut self, hart: &Hart, entry: usize) {
        self.entries += 1;
        self.reads += u64::from(read(hart, entry) != hart.pmpaddr[entry]);
        self.spans += u64::from(span(hart, entry) != span(&finest(hart), entry));
    }
}

impl Display for Coarse {
    fn fmt(&self, formatter: &mut Formatter) -> fmt::Result {
        let Coarse { entries, reads, spans } = self;
        write!(
            formatter,
            "{entries} entries ({reads} that read unlike what is stored, {spans} with other bytes \
             than with a G of 0)"
        )
    }
}

/// Every pattern with every grain and A, in a random entry but 0. Gives how the entries
/// differ from those of a G of 0, which must be as often as counted by hand.
pub fn walk(sizes: &Sizes) -> Result<Coarse, Difference> {
    let mut coarse = Coarse::default();
    let patterns = patterns();
    let kinds = MATCHING.len() * patterns.len();
    let each = (COARSEST + 1) * kinds as u64;
    Stage::new("coarse", sizes, sizes.walks * each).run(|random, case| {
        let (grain, kind) = (case / kinds as u64 % (COARSEST + 1), case as usize % kinds);
        let (matching, pattern) = (MATCHING[kind % 3], patterns[kind / 3]);
        let entry = 1 + random.index(15);
        let hart = only_entry(random, grain, entry, matching, pattern);
        coarse.count(&hart, entry);
        compare_entry(random, &hart, entry)
    })?;
    let expected = Coarse {
        entries: sizes.walks * each,
        reads: sizes.walks * READS,
        spans: sizes.walks * SPANS,
    };
    if sizes.only.is_none() && coarse != expected {
        return Err(Difference(format!(
            "coarse\nthe walks do not tell the grains apart as they must: {coarse}, and there \
             must be {expected}"
        )));
    }
    Ok(coarse)
}

fn patterns() -> Vec<u64> {
    let trailing = (0..=12).map(|ones| (1 << ones) - 1);
    let all_but_one = (0..11).map(|bit| 0xFFF ^ 1 << bit);
    let single = (1..12).map(|bit| 1 << bit);
    trailing.chain(all_but_one).chain(single).collect()
}

/// A hart in M with one entry, readable alone, the one below it with any A, and all
/// others off.
fn only_entry(random: &mut Random, grain: u64, entry: usize, matching: u8, pattern: u64) -> Hart {
    let mut hart = Hart { mode: MACHINE, grain, ..generate::finest(random) };
    hart.pmpcfg = hart.pmpcfg.map(|byte| byte & !(LOCK | 3 << 3));
    hart.pmpcfg[entry - 1] |= random.pick(&MATCHING) << 3;
    hart.pmpaddr[entry - 1] = ABOVE_BELOW | pattern;
    (hart.pmpcfg[entry], hart.pmpaddr[entry]) = (matching << 3 | READABLE, ABOVE | pattern);
    hart
}

/// The entry written, read, set and cleared, and then locked; and its ends, by the grain
/// and by a G of 0.
fn compare_entry(random: &mut Random, hart: &Hart, entry: usize) -> Result<(), String> {
    let lent = written(random, hart, entry)?;
    compare_ways(&lent, [READ, number::PMPADDR0 + entry as u64, 0])?;
    for words in changes(random, hart, entry) {
        compare_step(&lent, words)?;
    }
    let locked = step_both(&lent, [SET, configuration(entry), in_place(entry, LOCK)])?;
    for span in [span(hart, entry), span(&finest(hart), entry)].into_iter().flatten() {
        compare_borders(&locked, [span.start, span.end])?;
    }
    Ok(())
}

/// The hart after a write of every bit of the entry's pmpaddr.
fn written(random: &mut Random, hart: &Hart, entry: usize) -> Result<Lent, String> {
    let mut start = *hart;
    start.pmpaddr[entry] ^= mask::PMPADDR;
    let map = generate::map(random, &start).to_words();
    let lent = Lent::new(start.to_words(), map);
    step_both(&lent, [WRITE, number::PMPADDR0 + entry as u64, hart.pmpaddr[entry]])
}

/// Sets and clears of no bit and of some bits of pmpaddr, and steps that would leave A=2.
fn changes(random: &mut Random, hart: &Hart, entry: usize) -> [[u64; STEP_WORDS]; 8] {
    let (pmpaddr, pmpcfg) = (number::PMPADDR0 + entry as u64, configuration(entry));
    let some = random.word() & 0xFFF;
    let other = random.word() as u8 & 0x87;
    let others = hart.configuration_register(entry / 8 * 8) & !in_place(entry, 0xFF);
    [
        [SET, pmpaddr, 0],
        [CLEAR, pmpaddr, 0],
        [SET, pmpaddr, some],
        [CLEAR, pmpaddr, some],
        [WRITE, pmpcfg, others | in_place(entry, other | 2 << 3)],
        [WRITE, pmpcfg, random.word()],
        [SET, pmpcfg, in_place(entry, other | 2 << 3)],
        [CLEAR, pmpcfg, in_place(entry, other | 1 << 3)],
    ]
}

/// The number of the register with the entry's configuration byte.
fn configuration(entry: usize) -> u64 {
    if entry < 8 { number::PMPCFG0 } else { number::PMPCFG2 }
}

/// A byte at the entry's place in that register.
fn in_place(entry: usize, byte: u8) -> u64 {
    u64::from(byte) << (8 * (entry % 8))
}
