//! NAPOT entries with every shape of pmpaddr: their maps, and accesses at the
//! borders of their ranges.

use reference::csr::number;
use reference::protection::{LOCK, NAPOT};
use reference::random::Random;
use reference::{Hart, MACHINE, Range, generate, mask};

use crate::accesses::compare_borders;
use crate::compare::step_both;
use crate::lent::Lent;
use crate::report::{Difference, Stage};
use crate::sizes::Sizes;
use crate::trailing::Trailing;

/// In how many entries of a walk a count of trailing zeros gives another range.
/// There are 1,538 registers: 55 - t with t trailing ones for each t up to 51
/// (53 - t places are left above the zero), then 2, 1 and 1. An odd register has
/// no trailing zeros, so its range would start past its first byte. An even one
/// would keep its start and get 16 bytes or more in place of 8; only for 2^54-2
/// does the end of memory leave the same 8. Each register is in two entries.
const TELLING_ENTRIES: u64 = 2 * (1538 - 1);

const WRITE: u64 = 1;
const SET: u64 = 2;
/// The lowest bit of a configuration byte.
const READ: u8 = 1;

/// Every register as entry 0 and as a higher one, each from a state in M with all
/// other entries off, and random in all else. Gives how often the wrong count
/// makes another range, which must be as often as counted by hand.
pub fn walk(sizes: &Sizes) -> Result<Trailing, Difference> {
    let mut trailing = Trailing::default();
    let registers = generate::napot_registers();
    let entries = sizes.walks * 2 * registers.len() as u64;
    Stage::new("napot", sizes, entries).run(|random, case| {
        let pmpaddr = registers[case as usize / 2 % registers.len()];
        let entry = if case % 2 == 0 { 0 } else { 1 + random.index(15) };
        let lent = locked_entry(random, entry, pmpaddr)?;
        let hart = Hart::from_words(&lent.hart);
        let range = matched_range(&hart, entry);
        trailing.count(&hart, entry, range);
        compare_borders(&lent, [range.first, range.last + 1])
    })?;
    let expected = sizes.walks * TELLING_ENTRIES;
    if sizes.only.is_none() && trailing.differing != expected {
        return Err(Difference(format!(
            "napot\nthe walks do not tell trailing ones from trailing zeros as they must: \
             the ranges differ for {} entries, and must for {expected}",
            trailing.differing
        )));
    }
    Ok(trailing)
}

/// Writes every bit of the entry's pmpaddr anew, then locks the entry: after
/// each of the two steps the map must be compiled afresh.
fn locked_entry(random: &mut Random, entry: usize, pmpaddr: u64) -> Result<Lent, String> {
    let hart = only_entry(random, entry, pmpaddr ^ mask::PMPADDR);
    let map = generate::map(random, &hart).to_words();
    let start = Lent::new(hart.to_words(), map);
    let written = step_both(&start, [WRITE, number::PMPADDR0 + entry as u64, pmpaddr])?;
    let pmpcfg = if entry < 8 { number::PMPCFG0 } else { number::PMPCFG2 };
    step_both(&written, [SET, pmpcfg, u64::from(LOCK) << (8 * (entry % 8))])
}

/// A hart in M with a G of 0 and one NAPOT entry, readable alone, all others being off.
fn only_entry(random: &mut Random, entry: usize, pmpaddr: u64) -> Hart {
    let mut hart = Hart { mode: MACHINE, ..generate::finest(random) };
    hart.pmpcfg = hart.pmpcfg.map(|byte| byte & !(3 << 3));
    hart.pmpcfg[entry] = NAPOT << 3 | READ;
    hart.pmpaddr[entry] = pmpaddr;
    hart
}

/// The range of the one entry in the model's map.
fn matched_range(hart: &Hart, entry: usize) -> Range {
    let map = hart.compile();
    let mut ranges = map.listed().iter();
    *ranges.find(|range| range.owner == entry as u64).expect("NAPOT matches some byte")
}
