//! Every map of a few ranges over a few bytes, and accesses at every byte there.

use std::iter;

use reference::capi::Question;
use reference::protection::{LOCK, MEMORY};
use reference::random::Random;
use reference::{COARSEST, Hart, Map, Mode, NONE, RANGES, Range, make};

use crate::lent::Lent;
use crate::queries::compare_query;
use crate::reads::Reads;
use crate::report::{Difference, Stage};
use crate::sizes::Sizes;

/// Two entries, none, and what is no owner.
const OWNERS: [u64; 4] = [3, 5, NONE, 17];
const RIGHTS: [u8; 6] = [0, 1, 3, 4, 5, 7];

/// So many ranges over so many bytes, and accesses of these sizes.
struct Window {
    bytes: u64,
    ranges: u32,
    sizes: &'static [u64],
}

/// The first has 41 ranges to choose from, so 41^3 maps, with 8 accesses in each;
/// the second 181, so 181^2 maps, with 25 accesses.
const WINDOWS: [Window; 2] = [
    Window { bytes: 4, ranges: 3, sizes: &[1, 2, 4] },
    Window { bytes: 9, ranges: 2, sizes: &[1, 2, 4, 8] },
];

/// How many queries a walk has.
const QUERIES: u64 = 8 * 41 * 41 * 41 + 25 * 181 * 181;

/// Every map of both windows, those of every other walk at the end of memory. Gives
/// what the queries of the first walk read: those of the others read the same.
pub fn walk(sizes: &Sizes) -> Result<Reads, Difference> {
    let mut reads = Reads::inside_memory();
    for (name, window) in ["narrow maps", "wider maps"].into_iter().zip(WINDOWS) {
        let choices = window.choices();
        let maps = (choices.len() as u64).pow(window.ranges);
        Stage::new(name, sizes, sizes.walks * maps).run(|random, case| {
            let walk = case / maps;
            let start = if walk.is_multiple_of(2) { 0 } else { MEMORY - window.bytes };
            let map = window.map(&choices, case % maps, start);
            let lent = Lent::new(hart(random).to_words(), map.to_words());
            let reads = if walk == 0 { Some(&mut reads) } else { None };
            window.compare(random, &lent, start, reads)
        })?;
    }
    if sizes.only.is_none() && sizes.walks > 0 {
        reads.check_number("narrow maps", QUERIES)?;
        reads.check("narrow maps")?;
    }
    Ok(reads)
}

impl Window {
    /// A range that holds no byte, and all that hold some, with every owner.
    fn choices(&self) -> Vec<Range> {
        let ends =
            (0..self.bytes).flat_map(|first| (first..self.bytes).map(move |last| (first, last)));
        let held = ends.flat_map(|(first, last)| OWNERS.map(|owner| Range { first, last, owner }));
        iter::once(Range { first: 1, last: 0, owner: 3 }).chain(held).collect()
    }

    /// The map whose ranges are the digits of `number`. Those past the count hold
    /// every byte, so that reading them would show.
    fn map(&self, choices: &[Range], mut number: u64, start: u64) -> Map {
        let mut ranges = [Range { first: 0, last: u64::MAX, owner: 0 }; RANGES];
        for range in &mut ranges[..self.ranges as usize] {
            let Range { first, last, owner } = choices[number as usize % choices.len()];
            *range = Range { first: start + first, last: start + last, owner };
            number /= choices.len() as u64;
        }
        Map { count: u64::from(self.ranges), ranges }
    }

    /// Accesses of each size at every byte from which they lie in the window.
    fn compare(
        &self,
        random: &mut Random,
        lent: &Lent,
        start: u64,
        mut reads: Option<&mut Reads>,
    ) -> Result<(), String> {
        for &size in self.sizes {
            for address in (0..=self.bytes - size).map(|byte| start + byte) {
                let (mode, kind) = (random.pick(&Mode::ALL).number(), random.below(3));
                let question = Question { mode, kind, address, size };
                let answer = compare_query(lent, question)?;
                if let Some(reads) = &mut reads {
                    reads.count(lent, question, answer);
                }
            }
        }
        Ok(())
    }
}

/// A hart of any grain with any rights and locks in all entries, which are off.
fn hart(random: &mut Random) -> Hart {
    let byte = |_| random.pick(&RIGHTS) | random.pick(&[0, LOCK]);
    let pmpcfg = std::array::from_fn(byte);
    Hart { pmpcfg, ..make(random.below(COARSEST + 1)).0 }
}
