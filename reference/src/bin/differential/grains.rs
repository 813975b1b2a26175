//! What steps tell of the grain of request [9], judged apart from the model, so that one
//! sees whether the comparison tells the grains apart.

use std::fmt::{self, Display, Formatter};
use std::ops::Range;

use reference::csr::number::{PMPADDR0, PMPADDR15, PMPCFG0, PMPCFG2};
use reference::protection::{LOCK, NA4, NAPOT, OFF, TOR, address_matching};
use reference::{COARSEST, Hart, MACHINE, STEP_WORDS, mask};

use crate::accesses::asked;
use crate::classes::{Class, Tally};
use crate::lent::Lent;
use crate::report::Difference;

const RESET: u64 = 0;
const SET: u64 = 2;
const CLEAR: u64 = 3;
const READ: u64 = 4;

/// What pmpaddr reads under its entry's A.
pub fn read(hart: &Hart, entry: usize) -> u64 {
    let stored = hart.pmpaddr[entry];
    match address_matching(hart.pmpcfg[entry]) {
        OFF | TOR => stored - stored % (1 << hart.grain),
        NAPOT => stored - stored % half_grain(hart) + half_grain(hart) - 1,
        _ => stored,
    }
}

/// 2^(G-1) words, and one where G is 0.
fn half_grain(hart: &Hart) -> u64 {
    1 << hart.grain.saturating_sub(1)
}

/// The bytes of an entry, if it has any.
pub fn span(hart: &Hart, entry: usize) -> Option<Range<u64>> {
    let bound = |entry: usize| hart.pmpaddr[entry] / (1 << hart.grain) * (4 << hart.grain);
    let span = match address_matching(hart.pmpcfg[entry]) {
        OFF => 0..0,
        TOR => entry.checked_sub(1).map_or(0, bound)..bound(entry),
        NA4 => 4 * hart.pmpaddr[entry]..4 * hart.pmpaddr[entry] + 4,
        _ => napot_span(hart.pmpaddr[entry] / half_grain(hart), 8 * half_grain(hart)),
    };
    (!span.is_empty()).then_some(span)
}

/// By the bits of pmpaddr that are compared or counted, of which the lowest stands for
/// half of the least range.
fn napot_span(bits: u64, least: u64) -> Range<u64> {
    let ones = bits.trailing_ones();
    let size = least << ones;
    let first = (bits >> ones >> 1) * size;
    first..first + size
}

/// The same hart with a G of 0.
pub fn finest(hart: &Hart) -> Hart {
    Hart { grain: 0, ..*hart }
}

/// One step from a state of any grain.
struct Case {
    hart: Hart,
    words: [u64; STEP_WORDS],
    held: bool,
}

impl Case {
    fn of_grain(&self, grain: u64) -> bool {
        self.held && self.hart.grain == grain
    }

    fn resets(&self) -> bool {
        self.words[0] == RESET
    }

    /// Whether the state could be held but for its grain.
    fn is_barred(&self) -> bool {
        !self.held && !self.resets() && finest(&self.hart).can_hold()
    }

    /// Whether an entry with this A has other bytes than with a G of 0.
    fn spans_differ(&self, matching: u8) -> bool {
        let hart = &self.hart;
        let differs = |entry: usize| {
            address_matching(hart.pmpcfg[entry]) == matching
                && span(hart, entry) != span(&finest(hart), entry)
        };
        self.held && hart.grain > 0 && (0..16).any(differs)
    }

    /// The entry of a pmpaddr that a step in M reads and may write.
    fn pmpaddr(&self) -> Option<usize> {
        let [step, number, _] = self.words;
        let reached = self.held && self.hart.mode == MACHINE && (1..=READ).contains(&step);
        (reached && (PMPADDR0..=PMPADDR15).contains(&number)).then(|| (number - PMPADDR0) as usize)
    }

    /// Whether an entry with this A shows something else than it has stored.
    fn shows(&self, matching: u8) -> bool {
        self.pmpaddr().is_some_and(|entry| {
            address_matching(self.hart.pmpcfg[entry]) == matching
                && read(&self.hart, entry) != self.hart.pmpaddr[entry]
        })
    }

    /// Whether a set or clear leaves something else than if it had started from the
    /// stored value.
    fn starts_from_read(&self) -> bool {
        let [step, _, operand] = self.words;
        let leaves = |start: u64| match step {
            SET => start | operand & mask::PMPADDR,
            CLEAR => start & !operand,
            _ => 0,
        };
        self.pmpaddr().is_some_and(|entry| {
            let [locked, next_locked] = [entry, entry + 1].map(|entry| self.byte(entry) & LOCK);
            let frozen = next_locked != 0 && address_matching(self.byte(entry + 1)) == TOR;
            let read = leaves(read(&self.hart, entry));
            locked == 0 && !frozen && read != leaves(self.hart.pmpaddr[entry])
        })
    }

    /// The configuration byte of an entry; 0 past the last.
    fn byte(&self, entry: usize) -> u8 {
        self.hart.pmpcfg.get(entry).copied().unwrap_or(0)
    }

    /// Whether a write, set or clear leaves a byte alone for the sake of the grain.
    fn leaves_na4(&self) -> bool {
        let [step, number, operand] = self.words;
        let lowest = match number {
            PMPCFG0 => 0,
            PMPCFG2 => 8,
            _ => return false,
        };
        let reached = self.held && self.hart.mode == MACHINE && (1..READ).contains(&step);
        let left = |place: usize| {
            let (old, operand) = (self.byte(lowest + place), operand.to_le_bytes()[place]);
            let new = match step {
                SET => old | operand,
                CLEAR => old & !operand,
                _ => operand,
            };
            old & LOCK == 0 && address_matching(new) == NA4
        };
        reached && self.hart.grain > 0 && (0..8).any(left)
    }

    /// Whether an untranslated access would be answered otherwise with a G of 0.
    fn decides(&self) -> bool {
        let hart = &self.hart;
        let Some((mode, access, address, size)) = asked(hart, self.words) else { return false };
        let accepted = self.held && matches!(size, 1 | 2 | 4 | 8) && !hart.is_translated(mode);
        let ruling = |hart: &Hart| hart.byte_rule(mode, access, address, size);
        accepted && hart.grain > 0 && ruling(hart) != ruling(&finest(hart))
    }
}

const CLASSES: [Class<Case>; 24] = [
    class("with a G of 0", 5, |case| case.of_grain(0)),
    class("of 1", 100, |case| case.of_grain(1)),
    class("of 2", 100, |case| case.of_grain(2)),
    class("of 3", 100, |case| case.of_grain(3)),
    class("of 4", 100, |case| case.of_grain(4)),
    class("of 5", 100, |case| case.of_grain(5)),
    class("of 6", 100, |case| case.of_grain(6)),
    class("of 7", 100, |case| case.of_grain(7)),
    class("of 8", 100, |case| case.of_grain(8)),
    class("of 9", 100, |case| case.of_grain(9)),
    class("of 10", 100, |case| case.of_grain(10)),
    class("resets that keep a G above 0", 200, |case| {
        case.resets() && (1..=COARSEST).contains(&case.hart.grain)
    }),
    class("resets with a G above 10", 20_000, |case| case.resets() && case.hart.grain > COARSEST),
    class("refused for a G above 10", 5000, |case| case.is_barred() && case.hart.grain > COARSEST),
    class("refused for A=2", 1000, |case| case.is_barred() && case.hart.grain <= COARSEST),
    class("with TOR by other bytes than with a G of 0", 10, |case| case.spans_differ(TOR)),
    class("with NAPOT by others", 10, |case| case.spans_differ(NAPOT)),
    class("with pmpaddr of OFF unlike what is stored", 1000, |case| case.shows(OFF)),
    class("of TOR", 1000, |case| case.shows(TOR)),
    class("of NAPOT", 1000, |case| case.shows(NAPOT)),
    class("with set or clear from there to another value", 1000, Case::starts_from_read),
    class("by operand 0", 5000, |case| case.starts_from_read() && case.words[2] == 0),
    class("with A=2 left out", 1000, Case::leaves_na4),
    class("with an access decided otherwise than with a G of 0", 400, Case::decides),
];

const fn class(name: &'static str, one_in: u64, holds: fn(&Case) -> bool) -> Class<Case> {
    Class { name, one_in, holds }
}

/// How many steps there were of each class.
pub struct Grains(Tally<Case>);

impl Grains {
    pub fn new() -> Grains {
        Grains(Tally::new("steps by grain", &CLASSES))
    }

    pub fn count(&mut self, lent: &Lent, words: [u64; STEP_WORDS]) {
        let hart = Hart::from_words(&lent.hart);
        self.0.count(&Case { hart, words, held: hart.can_hold() });
    }

    pub fn check(&self, stage: &str) -> Result<(), Difference> {
        self.0.check(stage)
    }
}

impl Display for Grains {
    fn fmt(&self, formatter: &mut Formatter) -> fmt::Result {
        self.0.fmt(formatter)
    }
}
