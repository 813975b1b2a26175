//! The classes of queries, by what they read.

use std::fmt::{self, Display, Formatter};

use reference::capi::Question;
use reference::{ANSWER_WORDS, NONE};

use crate::classes::{Class, Tally};
use crate::lent::Lent;
use crate::reading::Reading;
use crate::report::Difference;

/// First words of answers.
const GRANTED: u64 = 3;
const REFUSED: u64 = 5;

const CLASSES: [Class<Reading>; 12] = [
    Class { name: "past memory", one_in: 20, holds: |reading| reading.is_empty() },
    Class { name: "with no entry", one_in: 20, holds: Reading::is_none },
    Class {
        name: "granted across ranges of one owner",
        one_in: 100,
        holds: |reading| reading.is_joined() && reading.granted(),
    },
    Class {
        name: "denied across ranges of one owner",
        one_in: 100,
        holds: |reading| reading.is_joined() && !reading.granted(),
    },
    Class {
        name: "of several owners, the first byte's the lowest",
        one_in: 50,
        holds: |reading| reading.is_partial() && reading.lowest() == reading.first(),
    },
    Class {
        name: "of several owners, a later byte's the lowest",
        one_in: 50,
        holds: |reading| reading.is_partial() && reading.lowest() != reading.first(),
    },
    Class {
        name: "of an entry and none",
        one_in: 50,
        holds: |reading| reading.is_partial() && reading.owners().any(|owner| owner == NONE),
    },
    Class {
        name: "with a lower-numbered range inside",
        one_in: 100,
        holds: |reading| !reading.is_refused() && reading.has_lower_inside(),
    },
    Class { name: "refused by the first byte", one_in: 20, holds: Reading::is_refused_at_once },
    Class {
        name: "refused by a later byte in no range",
        one_in: 100,
        holds: |reading| reading.is_refused_later() && reading.has_gap(),
    },
    Class {
        name: "refused by a later byte's owner",
        one_in: 400,
        holds: |reading| reading.is_refused_later() && !reading.has_gap(),
    },
    Class {
        name: "refused though owners differ",
        one_in: 400,
        holds: |reading| reading.is_refused() && reading.owners_differ(),
    },
];

/// How many queries there were of each class.
pub struct Reads(Tally<Reading>);

impl Reads {
    pub fn new() -> Reads {
        Reads(Tally::new("accepted queries", &CLASSES))
    }

    /// Of queries that all lie inside memory.
    pub fn inside_memory() -> Reads {
        Reads(Tally::new("accepted queries", &CLASSES[1..]))
    }

    /// Counts a query with its answer, unless that is a refusal of the state or the
    /// size.
    pub fn count(&mut self, lent: &Lent, question: Question, answer: [u64; ANSWER_WORDS]) {
        if !matches!(answer, [REFUSED, 1 | 3, ..]) {
            self.0.count(&Reading::of(lent, question, answer[0] == GRANTED));
        }
    }

    /// Fails where there were not just so many queries.
    pub fn check_number(&self, stage: &str, queries: u64) -> Result<(), Difference> {
        if self.0.cases == queries {
            return Ok(());
        }
        Err(Difference(format!("{stage}\n{self}, and there must be {queries}")))
    }

    pub fn check(&self, stage: &str) -> Result<(), Difference> {
        self.0.check(stage)
    }
}

impl Display for Reads {
    fn fmt(&self, formatter: &mut Formatter) -> fmt::Result {
        self.0.fmt(formatter)
    }
}
