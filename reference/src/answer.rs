//! What a call answers.

use crate::hart::Mode;
use crate::map::NONE;
use crate::protection::Access;

/// A refusal; its number is that of the refusal table.
#[derive(Clone, Copy, PartialEq, Eq, Debug)]
pub enum Refusal {
    /// The size of an access is none of 1, 2, 4, 8.
    Size = 1,
    /// A CSR number, a cause or lines out of bounds.
    Argument = 2,
    /// The state given is not one a hart can hold.
    State = 3,
    /// The text is not in the form asked for.
    Form = 4,
    /// The text has the form, but no hart can hold its state.
    TextState = 5,
    /// The buffer is too short for the form asked for.
    Buffer = 6,
    /// The map does not say who owns each byte.
    Map = 7,
    /// A record of a trace is broken.
    Record = 8,
    /// The state has no text in the form asked for.
    NoText = 12,
    /// The words lent are not at a lawful address.
    Memory = 13,
}

impl Refusal {
    pub fn number(self) -> u64 {
        self as u64
    }
}

#[derive(Clone, Copy, PartialEq, Eq, Debug)]
pub enum Cause {
    Exception(u64),
    Interrupt(u64),
}

impl Cause {
    /// The cause as mcause and scause hold it.
    pub fn word(self) -> u64 {
        match self {
            Cause::Exception(code) => code,
            Cause::Interrupt(code) => 1 << 63 | code,
        }
    }
}

/// The number of the entry that decided an access, 0 to 15, if one did.
pub type Entry = Option<usize>;

/// What is said of an access, with the entry that decided.
#[derive(Clone, Copy, PartialEq, Eq, Debug)]
pub enum Ruling {
    Granted { entry: Entry },
    Fault { cause: u64, entry: Entry },
}

impl Ruling {
    pub fn new(granted: bool, access: Access, entry: Entry) -> Ruling {
        if granted {
            Ruling::Granted { entry }
        } else {
            Ruling::Fault { cause: access.fault(), entry }
        }
    }
}

/// The answer of a step.
#[derive(Clone, Copy, PartialEq, Eq, Debug)]
pub enum Answer {
    Done,
    /// Done, with the old value of a CSR.
    Value(u64),
    /// Done, with yes or no.
    Decision(bool),
    Granted {
        entry: Entry,
    },
    Trapped {
        cause: Cause,
        destination: Mode,
        /// That of the access; none decides a trap that comes from no access.
        entry: Entry,
    },
    Refused(Refusal),
}

/// Number of words of an answer: its kind, up to two values, and the entry that
/// decided.
pub const ANSWER_WORDS: usize = 4;

impl Answer {
    pub fn words(self) -> [u64; ANSWER_WORDS] {
        match self {
            Answer::Done => [0, 0, 0, 0],
            Answer::Value(value) => [1, value, 0, 0],
            Answer::Decision(yes) => [2, u64::from(yes), 0, 0],
            Answer::Granted { entry } => [3, 0, 0, entry_word(entry)],
            Answer::Trapped { cause, destination, entry } => {
                [4, cause.word(), destination.number(), entry_word(entry)]
            }
            Answer::Refused(refusal) => [5, refusal.number(), 0, 0],
        }
    }
}

fn entry_word(entry: Entry) -> u64 {
    entry.map_or(NONE, |entry| entry as u64)
}

/// The answer of a query.
#[derive(Clone, Copy, PartialEq, Eq, Debug)]
pub enum Verdict {
    Ruled(Ruling),
    Refused(Refusal),
}

impl Verdict {
    /// The words in the numbering of `Answer::words`.
    pub fn words(self) -> [u64; ANSWER_WORDS] {
        match self {
            Verdict::Ruled(Ruling::Granted { entry }) => [3, 0, 0, entry_word(entry)],
            Verdict::Ruled(Ruling::Fault { cause, entry }) => [6, cause, 0, entry_word(entry)],
            Verdict::Refused(refusal) => [5, refusal.number(), 0, 0],
        }
    }
}
