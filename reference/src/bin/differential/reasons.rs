//! Why CSR steps end as they do, judged from the words of document 01 apart from
//! the model, so that one sees whether a walk has all that its access rule tells
//! apart.

use std::fmt::{self, Display, Formatter};

use reference::{ANSWER_WORDS, Hart, STEP_WORDS, SUPERVISOR, USER, status};

use crate::report::{Difference, answer_text};

pub const READ: u64 = 4;
/// How many numbers there are.
pub const NUMBERS: u64 = 4096;
/// The numbers that are present, in the words of document 01.
const PRESENT: &str = "F11 to F15; 300 to 306, 30A, 320, 323 to 33F, 340 to 344, 3A0, 3A2, \
                       3B0 to 3BF, B00, B02, B03 to B1F; 100, 104, 105, 106, 10A, 140 to 144, \
                       180; C00, C02, C03 to C1F";

/// Refusal 2, then document 01's reasons for an illegal instruction in its order,
/// and done where there is none.
#[derive(Clone, Copy)]
enum Reason {
    Refused,
    Absent,
    LowestMode,
    ReadOnly,
    Satp,
    Mcounteren,
    Scounteren,
    Done,
}

pub const REASONS: usize = 8;
const NAMES: [&str; REASONS] = [
    "refused 2",
    "absent",
    "below the lowest mode",
    "writing what is read-only",
    "of satp under TVM",
    "closed by mcounteren",
    "closed by scounteren",
    "done",
];

impl Reason {
    fn fits(self, [kind, value, ..]: [u64; ANSWER_WORDS]) -> bool {
        match self {
            Reason::Refused => [kind, value] == [5, 2],
            Reason::Done => kind == 1,
            _ => [kind, value] == [4, 2],
        }
    }
}

/// How many CSR steps there were for each reason.
pub struct Reasons {
    present: Vec<bool>,
    counts: [u64; REASONS],
}

impl Reasons {
    pub fn new() -> Reasons {
        let mut present = vec![false; NUMBERS as usize];
        for (first, last) in PRESENT.split([',', ';']).map(ends) {
            present[first..=last].fill(true);
        }
        Reasons { present, counts: [0; REASONS] }
    }

    /// Counts a step from a state that a hart can hold. Its answer must fit its
    /// reason.
    pub fn count(
        &mut self,
        hart: &Hart,
        [step, number, _]: [u64; STEP_WORDS],
        answer: [u64; ANSWER_WORDS],
    ) -> Result<(), String> {
        let reason = self.of(hart, number, step != READ);
        self.counts[reason as usize] += 1;
        if reason.fits(answer) {
            return Ok(());
        }
        let (mode, name) = (hart.mode, NAMES[reason as usize]);
        let answer = answer_text(answer);
        Err(format!(
            "by document 01 step {step} of number {number:x} in mode {mode} is {name}; it is \
             answered: {answer}"
        ))
    }

    /// The first reason that holds.
    fn of(&self, hart: &Hart, number: u64, write_attempt: bool) -> Reason {
        let counter = number.wrapping_sub(0xC00);
        let closed_by = |enables: u64| counter <= 0x1F && enables >> counter & 1 == 0;
        match hart.mode {
            _ if number >= NUMBERS => Reason::Refused,
            _ if !self.present[number as usize] => Reason::Absent,
            mode if mode < number / 0x100 % 4 => Reason::LowestMode,
            _ if write_attempt && number >= 0xC00 => Reason::ReadOnly,
            SUPERVISOR if number == 0x180 && hart.mstatus & status::TVM != 0 => Reason::Satp,
            USER | SUPERVISOR if closed_by(hart.mcounteren) => Reason::Mcounteren,
            USER if closed_by(hart.scounteren) => Reason::Scounteren,
            _ => Reason::Done,
        }
    }

    /// Fails unless each reason came just as often as it must.
    pub fn check(&self, stage: &str, expected: [u64; REASONS]) -> Result<(), Difference> {
        for ((name, count), expected) in NAMES.iter().zip(self.counts).zip(expected) {
            if count != expected {
                return Err(Difference(format!(
                    "{stage}\nthe walks do not have every access as they must: {count} are \
                     {name}, and {expected} must be"
                )));
            }
        }
        Ok(())
    }
}

/// The first and the last number of `F11 to F15` or, both the same, of `30A`.
fn ends(words: &str) -> (usize, usize) {
    let number = |digits: &str| usize::from_str_radix(digits.trim(), 16).expect("hexadecimal");
    let (first, last) = words.split_once("to").unwrap_or((words, words));
    (number(first), number(last))
}

impl Display for Reasons {
    fn fmt(&self, formatter: &mut Formatter) -> fmt::Result {
        let counts = self.counts.iter().zip(NAMES);
        let counts: Vec<String> = counts.map(|(count, name)| format!("{count} {name}")).collect();
        write!(formatter, "{} steps ({})", self.counts.iter().sum::<u64>(), counts.join(", "))
    }
}
