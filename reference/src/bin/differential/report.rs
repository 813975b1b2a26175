//! Progress, and the account of a difference.

use std::fmt::{self, Display, Formatter, Write};
use std::ops::Range;
use std::sync::atomic::{AtomicBool, Ordering};

use reference::random::Random;
use reference::{ANSWER_WORDS, HART_WORDS, KEYS, MAP_WORDS, Map, Memory, NONE};

use crate::sizes::Sizes;

/// What was called, and where the two programs differ; or what the comparison
/// itself lacks.
pub struct Difference(pub String);

impl Display for Difference {
    fn fmt(&self, formatter: &mut Formatter) -> fmt::Result {
        write!(formatter, "difference\n{}", self.0)
    }
}

static SHOWING: AtomicBool = AtomicBool::new(false);

/// Tells what a call is lent before it is made, where one case alone is done:
/// a product that ends the program cannot be told of afterwards.
pub fn show(text: impl Fn() -> String) {
    if SHOWING.load(Ordering::Relaxed) {
        eprintln!("{}", text());
    }
}

/// The cases of one stage. It tells how far it is.
pub struct Stage<'a> {
    name: &'static str,
    sizes: &'a Sizes,
    cases: u64,
}

impl<'a> Stage<'a> {
    pub fn new(name: &'static str, sizes: &'a Sizes, cases: u64) -> Stage<'a> {
        Stage { name, sizes, cases }
    }

    /// Does every case, each with random numbers of its own, so that a case
    /// depends on the seed, the stage and its number alone.
    pub fn run(
        &self,
        mut case: impl FnMut(&mut Random, u64) -> Result<(), String>,
    ) -> Result<(), Difference> {
        let start = self.start();
        SHOWING.store(self.sizes.only.is_some(), Ordering::Relaxed);
        for number in self.numbers() {
            self.tell(number);
            let mut random = Random::new(start.wrapping_add(number));
            case(&mut random, number)
                .map_err(|text| Difference(format!("{} case {number}\n{text}", self.name)))?;
        }
        self.tell(self.cases);
        Ok(())
    }

    fn start(&self) -> u64 {
        let mix = |seed, byte| Random::new(seed ^ u64::from(byte)).word();
        self.name.bytes().fold(self.sizes.seed, mix)
    }

    fn numbers(&self) -> Range<u64> {
        match self.sizes.only {
            None => 0..self.cases,
            Some(number) => number..self.cases.min(number.saturating_add(1)),
        }
    }

    fn tell(&self, number: u64) {
        if self.sizes.loud || number.is_multiple_of((self.cases / 4).max(1)) {
            eprintln!("{}: {number} of {}", self.name, self.cases);
        }
    }
}

/// A state in the style of the saved text, whether or not it can be held.
pub fn state_text(words: &[u64; HART_WORDS]) -> String {
    let mut text = String::new();
    for (key, word) in KEYS.iter().zip(words) {
        let _ = writeln!(text, "  {key}={word:016x}");
    }
    text
}

pub fn map_text(words: &[u64; MAP_WORDS]) -> String {
    let map = Map::from_words(words);
    let mut text = format!("  count {}\n", map.count);
    for range in map.listed() {
        let owner = owner_text(range.owner);
        let _ = writeln!(text, "  range {:016x} {:016x} {owner}", range.first, range.last);
    }
    text
}

/// The words for page tables that are not 0, by their addresses.
pub fn memory_text(memory: Memory) -> String {
    let length = memory.words.len();
    let mut text = format!("memory\n  base {:016x}, {length} words\n", memory.base);
    for (place, word) in memory.words.iter().enumerate().filter(|&(_, &word)| word != 0) {
        let address = memory.base.wrapping_add(8 * place as u64);
        let _ = writeln!(text, "  {address:016x}: {word:016x}");
    }
    text
}

/// The owner of a range, or the entry that decided.
fn owner_text(owner: u64) -> String {
    if owner == NONE { "none".into() } else { owner.to_string() }
}

/// The words of a state in which the two programs differ.
pub fn state_difference(expected: &[u64; HART_WORDS], found: &[u64; HART_WORDS]) -> String {
    let mut text = String::new();
    for ((key, expected), found) in KEYS.iter().zip(expected).zip(found) {
        if expected != found {
            let _ = writeln!(text, "  {key}: reference {expected:016x}, product {found:016x}");
        }
    }
    text
}

/// The words of an answer in plain words; those in brackets must be 0.
pub fn answer_text(answer: [u64; ANSWER_WORDS]) -> String {
    let [kind, value, mode, last] = answer;
    let entry = owner_text(last);
    match kind {
        0 => format!("done ({value:x}, {mode:x}, {last:x})"),
        1 => format!("done {value:016x} ({mode:x}, {last:x})"),
        2 => format!("done, yes or no {value} ({mode:x}, {last:x})"),
        3 => format!("granted ({value:x}, {mode:x}), entry {entry}"),
        4 => format!("trapped cause {value:x} to mode {mode}, entry {entry}"),
        5 => format!("refused {value} ({mode:x}, {last:x})"),
        6 => format!("fault {value} ({mode:x}), entry {entry}"),
        _ => format!("no answer: {kind:x} {value:x} {mode:x} {last:x}"),
    }
}
