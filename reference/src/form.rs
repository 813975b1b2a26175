//! The forms of a saved text: document 01's, and that of request [10] of document 02, which
//! has room for all that a hart can hold.

use crate::hart::HART_WORDS;
use crate::hexadecimal::{put_line, take_line};

/// The key of each word of a hart. satp and the grain have a line in the second form alone.
pub const KEYS: [&str; HART_WORDS] = [
    "mode",
    "pc",
    "mstatus",
    "medeleg",
    "mideleg",
    "mie",
    "mip",
    "lines",
    "mtvec",
    "mcounteren",
    "mcountinhibit",
    "mscratch",
    "mepc",
    "mcause",
    "mtval",
    "stvec",
    "scounteren",
    "sscratch",
    "sepc",
    "scause",
    "stval",
    "mcycle",
    "minstret",
    "pmpcfg0",
    "pmpcfg2",
    "pmpaddr0",
    "pmpaddr1",
    "pmpaddr2",
    "pmpaddr3",
    "pmpaddr4",
    "pmpaddr5",
    "pmpaddr6",
    "pmpaddr7",
    "pmpaddr8",
    "pmpaddr9",
    "pmpaddr10",
    "pmpaddr11",
    "pmpaddr12",
    "pmpaddr13",
    "pmpaddr14",
    "pmpaddr15",
    "satp",
    "grain",
];

/// Number of words that have a line in the first form.
const FIRST_LINES: usize = 41;

#[derive(Clone, Copy, PartialEq, Eq, Debug)]
pub enum Form {
    First = 1,
    Second = 2,
}

impl Form {
    pub const ALL: [Form; 2] = [Form::First, Form::Second];
    /// Number of bytes of the longest text.
    pub const LONGEST: usize = Form::Second.length();

    pub fn number(self) -> u64 {
        self as u64
    }

    pub fn from_number(number: u64) -> Option<Form> {
        Form::ALL.into_iter().find(|form| form.number() == number)
    }

    /// The form that a text of this length is taken for.
    pub fn of_length(length: usize) -> Form {
        if length == Form::Second.length() { Form::Second } else { Form::First }
    }

    pub fn other(self) -> Form {
        match self {
            Form::First => Form::Second,
            Form::Second => Form::First,
        }
    }

    /// Number of bytes of a text.
    pub const fn length(self) -> usize {
        match self {
            Form::First => 1027,
            Form::Second => 1094,
        }
    }

    /// The text of any words whatever.
    pub fn text(self, words: &[u64; HART_WORDS]) -> Vec<u8> {
        let mut text = vec![0; self.length()];
        self.write(words, &mut text);
        text
    }

    /// Fills `text`, which has the length of this form.
    pub(crate) fn write(self, words: &[u64; HART_WORDS], text: &mut [u8]) {
        let (heading, mut text) = text.split_at_mut(self.heading().len());
        heading.copy_from_slice(self.heading());
        for (key, &word) in self.keys().iter().zip(words) {
            text = put_line(text, key, word);
        }
    }

    /// The words of a text, 0 where they have no line; nothing where the text is not in
    /// this form.
    pub fn read(self, text: &[u8]) -> Option<[u64; HART_WORDS]> {
        let mut text = text.strip_prefix(self.heading())?;
        let mut words = [0; HART_WORDS];
        for (key, word) in self.keys().iter().zip(&mut words) {
            *word = take_line(&mut text, key)?;
        }
        text.is_empty().then_some(words)
    }

    /// What each text begins with: the second form says which it is.
    fn heading(self) -> &'static [u8] {
        match self {
            Form::First => b"",
            Form::Second => b"form=0000000000000002\n",
        }
    }

    /// The keys of the words that have a line.
    fn keys(self) -> &'static [&'static str] {
        match self {
            Form::First => &KEYS[..FIRST_LINES],
            Form::Second => &KEYS,
        }
    }
}
