//! The text of a memory: a line `base=`, then a line `word=` for each word.

use crate::hexadecimal::{line_length, put_line, take_line};
use crate::memory::Memory;

/// The most words that a text may have.
pub const MOST_WORDS: usize = 65_536;
/// Number of bytes of the longest text.
pub const LONGEST_MEMORY_TEXT: usize = line_length("base") + MOST_WORDS * line_length("word");

/// The base and the words of a text, or nothing where it is not in the form. Every
/// base is in the form, lawful or not.
pub fn read_memory(mut text: &[u8]) -> Option<(u64, Vec<u64>)> {
    let base = take_line(&mut text, "base")?;
    let mut words = Vec::new();
    while !text.is_empty() {
        words.push(take_line(&mut text, "word")?);
    }
    (words.len() <= MOST_WORDS).then_some((base, words))
}

pub fn write_memory(memory: Memory) -> Vec<u8> {
    let length = line_length("base") + memory.words.len() * line_length("word");
    let mut text = vec![0; length];
    let mut rest = put_line(&mut text, "base", memory.base);
    for &word in memory.words {
        rest = put_line(rest, "word", word);
    }
    text
}
