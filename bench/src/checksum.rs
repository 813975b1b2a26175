//! The checksum that `step_speed` writes.

use reference::{ANSWER_WORDS, HART_WORDS, MAP_WORDS};

/// Each word counts by its value and by its place.
#[derive(Clone, Copy, PartialEq, Eq, Debug, Default)]
pub struct Checksum(pub u64);

impl Checksum {
    pub fn add(&mut self, word: u64) {
        self.0 = self.0.rotate_left(1).wrapping_add(word);
    }

    /// An answer counts by the sum of its words.
    pub fn add_answer(&mut self, words: [u64; ANSWER_WORDS]) {
        self.add(words.into_iter().fold(0, u64::wrapping_add));
    }

    /// The words of the hart, and the ranges of the map up to its count.
    pub fn add_left(&mut self, hart: &[u64; HART_WORDS], map: &[u64; MAP_WORDS]) {
        let listed = 1 + 3 * map[0] as usize;
        hart.iter().chain(&map[..listed]).for_each(|&word| self.add(word));
    }
}
