//! Words lent to steps that are no page tables, mostly at a lawful address.

use crate::protection::MEMORY;
use crate::random::Random;

/// A base, and the words that stand there.
pub fn memory(random: &mut Random) -> (u64, Vec<u64>) {
    let length = random.below(6);
    let words = (0..length).map(|_| random.telling_word()).collect();
    let base = match random.below(16) {
        0 => unlawful_base(random, length),
        1 => MEMORY - 8 * length,
        2..=4 => 8 * random.below(MEMORY / 8 - length),
        5..=7 => 0x8000_0000,
        _ => 0,
    };
    (base, words)
}

/// A base at which so many words may not stand: no multiple of 8, or too high.
pub fn unlawful_base(random: &mut Random, length: u64) -> u64 {
    let end = MEMORY - 8 * length;
    match random.below(6) {
        0 => end + 8,
        1 => end - 1 - random.below(7),
        2 => 8 * random.below(1 << 20) + 1 + random.below(7),
        3 => random.pick(&[1, 4, MEMORY + 8, 1 << 63, u64::MAX - 7, u64::MAX]),
        4 => end + 8 * (1 + random.below(1 << 20)),
        _ => 0x8000_0000 + random.pick(&[1, 2, 4]),
    }
}
