//! Words that a program may take for others: all small ones, and those at and beside each
//! power of two.

const SMALL: u64 = 256;
pub const WORDS: u64 = SMALL + 3 * 64;

/// The word of a case below `WORDS`.
pub fn word(case: u64) -> u64 {
    match case.checked_sub(SMALL) {
        None => case,
        Some(place) => (1u64 << (place / 3)).wrapping_add(place % 3).wrapping_sub(1),
    }
}
