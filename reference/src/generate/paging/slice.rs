//! The words lent of a setting's tables: mostly all, at their place.

use super::tables::Tables;
use crate::generate::memory::unlawful_base;
use crate::random::Random;

/// A base, and the words that stand there.
pub fn slice(random: &mut Random, tables: Tables, pages: &[u64]) -> (u64, Vec<u64>) {
    let between = between(&tables, pages);
    let Tables { origin, mut words, .. } = tables;
    let length = words.len();
    match random.below(20) {
        0 => return (unlawful_base(random, length as u64), words),
        // The end is missing, at times all.
        1 => words.truncate(random.index(length)),
        2..=5 => words.truncate(between.unwrap_or(length)),
        // The start is missing.
        6 => {
            let missing = random.index(length);
            return (origin + 8 * missing as u64, words.split_off(missing));
        }
        // Words before the tables.
        7 | 8 if origin > 0 => {
            let more = random.below(8);
            let before = (0..more).map(|_| random.telling_word());
            return (origin - 8 * more, before.chain(words).collect());
        }
        _ => {}
    }
    (origin, words)
}

/// The number of words up to the entry of a page of 4 KiB, where there is one: that of
/// the next page is not among them.
fn between(tables: &Tables, pages: &[u64]) -> Option<usize> {
    let mut walks = pages.iter().map(|&page| tables.visited(page));
    let small = walks.find(|visited| visited.len() == 4 && visited[2] & 0xFF8 != 0xFF8);
    small.map(|visited| ((visited[2] - tables.origin) / 8) as usize + 1)
}
