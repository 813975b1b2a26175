//! One step or list of steps on both sides.

use reference::{ANSWER_WORDS, MAP_WORDS, STEP_WORDS};

use crate::lent::{Lent, Outcome};
use crate::report::{answer_text, map_text, state_difference};

/// Where two maps differ. Of a map made anew only the ranges it lists are
/// fixed; one handed back as given must have every word as before.
pub fn map_difference(
    expected: &[u64; MAP_WORDS],
    found: &[u64; MAP_WORDS],
    made_anew: bool,
) -> Option<String> {
    let fixed = if made_anew { 1 + 3 * expected[0] as usize } else { MAP_WORDS };
    if expected[..fixed] == found[..fixed] {
        return None;
    }
    let place = (0..fixed).find(|&place| expected[place] != found[place]);
    Some(format!(
        "maps differ, first in word {}\nreference\n{}product\n{}",
        place.unwrap_or(0),
        map_text(expected),
        map_text(found)
    ))
}

/// Where two results differ: answers, states or maps.
pub fn result_difference(expected: &Outcome, found: &Outcome, made_anew: bool) -> Option<String> {
    let mut text = String::new();
    if expected.1 != found.1 {
        text += "answers differ\n";
    }
    if expected.0.hart != found.0.hart {
        text += &format!("states differ\n{}", state_difference(&expected.0.hart, &found.0.hart));
    }
    if let Some(difference) = map_difference(&expected.0.map, &found.0.map, made_anew) {
        text += &difference;
    }
    if text.is_empty() {
        return None;
    }
    let answers = [expected.1, found.1].map(answer_text);
    Some(format!("reference: {}\nproduct: {}\n{text}", answers[0], answers[1]))
}

/// One step on both sides, from the same state and map. Gives the answer.
pub fn compare_step(lent: &Lent, words: [u64; STEP_WORDS]) -> Result<[u64; ANSWER_WORDS], String> {
    stepped(lent, words).map(|(_, answer)| answer)
}

/// The same, to go on from: gives what the product leaves.
pub fn step_both(lent: &Lent, words: [u64; STEP_WORDS]) -> Result<Lent, String> {
    stepped(lent, words).map(|(left, _)| left)
}

fn stepped(lent: &Lent, words: [u64; STEP_WORDS]) -> Result<Outcome, String> {
    let expected = lent.reference_step(words);
    agreed(lent, words, &expected, lent.product_step(words))
}

/// One step on both sides, by the product as a step and as a run: inside, these may
/// go different ways. Gives the answer.
pub fn compare_ways(lent: &Lent, words: [u64; STEP_WORDS]) -> Result<[u64; ANSWER_WORDS], String> {
    let expected = lent.reference_step(words);
    agreed(lent, words, &expected, lent.product_step(words))?;
    agreed(lent, words, &expected, lent.product_run(words))
        .map(|(_, answer)| answer)
        .map_err(|text| format!("{text}by a run of this step\n"))
}

/// What the product gives, unless it differs from what is expected.
fn agreed(
    lent: &Lent,
    words: [u64; STEP_WORDS],
    expected: &Outcome,
    found: Result<Outcome, String>,
) -> Result<Outcome, String> {
    let told = |text| {
        let [number, a, b] = words;
        format!("{}step {number}, a {a:016x}, b {b:016x}\n{text}", lent.text())
    };
    let found = found.map_err(told)?;
    let made_anew = lent.makes_map(&expected.0, words[0]);
    match result_difference(expected, &found, made_anew) {
        Some(text) => Err(told(text)),
        None => Ok(found),
    }
}
