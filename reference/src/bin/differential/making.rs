//! Harts made, with every kind of word for a grain, and with slices that do not fit.

use reference::random::Random;
use reference::{HART_WORDS, MAP_WORDS, capi, generate, make};

use crate::calls::{Slices, judge};
use crate::compare::map_difference;
use crate::lent::Lent;
use crate::near_powers::{WORDS, word};
use crate::report::{Difference, Stage, show, state_difference};
use crate::sizes::Sizes;

/// Random words for a grain, after those that are listed.
const RANDOM: u64 = 500;
const GRAINS: u64 = WORDS + RANDOM;

/// Every grain once with slices that fit, and once with others. Gives the number of
/// calls.
pub fn walk(sizes: &Sizes) -> Result<u64, Difference> {
    let calls = sizes.walks * 2 * GRAINS;
    Stage::new("making", sizes, calls).run(|random, case| {
        let grain = grain(random, case / 2 % GRAINS);
        let lent = Lent::random(random);
        if case % 2 == 0 { compare_make(grain, &lent) } else { misfit(random, grain, &lent) }
    })?;
    Ok(calls)
}

fn grain(random: &mut Random, case: u64) -> u64 {
    if case < WORDS { word(case) } else { generate::grain(random) }
}

/// One hart made on both sides, over words that hold something else.
fn compare_make(grain: u64, lent: &Lent) -> Result<(), String> {
    show(|| format!("grain {grain:x}\n{}", lent.text()));
    let (hart, map) = make(grain);
    let (expected, mut found) = (lent.left(&hart, &map), lent.clone());
    let call = capi::make(grain, &mut found.hart, &mut found.map);
    let map = map_difference(&expected.map, &found.map, true).unwrap_or_default();
    if call == 1 && expected.hart == found.hart && map.is_empty() {
        return Ok(());
    }
    let states = state_difference(&expected.hart, &found.hart);
    Err(format!("grain {grain:x}: the call gives {call}\n{states}{map}"))
}

/// Slices of other lengths, which must be left as they are.
fn misfit(random: &mut Random, grain: u64, lent: &Lent) -> Result<(), String> {
    let mut before = Slices::new(lent, 0);
    let lengths = [0, 1, HART_WORDS - 1, HART_WORDS + 1, MAP_WORDS - 1, MAP_WORDS + 1];
    let (hart, map) = match random.below(4) {
        0 => (HART_WORDS, random.pick(&lengths)),
        1 => (random.pick(&lengths), MAP_WORDS),
        2 => (random.pick(&lengths), random.pick(&lengths)),
        _ => (MAP_WORDS, HART_WORDS),
    };
    before.hart.resize(hart, 0x77);
    before.map.resize(map, 0x77);
    let mut after = before.clone();
    let call = capi::make(grain, &mut after.hart, &mut after.map);
    judge(call, &before, &after, &format!("making with grain {grain:x}"))
}
