//! Every length of short lists of steps with every length of their answers.

use reference::random::Random;
use reference::{ANSWER_WORDS, STEP_WORDS, capi};

use crate::calls::{Slices, judge};
use crate::lent::Lent;
use crate::report::{Difference, Stage};
use crate::runs::compare_run;
use crate::sizes::Sizes;
use crate::steps::random_step;

/// Lengths below these: up to four steps, and up to five answers.
const STEPS: usize = 4 * STEP_WORDS + 1;
const ANSWERS: usize = 5 * ANSWER_WORDS + 1;

/// Only where both lengths are whole and of one number of steps does a run fit; else
/// it must give 0 and change nothing. Gives the number of runs.
pub fn walk(sizes: &Sizes) -> Result<u64, Difference> {
    let runs = sizes.walks * (STEPS * ANSWERS) as u64;
    Stage::new("lengths", sizes, runs).run(|random, case| {
        let (steps, answers) = (case as usize % STEPS, case as usize / STEPS % ANSWERS);
        let lent = Lent::random(random);
        if ANSWER_WORDS * steps == STEP_WORDS * answers {
            let length = (steps / STEP_WORDS) as u64;
            return compare_run(&lent, length, |lent| random_step(random, lent));
        }
        misfit(random, &lent, steps, answers)
    })?;
    Ok(runs)
}

fn misfit(random: &mut Random, lent: &Lent, steps: usize, answers: usize) -> Result<(), String> {
    let mut words: Vec<u64> = (0..STEPS).flat_map(|_| random_step(random, lent)).collect();
    words.truncate(steps);
    let before = Slices::new(lent, answers);
    let mut after = before.clone();
    let call = capi::run(&mut after.hart, &mut after.map, lent.memory(), &words, &mut after.answer);
    judge(call, &before, &after, &format!("run of {steps} words {words:x?}"))
}
