//! Calls with wrong lengths, steps, modes or kinds: they give 0 and change
//! nothing.

use reference::capi;
use reference::random::Random;
use reference::{ANSWER_WORDS, HART_WORDS, MAP_WORDS, STEP_WORDS};

use crate::lent::Lent;
use crate::queries::random_question;
use crate::report::{Difference, Stage};
use crate::sizes::Sizes;
use crate::steps::random_step;

const NO_STEPS: [u64; 6] = [18, 19, 256, 1 << 32, 1 << 32 | 4, u64::MAX];
const NO_MODES: [u64; 6] = [2, 4, 256, 1 << 32, 1 << 32 | 3, u64::MAX];
const NO_KINDS: [u64; 6] = [3, 4, 256, 1 << 32, 1 << 32 | 1, u64::MAX];

pub fn wrong(sizes: &Sizes) -> Result<(), Difference> {
    Stage::new("calls", sizes, sizes.calls).run(|random, _| {
        let lent = Lent::random(random);
        match random.below(3) {
            0 => wrong_step(random, &lent),
            1 => wrong_run(random, &lent),
            _ => wrong_query(random, &lent),
        }
    })
}

/// What one call is lent, of any length.
#[derive(Clone, PartialEq, Eq, Debug)]
pub struct Slices {
    pub hart: Vec<u64>,
    pub map: Vec<u64>,
    pub answer: Vec<u64>,
}

impl Slices {
    pub fn new(lent: &Lent, answer: usize) -> Slices {
        Slices { hart: lent.hart.to_vec(), map: lent.map.to_vec(), answer: vec![0x77; answer] }
    }

    /// Gives one of the slices another length.
    fn spoil(&mut self, random: &mut Random) {
        let slice = match random.below(3) {
            0 => &mut self.hart,
            1 => &mut self.map,
            _ => &mut self.answer,
        };
        let length = slice.len();
        let mut other = length;
        while other == length {
            let near = (length + random.index(3)).saturating_sub(1);
            other = random.pick(&[0, 1, 3, 4, near, HART_WORDS, MAP_WORDS, 2 * length]);
        }
        slice.resize(other, 0x77);
    }
}

/// Whether a call that does not fit gave 0 and changed nothing.
pub fn judge(call: u64, before: &Slices, after: &Slices, told: &str) -> Result<(), String> {
    if call == 0 && before == after {
        return Ok(());
    }
    let [hart, map, answer] = [before.hart.len(), before.map.len(), before.answer.len()];
    let changed = if before == after { "nothing" } else { "something" };
    Err(format!(
        "{told}\nhart of {hart} words, map of {map}, answers of {answer}: must give 0 and change \
         nothing; product gives {call} and changes {changed}\nbefore {before:x?}\nafter {after:x?}"
    ))
}

fn wrong_step(random: &mut Random, lent: &Lent) -> Result<(), String> {
    let mut words = random_step(random, lent);
    let mut before = Slices::new(lent, ANSWER_WORDS);
    if random.once_in(2) {
        words[0] = random.pick(&NO_STEPS);
    } else {
        before.spoil(random);
    }
    let mut after = before.clone();
    let call = capi::step(&mut after.hart, &mut after.map, lent.memory(), words, &mut after.answer);
    judge(call, &before, &after, &format!("step {words:x?}"))
}

fn wrong_run(random: &mut Random, lent: &Lent) -> Result<(), String> {
    let length = 1 + random.index(8);
    let mut steps: Vec<u64> = (0..length).flat_map(|_| random_step(random, lent)).collect();
    let mut before = Slices::new(lent, ANSWER_WORDS * length);
    match random.below(5) {
        0 => steps[STEP_WORDS * random.index(length)] = random.pick(&NO_STEPS),
        1 => before.spoil(random),
        // As many words for each answer as for its step.
        2 => before.answer.truncate(steps.len()),
        // No whole number of steps, with answers for all that are begun or whole.
        3 => steps.truncate(steps.len() - 1 - random.index(2)),
        _ => {
            steps.truncate(steps.len() - 1 - random.index(2));
            before.answer.truncate(ANSWER_WORDS * (length - 1));
        }
    }
    let mut after = before.clone();
    let call = capi::run(&mut after.hart, &mut after.map, lent.memory(), &steps, &mut after.answer);
    judge(call, &before, &after, &format!("run of {} words {steps:x?}", steps.len()))
}

fn wrong_query(random: &mut Random, lent: &Lent) -> Result<(), String> {
    let mut question = random_question(random, lent);
    let mut before = Slices::new(lent, ANSWER_WORDS);
    match random.below(3) {
        0 => question.mode = random.pick(&NO_MODES),
        1 => question.kind = random.pick(&NO_KINDS),
        _ => before.spoil(random),
    }
    let mut after = before.clone();
    let call = capi::query(&after.hart, &after.map, question, &mut after.answer);
    judge(call, &before, &after, &format!("query {question:x?}"))
}
