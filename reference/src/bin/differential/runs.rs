//! Lists of steps: the product's run against both programs step by step.

use reference::random::Random;
use reference::{ANSWER_WORDS, STEP_WORDS, capi, generate, make};

use crate::compare::{map_difference, result_difference};
use crate::lent::Lent;
use crate::report::{Difference, Stage, show};
use crate::sizes::Sizes;
use crate::steps::random_step;
use crate::telling::Telling;

/// Gives the number of steps in all runs together, and what they have that is
/// telling.
pub fn random(sizes: &Sizes) -> Result<(u64, Telling), Difference> {
    let (mut steps, mut telling) = (0, Telling::new());
    Stage::new("runs", sizes, sizes.runs).run(|random, _| {
        let start = random_start(random);
        let length = if random.once_in(50) { random.below(1000) } else { random.below(60) };
        steps += length;
        compare_run(&start, length, |lent| {
            let words = random_step(random, lent);
            telling.count(lent, words);
            words
        })
    })?;
    telling.check("runs")?;
    Ok((steps, telling))
}

fn random_start(random: &mut Random) -> Lent {
    match random.below(4) {
        0 => {
            let (hart, map) = make(generate::grain(random));
            Lent::new(hart.to_words(), map.to_words())
        }
        _ => Lent::random(random),
    }
}

/// A run of so many steps, each drawn for what the ones before leave.
pub fn compare_run(
    start: &Lent,
    length: u64,
    mut next: impl FnMut(&Lent) -> [u64; STEP_WORDS],
) -> Result<(), String> {
    let (mut expected, mut found) = (start.clone(), start.clone());
    let (mut steps, mut answers) = (Vec::new(), Vec::new());
    let mut made_anew = false;
    for place in 0..length {
        let words = next(&expected);
        steps.extend(words);
        let told = |text| tell(start, &steps, &format!("step {place} of the list\n{text}"));
        let after = expected.reference_step(words);
        let product = found.product_step(words).map_err(told)?;
        made_anew |= expected.makes_map(&after.0, words[0]);
        if let Some(text) = result_difference(&after, &product, made_anew) {
            return Err(told(text));
        }
        answers.extend(after.1);
        (expected, found) = (after.0, product.0);
    }
    show(|| tell(start, &steps, "run"));
    let mut left = start.clone();
    let mut given = vec![u64::MAX; answers.len()];
    let call = capi::run(&mut left.hart, &mut left.map, start.memory(), &steps, &mut given);
    let same_map = map_difference(&found.map, &left.map, made_anew).is_none();
    let same = call == 1 && given == answers && left.hart == found.hart && same_map;
    if same { Ok(()) } else { Err(tell_run(start, &steps, &answers, &given, call)) }
}

fn tell(start: &Lent, steps: &[u64], text: &str) -> String {
    let list: String = steps
        .chunks_exact(STEP_WORDS)
        .map(|step| format!("  step {}, a {:016x}, b {:016x}\n", step[0], step[1], step[2]))
        .collect();
    format!("{}steps\n{list}{text}", start.text())
}

fn tell_run(start: &Lent, steps: &[u64], answers: &[u64], given: &[u64], call: u64) -> String {
    let place = (0..answers.len()).find(|&place| answers[place] != given[place]);
    let text = match place {
        Some(place) => format!("the answer of step {} of the run differs", place / ANSWER_WORDS),
        None => "the run leaves another state or map than its steps one by one".into(),
    };
    tell(start, steps, &format!("the run's call gives {call}; {text}"))
}
