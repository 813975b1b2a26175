//! Accesses that Sv39 translates, over page tables that reach deep.

use std::rc::Rc;

use reference::generate::Paging;
use reference::random::Random;
use reference::{ANSWER_WORDS, Hart, STEP_WORDS, generate};

use crate::compare::{compare_step, compare_ways};
use crate::diagnosis::Diagnosis;
use crate::lent::Lent;
use crate::outcomes::Outcomes;
use crate::report::{Difference, Stage, answer_text};
use crate::runs::compare_run;
use crate::sizes::Sizes;

/// How many accesses there are by one setting of page tables, and steps in a run.
const ACCESSES: u64 = 16;

/// Settings of page tables, each with accesses, one in four of them done as a run too,
/// and one setting in four with a run of several steps. Gives how the accesses ended.
pub fn random(sizes: &Sizes) -> Result<Outcomes, Difference> {
    let mut outcomes = Outcomes::new();
    Stage::new("paging", sizes, sizes.paging).run(|random, _| {
        let paging = generate::paging(random);
        let lent = lent(random, &paging);
        for _ in 0..ACCESSES {
            compare_access(random, &paging, &lent, &mut outcomes)?;
        }
        if random.once_in(4) {
            compare_run(&lent, ACCESSES, |lent| {
                let words = paging.step(random);
                outcomes.count(diagnosis(lent, words).as_ref());
                words
            })?;
        }
        Ok(())
    })?;
    outcomes.check("paging")?;
    Ok(outcomes)
}

fn lent(random: &mut Random, paging: &Paging) -> Lent {
    let map = match random.below(4) {
        0 => generate::map(random, &paging.hart),
        _ => paging.hart.compile(),
    };
    let words: Rc<[u64]> = Rc::from(paging.words.as_slice());
    Lent::new(paging.hart.to_words(), map.to_words()).with_memory(paging.base, words)
}

fn diagnosis(lent: &Lent, words: [u64; STEP_WORDS]) -> Option<Diagnosis> {
    Diagnosis::of(&Hart::from_words(&lent.hart), lent.memory(), words)
}

fn compare_access(
    random: &mut Random,
    paging: &Paging,
    lent: &Lent,
    outcomes: &mut Outcomes,
) -> Result<(), String> {
    let (hart, words) = paging.access(random);
    let lent = Lent { hart: hart.to_words(), ..lent.clone() };
    let diagnosis = diagnosis(&lent, words);
    outcomes.count(diagnosis.as_ref());
    let answer =
        if random.once_in(4) { compare_ways(&lent, words)? } else { compare_step(&lent, words)? };
    match diagnosis {
        Some(diagnosis) => judge(&diagnosis, answer).map_err(|text| lent.text() + &text),
        None => Ok(()),
    }
}

/// The answer must fit the diagnosis.
fn judge(diagnosis: &Diagnosis, answer: [u64; ANSWER_WORDS]) -> Result<(), String> {
    match diagnosis.answer() {
        Some(expected) if answer[..2] != expected => {
            let answer = answer_text(answer);
            Err(format!("an access that ends by {:?} is answered: {answer}", diagnosis.end))
        }
        _ => Ok(()),
    }
}
