//! Access queries on lawful maps and on garbage.

use reference::capi::{self, Question};
use reference::random::Random;
use reference::{ANSWER_WORDS, Access, Hart, Map, Mode, generate, query};

use crate::lent::{Lent, UNWRITTEN};
use crate::reads::Reads;
use crate::report::{Difference, Stage, answer_text, show};
use crate::sizes::Sizes;

/// Any queries on any maps. Gives what they read.
pub fn random(sizes: &Sizes) -> Result<Reads, Difference> {
    let mut reads = Reads::new();
    Stage::new("queries", sizes, sizes.queries).run(|random, _| {
        let lent = Lent::random(random);
        let question = random_question(random, &lent);
        let answer = compare_query(&lent, question)?;
        reads.count(&lent, question, answer);
        Ok(())
    })?;
    reads.check("queries")?;
    Ok(reads)
}

pub fn random_question(random: &mut Random, lent: &Lent) -> Question {
    let hart = Hart::from_words(&lent.hart);
    let map = Map::from_words(&lent.map);
    let address = match random.below(2) {
        0 => generate::address(random, &hart, &map),
        _ => generate::near_range(random, &map),
    };
    Question {
        mode: random.pick(&Mode::ALL).number(),
        kind: random.below(3),
        address,
        size: generate::size(random),
    }
}

/// One query on both sides. Gives its answer.
pub fn compare_query(lent: &Lent, question: Question) -> Result<[u64; ANSWER_WORDS], String> {
    show(|| format!("{}{question:x?}", lent.text()));
    let mut found = UNWRITTEN;
    let call = capi::query(&lent.hart, &lent.map, question, &mut found);
    let expected = reference_query(lent, question);
    if call == 1 && found == expected {
        return Ok(found);
    }
    let Question { mode, kind, address, size } = question;
    Err(format!(
        "{}query mode {mode}, kind {kind}, address {address:016x}, size {size}\n\
         reference: {}\nproduct: {}, its call gives {call}",
        lent.text(),
        answer_text(expected),
        answer_text(found)
    ))
}

fn reference_query(lent: &Lent, question: Question) -> [u64; ANSWER_WORDS] {
    let hart = Hart::from_words(&lent.hart);
    let map = Map::from_words(&lent.map);
    let mode = Mode::from_number(question.mode).expect("a mode there is");
    let access = Access::ALL[question.kind as usize];
    query(&hart, &map, mode, access, question.address, question.size).words()
}
