//! Single random steps.

use reference::random::Random;
use reference::{COARSEST, Hart, Map, STEP_WORDS, generate};

use crate::compare::compare_step;
use crate::lent::Lent;
use crate::orders::TAKE_INTERRUPT;
use crate::report::{Difference, Stage};
use crate::sizes::Sizes;
use crate::telling::Telling;

const RESET: u64 = 0;
const LOAD: u64 = 15;
const STORE: u64 = 16;

/// Any steps from any states, with any maps. Gives what they have that is telling.
pub fn random(sizes: &Sizes) -> Result<Telling, Difference> {
    let mut telling = Telling::new();
    Stage::new("steps", sizes, sizes.steps).run(|random, _| {
        let lent = Lent::random(random);
        let words = random_step(random, &lent);
        telling.count(&lent, words);
        compare_step(&lent, words).map(drop)
    })?;
    telling.check("steps")?;
    Ok(telling)
}

/// A step that suits the state and the map: often step 7 where it has a choice, and step
/// 0 where no other takes the grain; loads and stores often across an end of the ranges that the registers make.
pub fn random_step(random: &mut Random, lent: &Lent) -> [u64; STEP_WORDS] {
    let hart = Hart::from_words(&lent.hart);
    let [number, a, b] = generate::step(random, &hart, &Map::from_words(&lent.map));
    let takeable = (0..12).filter(|&code| hart.takeable(code)).count();
    if takeable > 1 && random.once_in(4) {
        return [TAKE_INTERRUPT, a, b];
    }
    if hart.grain > COARSEST && random.once_in(4) {
        return [RESET, a, b];
    }
    let across = matches!(number, LOAD | STORE) && hart.can_hold() && random.once_in(2);
    let a = if across { generate::near_range(random, &hart.compile()) } else { a };
    [number, a, b]
}
