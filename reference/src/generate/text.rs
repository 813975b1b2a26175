//! Texts of both forms: whole, with a state no hart can hold, and damaged.

use super::damage::{Damage, damage};
use super::state::{damaged, holdable, narrowed, textless};
use crate::form::Form;
use crate::hart::HART_WORDS;
use crate::random::Random;

/// A text, the form that it is in but for its damage, and that damage.
pub struct Text {
    pub bytes: Vec<u8>,
    pub form: Form,
    pub damage: Damage,
}

pub fn text(random: &mut Random) -> Text {
    let form = random.pick(&Form::ALL);
    let mut bytes = form.text(&words(random, form));
    let damage = if random.once_in(2) { damage(random, &mut bytes, form) } else { Damage::None };
    Text { bytes, form, damage }
}

/// Mostly those of a state that has a text of this form.
fn words(random: &mut Random, form: Form) -> [u64; HART_WORDS] {
    if random.once_in(4) {
        return damaged(random);
    }
    let hart = match random.below(8) {
        0 => holdable(random),
        1 | 2 => textless(random),
        3 | 4 if form == Form::Second => holdable(random),
        _ => narrowed(&holdable(random)),
    };
    hart.to_words()
}
