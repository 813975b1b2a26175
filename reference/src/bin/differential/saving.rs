//! States saved in both forms, and read back where they could be.

use std::fmt::{self, Display, Formatter};

use reference::random::Random;
use reference::{COARSEST, Form, HART_WORDS, Hart, Refusal, generate};

use crate::classes::{Class, Tally};
use crate::lent::Lent;
use crate::report::{Difference, Stage};
use crate::room::{Wide, is_alone};
use crate::sizes::Sizes;
use crate::texts::{Written, buffer, compare_restore, compare_save, other_words};

/// A state saved in a form, the length of the buffer, and 0 or the number of the refusal.
struct Saved {
    form: Form,
    hart: Hart,
    length: usize,
    number: u64,
}

impl Saved {
    fn is_done(&self, form: Form) -> bool {
        self.form == form && self.number == 0
    }

    fn refused(&self, form: Form, refusal: Refusal) -> bool {
        self.form == form && self.number == refusal.number()
    }

    fn is_short(&self) -> bool {
        self.length < self.form.length()
    }

    fn lacks_room_for(&self, wide: Wide) -> bool {
        self.number == Refusal::NoText.number() && is_alone(&self.hart, wide)
    }
}

const CLASSES: [Class<Saved>; 17] = [
    class("done in the first form", 20, |case| case.is_done(Form::First)),
    class("in the second", 10, |case| case.is_done(Form::Second)),
    class("that the first has no room for", 20, |case| {
        case.is_done(Form::Second) && !case.hart.has_text(Form::First)
    }),
    class("with a G above 0", 30, |case| case.is_done(Form::Second) && case.hart.grain > 0),
    class("of 10", 400, |case| case.is_done(Form::Second) && case.hart.grain == COARSEST),
    class("with satp", 60, |case| case.is_done(Form::Second) && case.hart.satp != 0),
    class("refused 3 in the first form", 100, |case| case.refused(Form::First, Refusal::State)),
    class("in the second", 100, |case| case.refused(Form::Second, Refusal::State)),
    class("before 6", 100, |case| case.number == Refusal::State.number() && case.is_short()),
    class("refused 6 in the first form", 20, |case| case.refused(Form::First, Refusal::Buffer)),
    class("before 12", 30, |case| {
        case.refused(Form::First, Refusal::Buffer) && !case.hart.has_text(Form::First)
    }),
    class("in the second", 10, |case| case.refused(Form::Second, Refusal::Buffer)),
    class("long enough for the first", 15, |case| {
        case.refused(Form::Second, Refusal::Buffer) && case.length >= Form::First.length()
    }),
    class("refused 12 for satp alone", 100, |case| case.lacks_room_for(Wide::Satp)),
    class("for SUM alone", 100, |case| case.lacks_room_for(Wide::Sum)),
    class("for medeleg alone", 100, |case| case.lacks_room_for(Wide::Medeleg)),
    class("for the grain alone", 40, |case| case.lacks_room_for(Wide::Grain)),
];

const fn class(name: &'static str, one_in: u64, holds: fn(&Saved) -> bool) -> Class<Saved> {
    Class { name, one_in, holds }
}

/// How many saves there were of each class.
pub struct Saves(Tally<Saved>);

impl Display for Saves {
    fn fmt(&self, formatter: &mut Formatter) -> fmt::Result {
        self.0.fmt(formatter)
    }
}

/// States saved into buffers too short, just long enough, and longer.
pub fn random(sizes: &Sizes) -> Result<Saves, Difference> {
    let mut saves = Tally::new("texts saved", &CLASSES);
    Stage::new("texts saved", sizes, sizes.texts).run(|random, _| {
        let form = random.pick(&Form::ALL);
        let words = words(random);
        let buffer = buffer(random);
        let written = compare_save(form, &words, &buffer)?;
        if written.number == 0 {
            read_back(random, form, &words, &written)?;
        }
        let (hart, length) = (Hart::from_words(&words), buffer.len());
        saves.count(&Saved { form, hart, length, number: written.number });
        Ok(())
    })?;
    saves.check("texts saved")?;
    Ok(Saves(saves))
}

fn words(random: &mut Random) -> [u64; HART_WORDS] {
    match random.below(4) {
        0 => generate::textless(random).to_words(),
        1 => generate::narrowed(&generate::holdable(random)).to_words(),
        _ => Lent::random(random).hart,
    }
}

/// The product must read its own text as the state that it saved.
fn read_back(
    random: &mut Random,
    form: Form,
    words: &[u64; HART_WORDS],
    written: &Written,
) -> Result<(), String> {
    let text = &written.buffer[..form.length()];
    match compare_restore(form, text, &other_words(random))? {
        (0, left) if left.hart == *words => Ok(()),
        (number, _) => Err(format!(
            "{}\nsaved in {form:?} form and read back, this gives {number}, or another state",
            text.escape_ascii()
        )),
    }
}
