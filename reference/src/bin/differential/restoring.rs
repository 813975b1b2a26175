//! Texts of both forms, whole and damaged, read back by both readers.

use std::fmt::{self, Display, Formatter};

use reference::generate::{Damage, Text};
use reference::{COARSEST, Form, Hart, KEYS, Refusal, generate};

use crate::classes::{Class, Tally};
use crate::grains::finest;
use crate::report::{Difference, Stage};
use crate::sizes::Sizes;
use crate::texts::{compare_restore, other_words};

/// A text, the form asked for, and 0 or the number of the refusal.
struct Reading {
    text: Text,
    form: Form,
    /// What the text holds, if it is in the form asked for.
    hart: Option<Hart>,
    number: u64,
}

impl Reading {
    fn is_read(&self, form: Form) -> bool {
        self.form == form && self.number == 0
    }

    fn refused(&self, form: Form, refusal: Refusal) -> bool {
        self.form == form && self.number == refusal.number()
    }

    /// Whether the text could be read by the other reader.
    fn is_of_other_form(&self) -> bool {
        let text = &self.text;
        text.form != self.form && text.damage == Damage::None
    }

    /// Whether the text of its own form has this damage.
    fn has(&self, damage: Damage) -> bool {
        self.form == self.text.form && self.text.damage == damage
    }

    /// Whether one byte has been changed in the second form, from the first place up to
    /// the second.
    fn is_changed_in(&self, start: usize, end: usize) -> bool {
        self.text.form == Form::Second
            && self.form == Form::Second
            && matches!(self.text.damage, Damage::Byte(place) if (start..end).contains(&place))
    }

    fn is_changed_in_key(&self) -> bool {
        let Damage::Byte(mut place) = self.text.damage else { return false };
        let head = if self.text.form == Form::Second { &["form"][..] } else { &[] };
        for key in head.iter().chain(&KEYS) {
            if place < key.len() + 18 {
                return place < key.len();
            }
            place -= key.len() + 18;
        }
        false
    }

    /// Whether the state is refused, and would not be with this change.
    fn would_be_read(&self, change: fn(&Hart) -> Hart) -> bool {
        self.number == Refusal::TextState.number()
            && self.hart.is_some_and(|hart| {
                let changed = change(&hart);
                changed.can_hold() && changed.has_text(self.form)
            })
    }

    /// Whether it would not be with a G of 0, this one being above 10 or not.
    fn is_barred_by_grain(&self, above: bool) -> bool {
        self.would_be_read(finest) && self.hart.is_some_and(|hart| (hart.grain > COARSEST) == above)
    }
}

const CLASSES: [Class<Reading>; 27] = [
    class("read by the first form", 15, |case| case.is_read(Form::First)),
    class("by the second", 15, |case| case.is_read(Form::Second)),
    class("refused 4 by the first", 10, |case| case.refused(Form::First, Refusal::Form)),
    class("by the second", 10, |case| case.refused(Form::Second, Refusal::Form)),
    class("refused 5 by the first", 30, |case| case.refused(Form::First, Refusal::TextState)),
    class("by the second", 50, |case| case.refused(Form::Second, Refusal::TextState)),
    class("for a G above 10 alone", 300, |case| case.is_barred_by_grain(true)),
    class("for A=2 with a grain", 600, |case| case.is_barred_by_grain(false)),
    class("for satp alone", 400, |case| case.would_be_read(|hart| Hart { satp: 0, ..*hart })),
    class("for wide bits alone", 50, |case| case.would_be_read(generate::narrowed)),
    class("whole first form by the second", 50, |case| {
        case.is_of_other_form() && case.form == Form::Second
    }),
    class("whole second form by the first", 50, |case| {
        case.is_of_other_form() && case.form == Form::First
    }),
    class("damaged in another form's reader", 30, |case| {
        case.form != case.text.form && case.text.damage != Damage::None
    }),
    class("cut", 60, |case| case.has(Damage::Cut)),
    class("lengthened", 60, |case| case.has(Damage::Longer)),
    class("upper-case", 60, |case| case.has(Damage::UpperCase)),
    class("with a carriage return", 60, |case| case.has(Damage::CarriageReturn)),
    class("with lines exchanged", 60, |case| case.has(Damage::LinesExchanged)),
    class("with keys exchanged", 60, |case| case.has(Damage::KeysExchanged)),
    class("shifted", 60, |case| case.has(Damage::Shifted)),
    class("with another line form", 60, |case| case.has(Damage::FormLine)),
    class("with other last lines", 60, |case| case.has(Damage::LastLines)),
    class("with a byte changed", 20, |case| matches!(case.text.damage, Damage::Byte(_))),
    class("in a key", 60, Reading::is_changed_in_key),
    class("in the line form", 250, |case| case.is_changed_in(0, 22)),
    class("in that of satp", 250, |case| case.is_changed_in(1049, 1071)),
    class("in that of grain", 250, |case| case.is_changed_in(1071, 1094)),
];

const fn class(name: &'static str, one_in: u64, holds: fn(&Reading) -> bool) -> Class<Reading> {
    Class { name, one_in, holds }
}

/// How many texts read there were of each class.
pub struct Readings(Tally<Reading>);

impl Display for Readings {
    fn fmt(&self, formatter: &mut Formatter) -> fmt::Result {
        self.0.fmt(formatter)
    }
}

/// Texts read into words that hold something else, one in five by the other form's
/// reader.
pub fn random(sizes: &Sizes) -> Result<Readings, Difference> {
    let mut readings = Tally::new("texts read", &CLASSES);
    Stage::new("texts read", sizes, sizes.texts).run(|random, _| {
        let text = generate::text(random);
        let form = if random.once_in(5) { text.form.other() } else { text.form };
        let (number, _) = compare_restore(form, &text.bytes, &other_words(random))?;
        let hart = form.read(&text.bytes).map(|words| Hart::from_words(&words));
        readings.count(&Reading { text, form, hart, number });
        Ok(())
    })?;
    readings.check("texts read")?;
    Ok(Readings(readings))
}
