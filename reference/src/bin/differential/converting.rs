//! Texts of both forms, whole and damaged, converted, and back again where they could be.

use std::fmt::{self, Display, Formatter};

use reference::random::Random;
use reference::{Form, Hart, Refusal, generate};

use crate::classes::{Class, Tally};
use crate::report::{Difference, Stage};
use crate::room::{Wide, is_alone};
use crate::sizes::Sizes;
use crate::texts::{buffer, compare_convert, filled};

/// A conversion to a form: whether the text is of that form itself, the length of the
/// buffer, and 0 or the number of the refusal.
struct Conversion {
    to: Form,
    same: bool,
    /// That of the text, if this is in the other form.
    hart: Option<Hart>,
    length: usize,
    number: u64,
}

impl Conversion {
    fn is_done(&self, to: Form) -> bool {
        self.to == to && self.number == 0
    }

    fn refused(&self, to: Form, refusal: Refusal) -> bool {
        self.to == to && self.number == refusal.number()
    }

    fn is_short(&self) -> bool {
        self.length < self.to.length()
    }

    fn lacks_room_for(&self, wide: Wide) -> bool {
        self.number == Refusal::NoText.number()
            && self.hart.is_some_and(|hart| is_alone(&hart, wide))
    }
}

const CLASSES: [Class<Conversion>; 21] = [
    class("to the first form", 40, |case| case.is_done(Form::First)),
    class("to the second", 40, |case| case.is_done(Form::Second)),
    class("there and back with the same bytes", 20, |case| case.number == 0),
    class("refused 4 to the first", 10, |case| case.refused(Form::First, Refusal::Form)),
    class("to the second", 10, |case| case.refused(Form::Second, Refusal::Form)),
    class("of texts in that form", 25, |case| case.same),
    class("before 6", 10, |case| case.number == Refusal::Form.number() && case.is_short()),
    class("refused 5 to the first", 50, |case| case.refused(Form::First, Refusal::TextState)),
    class("to the second", 30, |case| case.refused(Form::Second, Refusal::TextState)),
    class("before 6", 40, |case| case.number == Refusal::TextState.number() && case.is_short()),
    class("before 12", 50, |case| {
        case.refused(Form::First, Refusal::TextState)
            && case.hart.is_some_and(|hart| !hart.has_text(Form::First))
    }),
    class("refused 6 to the first", 50, |case| case.refused(Form::First, Refusal::Buffer)),
    class("before 12", 100, |case| {
        case.refused(Form::First, Refusal::Buffer)
            && case.hart.is_some_and(|hart| !hart.has_text(Form::First))
    }),
    class("to the second", 25, |case| case.refused(Form::Second, Refusal::Buffer)),
    class("long enough for the first", 50, |case| {
        case.refused(Form::Second, Refusal::Buffer) && case.length >= Form::First.length()
    }),
    class("refused 12", 30, |case| case.number == Refusal::NoText.number()),
    class("for satp alone", 300, |case| case.lacks_room_for(Wide::Satp)),
    class("for SUM alone", 300, |case| case.lacks_room_for(Wide::Sum)),
    class("for medeleg alone", 300, |case| case.lacks_room_for(Wide::Medeleg)),
    class("for the grain alone", 100, |case| case.lacks_room_for(Wide::Grain)),
    class("into more bytes than needed", 30, |case| {
        case.number == 0 && case.length > case.to.length()
    }),
];

const fn class(
    name: &'static str,
    one_in: u64,
    holds: fn(&Conversion) -> bool,
) -> Class<Conversion> {
    Class { name, one_in, holds }
}

/// How many conversions there were of each class.
pub struct Conversions(Tally<Conversion>);

impl Display for Conversions {
    fn fmt(&self, formatter: &mut Formatter) -> fmt::Result {
        self.0.fmt(formatter)
    }
}

/// Texts converted into buffers too short, just long enough, and longer; one in five to
/// the form that it is in.
pub fn random(sizes: &Sizes) -> Result<Conversions, Difference> {
    let mut conversions = Tally::new("texts converted", &CLASSES);
    Stage::new("texts converted", sizes, sizes.texts).run(|random, _| {
        let text = generate::text(random);
        let to = if random.once_in(5) { text.form } else { text.form.other() };
        let buffer = buffer(random);
        let written = compare_convert(to, &text.bytes, &buffer)?;
        if written.number == 0 {
            convert_back(random, to, &text.bytes, &written.buffer[..to.length()])?;
        }
        let same = to.read(&text.bytes).is_some();
        let hart = to.other().read(&text.bytes).map(|words| Hart::from_words(&words));
        let (length, number) = (buffer.len(), written.number);
        conversions.count(&Conversion { to, same, hart, length, number });
        Ok(())
    })?;
    conversions.check("texts converted")?;
    Ok(Conversions(conversions))
}

/// The product must make of its own text the one that it was made of.
fn convert_back(
    random: &mut Random,
    from: Form,
    text: &[u8],
    converted: &[u8],
) -> Result<(), String> {
    let buffer = filled(random, from.other().length());
    let written = compare_convert(from.other(), converted, &buffer)?;
    if written.number == 0 && written.buffer == text {
        return Ok(());
    }
    Err(format!(
        "{}\nconverted to {from:?} form and back, this gives {}, or other bytes",
        text.escape_ascii(),
        written.number
    ))
}
