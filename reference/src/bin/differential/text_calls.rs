//! Calls on texts with a word that is no form, or slices that do not fit: they give 2^64-1
//! and change nothing.

use std::fmt::{self, Display, Formatter};

use reference::capi::{self, MISFIT};
use reference::random::Random;
use reference::{Form, HART_WORDS, MAP_WORDS, generate};

use crate::classes::{Class, Tally};
use crate::lent::Lent;
use crate::near_powers::{WORDS, word};
use crate::report::{Difference, Stage};
use crate::sizes::Sizes;
use crate::texts::buffer;

/// Lengths that no hart or map has, and those of the other one.
const LENGTHS: [usize; 11] = [
    0,
    1,
    HART_WORDS - 2,
    HART_WORDS - 1,
    HART_WORDS,
    HART_WORDS + 1,
    MAP_WORDS - 1,
    MAP_WORDS,
    MAP_WORDS + 1,
    2 * HART_WORDS,
    2 * MAP_WORDS,
];

#[derive(Clone, Copy, PartialEq, Eq, Debug)]
enum Call {
    Save,
    Restore,
    Convert,
}

/// What one call is lent.
#[derive(Clone, PartialEq, Eq, Debug)]
struct Given {
    call: Call,
    form: u64,
    text: Vec<u8>,
    hart: Vec<u64>,
    map: Vec<u64>,
    buffer: Vec<u8>,
}

impl Given {
    /// With a text and a state that mostly fit, and any form.
    fn random(random: &mut Random, call: Call, form: u64) -> Given {
        let Lent { hart, map, .. } = Lent::random(random);
        let (hart, map) = (hart.to_vec(), map.to_vec());
        Given { call, form, text: generate::text(random).bytes, hart, map, buffer: buffer(random) }
    }

    /// Gives the hart or the map another length. A save is lent no map.
    fn spoil(&mut self, random: &mut Random) {
        let slice = match self.call {
            Call::Restore if random.once_in(2) => &mut self.map,
            _ => &mut self.hart,
        };
        let length = slice.len();
        while slice.len() == length {
            slice.resize(random.pick(&LENGTHS), 0x77);
        }
    }

    fn call(&mut self) -> u64 {
        let Given { call, form, text, hart, map, buffer } = self;
        match call {
            Call::Save => capi::save(*form, hart, buffer),
            Call::Restore => capi::restore(*form, text, hart, map),
            Call::Convert => capi::convert(*form, text, buffer),
        }
    }

    fn judge(&self) -> Result<(), String> {
        let mut after = self.clone();
        let given = after.call();
        if given == MISFIT && after == *self {
            return Ok(());
        }
        let changed = if after == *self { "nothing" } else { "something" };
        Err(format!(
            "{self:x?}\nmust give {MISFIT:x} and change nothing; product gives {given:x} and \
             changes {changed}"
        ))
    }

    fn is_no_form(&self, call: Call) -> bool {
        self.call == call && Form::from_number(self.form).is_none()
    }

    fn is_misfit(&self, call: Call) -> bool {
        self.call == call && self.hart.len() != HART_WORDS
    }
}

const CLASSES: [Class<Given>; 6] = [
    class("saves in no form", 10, |given| given.is_no_form(Call::Save)),
    class("readings in none", 10, |given| given.is_no_form(Call::Restore)),
    class("conversions to none", 10, |given| given.is_no_form(Call::Convert)),
    class("saves of no hart", 10, |given| given.is_misfit(Call::Save)),
    class("readings into none", 20, |given| given.is_misfit(Call::Restore)),
    class("into no map", 20, |given| given.map.len() != MAP_WORDS),
];

const fn class(name: &'static str, one_in: u64, holds: fn(&Given) -> bool) -> Class<Given> {
    Class { name, one_in, holds }
}

/// How many calls there were of each class.
pub struct Misfits(Tally<Given>);

impl Display for Misfits {
    fn fmt(&self, formatter: &mut Formatter) -> fmt::Result {
        self.0.fmt(formatter)
    }
}

/// All three calls with every kind of word for a form but 1 and 2. Gives their number.
pub fn walk(sizes: &Sizes) -> Result<u64, Difference> {
    let forms: Vec<u64> =
        (0..WORDS).map(word).filter(|&word| Form::from_number(word).is_none()).collect();
    let calls = sizes.walks * 3 * forms.len() as u64;
    Stage::new("forms", sizes, calls).run(|random, case| {
        let call = [Call::Save, Call::Restore, Call::Convert][case as usize % 3];
        Given::random(random, call, forms[case as usize / 3 % forms.len()]).judge()
    })?;
    Ok(calls)
}

/// With another form, or another length.
pub fn wrong(sizes: &Sizes) -> Result<Misfits, Difference> {
    let mut misfits = Tally::new("wrong calls on texts", &CLASSES);
    Stage::new("calls on texts", sizes, sizes.calls).run(|random, _| {
        let call = random.pick(&[Call::Save, Call::Restore, Call::Convert]);
        let form = random.pick(&Form::ALL).number();
        let mut given = Given::random(random, call, form);
        if call == Call::Convert || random.once_in(2) {
            given.form = no_form(random);
        }
        if Form::from_number(given.form).is_some() || random.once_in(8) {
            given.spoil(random);
        }
        given.judge()?;
        misfits.count(&given);
        Ok(())
    })?;
    misfits.check("calls on texts")?;
    Ok(Misfits(misfits))
}

/// Neither 1 nor 2. Cut to fewer bits, many would be.
fn no_form(random: &mut Random) -> u64 {
    loop {
        let form = match random.below(3) {
            0 => random.pick(&[0, 3, 1 << 63, u64::MAX]),
            1 => random.below(4) | 1 << random.below(64),
            _ => random.telling_word(),
        };
        if Form::from_number(form).is_none() {
            return form;
        }
    }
}
