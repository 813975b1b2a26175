//! One text saved, read back or converted on both sides, with all that is lent compared.

use reference::random::Random;
use reference::{
    Form, HART_WORDS, Hart, MAP_WORDS, Refusal, capi, convert, generate, restore, save,
};

use crate::compare::map_difference;
use crate::lent::Lent;
use crate::report::{show, state_difference, state_text};

/// 0 or the number of the refusal, and what the product left in its buffer.
pub struct Written {
    pub number: u64,
    pub buffer: Vec<u8>,
}

/// Words for a hart and a map to be read into: a state and a map, or any.
pub fn other_words(random: &mut Random) -> Lent {
    if random.once_in(2) {
        return Lent::random(random);
    }
    let hart = std::array::from_fn::<u64, HART_WORDS, _>(|_| random.word());
    Lent::new(hart, std::array::from_fn::<u64, MAP_WORDS, _>(|_| random.word()))
}

/// A buffer with something in it: too short for either form, or for one of them, just
/// long enough, or longer.
pub fn buffer(random: &mut Random) -> Vec<u8> {
    let form = random.pick(&Form::ALL).length();
    let length = match random.below(4) {
        0 => random.index(Form::LONGEST + 1),
        1 => form - 1 + random.index(3),
        2 => form,
        _ => form + random.index(100),
    };
    filled(random, length)
}

pub fn filled(random: &mut Random, length: usize) -> Vec<u8> {
    let filling = random.word();
    (0..length).map(|place| (filling >> (place % 57)) as u8).collect()
}

/// Gives 0 or the number of the refusal, and what the product leaves.
pub fn compare_restore(form: Form, text: &[u8], lent: &Lent) -> Result<(u64, Lent), String> {
    let told = || format!("reading by {form:?} form the text\n{}", text.escape_ascii());
    show(told);
    restore_difference(form, text, lent).map_err(|difference| format!("{}\n{difference}", told()))
}

fn restore_difference(form: Form, text: &[u8], lent: &Lent) -> Result<(u64, Lent), String> {
    let mut found = lent.clone();
    let call = capi::restore(form.number(), text, &mut found.hart, &mut found.map);
    let (number, expected) = match restore(form, text) {
        Ok((hart, map)) => (0, lent.left(&hart, &map)),
        Err(refusal) => (refusal.number(), lent.clone()),
    };
    if call != number {
        return Err(format!("reference gives {number}, product {call}"));
    }
    if found.hart != expected.hart {
        let difference = state_difference(&expected.hart, &found.hart);
        return Err(format!("both give {call}; states differ\n{difference}"));
    }
    map_difference(&expected.map, &found.map, number == 0).map_or(Ok((number, found)), Err)
}

pub fn compare_save(
    form: Form,
    words: &[u64; HART_WORDS],
    buffer: &[u8],
) -> Result<Written, String> {
    let told = || {
        let length = buffer.len();
        format!("saving in {form:?} form the state\n{}into {length} bytes", state_text(words))
    };
    let hart = Hart::from_words(words);
    compare_written(
        told,
        buffer,
        |buffer| save(form, &hart, buffer),
        |buffer| capi::save(form.number(), words, buffer),
    )
}

pub fn compare_convert(to: Form, text: &[u8], buffer: &[u8]) -> Result<Written, String> {
    let told = || {
        let length = buffer.len();
        format!("converting to {to:?} form, into {length} bytes, the text\n{}", text.escape_ascii())
    };
    compare_written(
        told,
        buffer,
        |buffer| convert(to, text, buffer),
        |buffer| capi::convert(to.number(), text, buffer),
    )
}

fn compare_written(
    told: impl Fn() -> String,
    buffer: &[u8],
    reference: impl Fn(&mut [u8]) -> Result<(), Refusal>,
    product: impl Fn(&mut [u8]) -> u64,
) -> Result<Written, String> {
    show(&told);
    let (mut expected, mut found) = (buffer.to_vec(), buffer.to_vec());
    let number = reference(&mut expected).map_or_else(Refusal::number, |()| 0);
    let call = product(&mut found);
    if call == number && expected == found {
        return Ok(Written { number, buffer: found });
    }
    let place = (0..buffer.len()).find(|&place| expected[place] != found[place]);
    Err(format!(
        "{}\nreference gives {number}, product {call}; first byte that differs: {place:?}",
        told()
    ))
}

/// Both readers and both conversions of one text, which may be in no form.
pub fn compare_readers(random: &mut Random, text: &[u8]) -> Result<(), String> {
    for form in Form::ALL {
        compare_restore(form, text, &other_words(random))?;
        let length = form.length() - 1 + random.index(3);
        compare_convert(form, text, &filled(random, length))?;
    }
    Ok(())
}

/// The text in this form of a state that has one.
pub fn whole_text(random: &mut Random, form: Form) -> Vec<u8> {
    let hart = generate::holdable(random);
    let hart = if hart.has_text(form) { hart } else { generate::narrowed(&hart) };
    form.text(&hart.to_words())
}
