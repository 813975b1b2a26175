//! Texts of both forms with one thing changed, at every place where it can be.

use std::fmt::{self, Display, Formatter};

use reference::random::Random;
use reference::{Form, generate};

use crate::near_powers::{WORDS, word};
use crate::report::{Difference, Stage};
use crate::sizes::Sizes;
use crate::texts::{compare_convert, compare_readers, compare_save, filled, whole_text};

/// Bytes to put anywhere: the neighbours of the digits, letters in both cases,
/// and what ends lines or texts.
const TELLING: &[u8] = b"01289afAFgG/:@`= \t\r\n\0ms_+\x80\xB0\xE1\xFF";

/// Texts are cut or lengthened to all lengths below this.
const LENGTHS: usize = 1200;

/// How many texts there were of each kind.
pub struct Walked {
    bytes: u64,
    forms: u64,
    lines: u64,
    lengths: u64,
}

impl Display for Walked {
    fn fmt(&self, formatter: &mut Formatter) -> fmt::Result {
        let Walked { bytes, forms, lines, lengths } = self;
        write!(
            formatter,
            "{bytes} texts with one byte changed, {forms} with another form told, {lines} with \
             lines exchanged, doubled or left out, {lengths} of every length"
        )
    }
}

pub fn walk(sizes: &Sizes) -> Result<Walked, Difference> {
    Ok(Walked {
        bytes: walk_bytes(sizes)?,
        forms: walk_forms(sizes)?,
        lines: walk_lines(sizes)?,
        lengths: walk_lengths(sizes)?,
    })
}

/// Each place of a text with each of the telling bytes.
fn walk_bytes(sizes: &Sizes) -> Result<u64, Difference> {
    let places = Form::First.length() + Form::Second.length();
    let texts = sizes.walks * (places * TELLING.len()) as u64;
    Stage::new("texts with a byte changed", sizes, texts).run(|random, case| {
        let (place, byte) = (case as usize / TELLING.len() % places, case as usize % TELLING.len());
        let (form, place) = match place.checked_sub(Form::First.length()) {
            None => (Form::First, place),
            Some(place) => (Form::Second, place),
        };
        let mut text = whole_text(random, form);
        text[place] = TELLING[byte];
        compare_readers(random, &text)
    })?;
    Ok(texts)
}

/// The second form with every kind of word for its number, of which it takes one.
fn walk_forms(sizes: &Sizes) -> Result<u64, Difference> {
    let texts = sizes.walks * WORDS;
    Stage::new("texts with another form", sizes, texts).run(|random, case| {
        let mut text = whole_text(random, Form::Second);
        let line = format!("form={:016x}\n", word(case % WORDS));
        text.splice(..line.len(), line.bytes());
        compare_readers(random, &text)
    })?;
    Ok(texts)
}

/// Each two lines of a text exchanged; with itself, a line is doubled or left out.
fn walk_lines(sizes: &Sizes) -> Result<u64, Difference> {
    const MOST: usize = 44;
    let texts = sizes.walks * 2 * (MOST * MOST) as u64;
    Stage::new("texts with lines exchanged", sizes, texts).run(|random, case| {
        let form = Form::ALL[case as usize / (MOST * MOST) % 2];
        let text = whole_text(random, form);
        let mut lines: Vec<&[u8]> = text.split_inclusive(|&byte| byte == b'\n').collect();
        let [one, other] =
            [case as usize / MOST, case as usize].map(|line| line % MOST % lines.len());
        if one != other {
            lines.swap(one, other);
        } else if random.once_in(2) {
            lines.insert(one, lines[one]);
        } else {
            lines.remove(one);
        }
        compare_readers(random, &lines.concat())
    })?;
    Ok(texts)
}

/// Texts cut and lengthened by their own bytes to every length, and buffers of every
/// length.
fn walk_lengths(sizes: &Sizes) -> Result<u64, Difference> {
    let texts = sizes.walks * 2 * LENGTHS as u64;
    Stage::new("texts of every length", sizes, texts).run(|random, case| {
        let form = Form::ALL[case as usize % 2];
        let length = case as usize / 2 % LENGTHS;
        let text = whole_text(random, form);
        let resized: Vec<u8> = text.iter().copied().cycle().take(length).collect();
        compare_readers(random, &resized)?;
        compare_buffers(random, &text, form, length)
    })?;
    Ok(texts)
}

fn compare_buffers(
    random: &mut Random,
    text: &[u8],
    form: Form,
    length: usize,
) -> Result<(), String> {
    let buffer = filled(random, length);
    compare_convert(form.other(), text, &buffer)?;
    compare_save(form, &generate::holdable(random).to_words(), &buffer).map(drop)
}
