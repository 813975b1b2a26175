//! Damage to a text: most often it is then in no form.

use crate::form::Form;
use crate::hexadecimal::{line_length, word_digits};
use crate::random::Random;

/// What was done to a text.
#[derive(Clone, Copy, PartialEq, Eq, Debug)]
pub enum Damage {
    None,
    Cut,
    Longer,
    /// One byte, at this place.
    Byte(usize),
    UpperCase,
    CarriageReturn,
    LinesExchanged,
    KeysExchanged,
    /// A byte taken out or put in, or the text rotated.
    Shifted,
    /// The line `form` with another value, missing, doubled, last, or put before the first
    /// form.
    FormLine,
    /// The lines of satp and the grain missing, exchanged, or put after the first form.
    LastLines,
}

/// Damages a whole text of this form.
pub fn damage(random: &mut Random, text: &mut Vec<u8>, form: Form) -> Damage {
    match random.below(12) {
        0 => cut(random, text, form),
        1 => lengthen(random, text, form),
        2..=4 => change_byte(random, text, form),
        5 => upper_case(random, text),
        6 => carriage_return(random, text),
        7 => exchange_lines(random, text),
        8 => exchange_keys(random, text),
        9 => shift(random, text),
        10 => spoil_form_line(random, text, form),
        _ => spoil_last_lines(random, text, form),
    }
}

/// By one byte, to the length of the first form, or anywhere.
fn cut(random: &mut Random, text: &mut Vec<u8>, form: Form) -> Damage {
    let anywhere = random.index(text.len());
    let lengths = [text.len() - 1, anywhere, form.other().length().min(text.len() - 1)];
    text.truncate(random.pick(&lengths));
    Damage::Cut
}

/// By one byte, to the length of the second form, or by a piece of itself.
fn lengthen(random: &mut Random, text: &mut Vec<u8>, form: Form) -> Damage {
    let piece = match random.below(3) {
        0 => 0,
        1 => random.index(text.len()),
        _ => form.other().length().saturating_sub(text.len() + 1),
    };
    text.extend_from_within(..piece);
    text.push(random.pick(b"\n\n\r 0\0mf"));
    Damage::Longer
}

fn change_byte(random: &mut Random, text: &mut [u8], form: Form) -> Damage {
    let place = telling_place(random, text, form);
    text[place] = match random.below(3) {
        0 => random.word() as u8,
        1 => text[place] ^ 1 << random.below(8),
        _ => random.pick(b" \0\n\r=012gGAF/:`@x+-_"),
    };
    Damage::Byte(place)
}

/// Of the second form, often in one of the lines that the first one lacks.
fn telling_place(random: &mut Random, text: &[u8], form: Form) -> usize {
    let (satp, grain) = (line_length("satp"), line_length("grain"));
    match random.below(6) {
        0 if form == Form::Second => random.index(line_length("form")),
        1 if form == Form::Second => text.len() - 1 - random.index(grain),
        2 if form == Form::Second => text.len() - grain - 1 - random.index(satp),
        _ => random.index(text.len()),
    }
}

/// Raises one letter, or all of them.
fn upper_case(random: &mut Random, text: &mut [u8]) -> Damage {
    let letters: Vec<usize> = (0..text.len()).filter(|&at| text[at].is_ascii_lowercase()).collect();
    if random.once_in(4) {
        text.make_ascii_uppercase();
    } else {
        text[random.pick(&letters)].make_ascii_uppercase();
    }
    Damage::UpperCase
}

/// Turns one line feed into a carriage return, or puts one before it.
fn carriage_return(random: &mut Random, text: &mut Vec<u8>) -> Damage {
    let feeds: Vec<usize> = (0..text.len()).filter(|&at| text[at] == b'\n').collect();
    let place = random.pick(&feeds);
    if random.once_in(2) {
        text[place] = b'\r';
    } else {
        text.insert(place, b'\r');
    }
    Damage::CarriageReturn
}

fn exchange_lines(random: &mut Random, text: &mut Vec<u8>) -> Damage {
    let mut lines = lines(text);
    let (one, other) = (random.index(lines.len()), random.index(lines.len()));
    lines.swap(one, other);
    *text = lines.concat();
    Damage::LinesExchanged
}

/// Exchanges two keys of one length, so that every line keeps its place.
fn exchange_keys(random: &mut Random, text: &mut Vec<u8>) -> Damage {
    let mut lines = lines(text);
    let one = random.index(lines.len());
    let same: Vec<usize> =
        (0..lines.len()).filter(|&other| lines[other].len() == lines[one].len()).collect();
    let other = random.pick(&same);
    let key = lines[one].len() - line_length("");
    let keys = [one, other].map(|line| lines[line][..key].to_vec());
    lines[one][..key].copy_from_slice(&keys[1]);
    lines[other][..key].copy_from_slice(&keys[0]);
    *text = lines.concat();
    Damage::KeysExchanged
}

fn shift(random: &mut Random, text: &mut Vec<u8>) -> Damage {
    let place = random.index(text.len());
    match random.below(3) {
        0 => _ = text.remove(place),
        1 => text.insert(place, random.pick(b"0\n m=")),
        _ => text.rotate_left(place),
    }
    Damage::Shifted
}

fn spoil_form_line(random: &mut Random, text: &mut Vec<u8>, form: Form) -> Damage {
    let length = line_length("form");
    match (form, random.below(8)) {
        (Form::First, _) => _ = text.splice(..0, line("form", 1 + random.below(2))),
        (Form::Second, 0) => _ = text.drain(..length),
        (Form::Second, 1) => text.extend_from_within(..length),
        (Form::Second, 2) => text.rotate_left(length),
        (Form::Second, _) => _ = text.splice(..length, line("form", no_second(random))),
    }
    Damage::FormLine
}

/// Not the number of the second form. Cut to fewer bits, some would be.
fn no_second(random: &mut Random) -> u64 {
    match random.below(4) {
        0 => random.pick(&[0, 1, 3, 4, 0x20, 0x22, u64::MAX]),
        1 => 2 ^ 1 << random.below(64),
        2 => 2 | 1 << (8 + random.below(56)),
        _ => random.word() | 4,
    }
}

fn spoil_last_lines(random: &mut Random, text: &mut Vec<u8>, form: Form) -> Damage {
    if form == Form::First {
        let [satp, grain] = [line("satp", 0), line("grain", random.below(2))];
        text.extend(random.pick(&[&[&satp[..], &grain], &[&satp[..], b""]]).concat());
        return Damage::LastLines;
    }
    let mut lines = lines(text);
    let last = lines.len() - 1;
    match random.below(3) {
        0 => lines.swap(last - 1, last),
        1 => _ = lines.pop(),
        _ => lines.truncate(last - 1),
    }
    *text = lines.concat();
    Damage::LastLines
}

fn lines(text: &[u8]) -> Vec<Vec<u8>> {
    text.split_inclusive(|&byte| byte == b'\n').map(<[u8]>::to_vec).collect()
}

fn line(key: &str, word: u64) -> Vec<u8> {
    [key.as_bytes(), b"=", &word_digits(word), b"\n"].concat()
}
