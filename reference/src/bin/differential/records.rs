//! Records judged apart from the model, by what request [1] says of them.

use reference::STEP_WORDS;

/// Why a record is broken.
#[derive(Clone, Copy, PartialEq, Eq, Debug)]
pub enum Flaw {
    /// A line is not in its form.
    Line,
    /// The number of its step is above 17.
    Step(u64),
    /// An argument that the step does not use is not 0.
    Argument,
}

/// The words of a record of 60 bytes, or what is wrong with it.
pub fn judge(record: &[u8]) -> Result<[u64; STEP_WORDS], Flaw> {
    let words = lines(record).ok_or(Flaw::Line)?;
    let used = match words[0] {
        0 | 7..=12 | 14 => 0,
        4 | 6 | 13 => 1,
        1..=3 | 5 | 15..=17 => 2,
        number => return Err(Flaw::Step(number)),
    };
    let unused = &words[1 + used..];
    if unused.iter().all(|&word| word == 0) { Ok(words) } else { Err(Flaw::Argument) }
}

fn lines(record: &[u8]) -> Option<[u64; STEP_WORDS]> {
    let text = str::from_utf8(record).ok()?;
    let mut lines = text.split('\n');
    let mut word = |key| value(lines.next()?.strip_prefix(key)?);
    let words = [word("step=")?, word("a=")?, word("b=")?];
    (lines.next() == Some("") && lines.next().is_none()).then_some(words)
}

/// Sixteen digits: a sign, which the library would take, is none.
fn value(digits: &str) -> Option<u64> {
    let is_digit = |byte: u8| matches!(byte, b'0'..=b'9' | b'a'..=b'f');
    let plain = digits.len() == 16 && digits.bytes().all(is_digit);
    plain.then(|| u64::from_str_radix(digits, 16).ok())?
}
