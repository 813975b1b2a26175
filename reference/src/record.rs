//! Records of a trace: one step each, in three lines.

use crate::hexadecimal::{put_line, take_line};
use crate::step::Step;

/// Number of bytes of a record.
pub const RECORD_LENGTH: usize = 60;

/// The step of a record, or nothing where the record is broken: a line not in
/// its form, no step of this number, or an argument the step does not use.
pub fn read_record(record: &[u8; RECORD_LENGTH]) -> Option<Step> {
    let mut text = &record[..];
    let words =
        [take_line(&mut text, "step")?, take_line(&mut text, "a")?, take_line(&mut text, "b")?];
    let step = Step::from_words(words[0], words[1], words[2])?;
    (step.to_words() == words).then_some(step)
}

/// The form alone, with any words whatever.
pub fn write_record(words: [u64; 3]) -> [u8; RECORD_LENGTH] {
    let mut record = [0; RECORD_LENGTH];
    let rest = put_line(&mut record, "step", words[0]);
    let rest = put_line(rest, "a", words[1]);
    put_line(rest, "b", words[2]);
    record
}
