//! Replay of a trace: an answer for each record, then the state left.

use std::io::{self, Read, Write};

use crate::answer::{Answer, Cause, Entry, Refusal};
use crate::form::Form;
use crate::hart::{Hart, Mode};
use crate::hexadecimal::word_digits;
use crate::map::{Map, NONE, Range};
use crate::memory::Memory;
use crate::reader::{Reader, Reading};
use crate::record::RECORD_LENGTH;
use crate::step::Step;
use crate::text::{restore, save};

/// Replays the records of `input` from a saved text, or from reset, with words lent
/// to each, and writes what it answers. It holds one record at a time, so lend it
/// buffered ends.
pub fn replay(
    start: Option<&[u8]>,
    memory: Memory,
    input: &mut impl Read,
    output: &mut impl Write,
) -> io::Result<()> {
    let (mut hart, mut map) = match start.map(restore_start) {
        None => (Hart::reset(), Map::reset()),
        Some(Ok(started)) => started,
        Some(Err(refusal)) => return writeln!(output, "refused {}", refusal.number()),
    };
    let left = replay_records(&mut hart, &mut map, memory, input, output)?;
    write_state(output, &hart)?;
    map.listed().iter().try_for_each(|range| write_range(output, range))?;
    writeln!(output, "left {left}")
}

/// Reads a text of either form, which its length tells.
pub fn restore_start(text: &[u8]) -> Result<(Hart, Map), Refusal> {
    restore(Form::of_length(text.len()), text)
}

/// Gives the number of bytes left over, fewer than a record.
fn replay_records(
    hart: &mut Hart,
    map: &mut Map,
    memory: Memory,
    input: &mut impl Read,
    output: &mut impl Write,
) -> io::Result<usize> {
    let mut reader = Reader::START;
    let mut record = [0; RECORD_LENGTH];
    loop {
        let length = fill(input, &mut record)?;
        if length < RECORD_LENGTH {
            return Ok(length);
        }
        match reader.take_record(hart, map, memory, &record) {
            Reading::Stepped(step, answer) => write_answer(output, step, answer)?,
            Reading::Broken(number) => {
                writeln!(output, "refused {} record {number}", Refusal::Record.number())?;
                return Ok(0);
            }
        }
    }
}

/// Reads until the buffer is full or the input ends; gives the bytes read.
pub fn fill(input: &mut impl Read, buffer: &mut [u8]) -> io::Result<usize> {
    let mut length = 0;
    while length < buffer.len() {
        match input.read(&mut buffer[length..]) {
            Ok(0) => break,
            Ok(read) => length += read,
            Err(error) if error.kind() == io::ErrorKind::Interrupted => {}
            Err(error) => return Err(error),
        }
    }
    Ok(length)
}

/// The text of a state that can be held: of the first form that has one.
fn write_state(output: &mut impl Write, hart: &Hart) -> io::Result<()> {
    let mut text = [0; Form::LONGEST];
    let saved = Form::ALL.into_iter().find(|&form| save(form, hart, &mut text).is_ok());
    let form = saved.expect("the second form has room for every state");
    output.write_all(&text[..form.length()])
}

/// The line of an answer. A trap tells its entry after an access alone: the cause
/// does not show where it came from, since a raise may have that of an access.
fn write_answer(output: &mut impl Write, step: Step, answer: Answer) -> io::Result<()> {
    match answer {
        Answer::Done => output.write_all(b"done\n"),
        Answer::Value(value) => {
            output.write_all(b"done ")?;
            output.write_all(&word_digits(value))?;
            output.write_all(b"\n")
        }
        Answer::Decision(true) => output.write_all(b"done yes\n"),
        Answer::Decision(false) => output.write_all(b"done no\n"),
        Answer::Granted { entry } => {
            output.write_all(b"granted")?;
            write_entry(output, entry)
        }
        Answer::Trapped { cause, destination, entry } => {
            write_trap(output, cause, destination)?;
            if step.is_access() { write_entry(output, entry) } else { output.write_all(b"\n") }
        }
        Answer::Refused(refusal) => writeln!(output, "refused {}", refusal.number()),
    }
}

fn write_trap(output: &mut impl Write, cause: Cause, destination: Mode) -> io::Result<()> {
    let (kind, code) = match cause {
        Cause::Exception(code) => ("exception", code),
        Cause::Interrupt(code) => ("interrupt", code),
    };
    let letter = match destination {
        Mode::User => 'U',
        Mode::Supervisor => 'S',
        Mode::Machine => 'M',
    };
    write!(output, "trapped {kind} {code} to {letter}")
}

/// The end of a line that tells which entry decided.
fn write_entry(output: &mut impl Write, entry: Entry) -> io::Result<()> {
    match entry {
        Some(entry) => writeln!(output, " entry {entry}"),
        None => output.write_all(b" entry none\n"),
    }
}

fn write_range(output: &mut impl Write, range: &Range) -> io::Result<()> {
    write!(output, "range {:016x} {:016x} ", range.first, range.last)?;
    match range.owner {
        NONE => writeln!(output, "none"),
        owner => writeln!(output, "{owner}"),
    }
}
