//! `replay_reference [START] [MEMORY]`: replays the trace on standard input from the
//! saved text in the file START, of either form, or from reset, with the words in the file
//! MEMORY lent to every step, or none at address 0. Either file may be `-`, for none.

use std::error::Error;
use std::ffi::OsString;
use std::fs::File;
use std::io::{self, BufReader, BufWriter, Write};
use std::path::Path;
use std::process::ExitCode;

use reference::{Form, LONGEST_MEMORY_TEXT, Memory, fill, read_memory, replay, restore_start};

fn main() -> ExitCode {
    let arguments: Vec<OsString> = std::env::args_os().skip(1).collect();
    let (start, memory) = match arguments.as_slice() {
        [] => (None, None),
        [start] => (file(start), None),
        [start, memory] => (file(start), file(memory)),
        _ => return failure("usage: replay_reference [START] [MEMORY] <TRACE"),
    };
    match run(start, memory) {
        Ok(()) => ExitCode::SUCCESS,
        Err(error) => failure(&error.to_string()),
    }
}

fn file(argument: &OsString) -> Option<&Path> {
    (argument != "-").then_some(Path::new(argument))
}

fn failure(message: &str) -> ExitCode {
    eprintln!("replay_reference: {message}");
    ExitCode::FAILURE
}

/// A start that is refused is all that is told, so the memory is not looked at then.
fn run(start: Option<&Path>, memory: Option<&Path>) -> Result<(), Box<dyn Error>> {
    let text = start.map(|path| read(path, Form::LONGEST)).transpose()?;
    let refused = text.as_deref().is_some_and(|text| restore_start(text).is_err());
    let (base, words) = match memory {
        Some(path) if !refused => lent(path)?,
        _ => (0, Vec::new()),
    };
    let memory = Memory { words: &words, base };
    let mut input = BufReader::with_capacity(1 << 16, io::stdin().lock());
    let mut output = BufWriter::with_capacity(1 << 16, io::stdout().lock());
    replay(text.as_deref(), memory, &mut input, &mut output)?;
    output.flush()?;
    Ok(())
}

fn lent(path: &Path) -> Result<(u64, Vec<u64>), String> {
    let text = read(path, LONGEST_MEMORY_TEXT)?;
    read_memory(&text)
        .ok_or_else(|| format!("{}: not in the form of a memory text", path.display()))
}

/// Reads one byte more than the longest text has, which is enough to see that a file
/// is too long.
fn read(path: &Path, longest: usize) -> Result<Vec<u8>, String> {
    let mut text = vec![0; longest + 1];
    let length = File::open(path)
        .and_then(|mut file| fill(&mut file, &mut text))
        .map_err(|error| format!("cannot read {}: {error}", path.display()))?;
    text.truncate(length);
    Ok(text)
}
