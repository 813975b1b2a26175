//! `convert_reference TO`: reads a saved text of the other form than TO, which is 1 or 2,
//! from standard input and writes it in that form, or the line `refused N`.

use std::ffi::OsString;
use std::io::{self, Write};
use std::process::ExitCode;

use reference::{Form, convert, fill};

fn main() -> ExitCode {
    let arguments: Vec<OsString> = std::env::args_os().skip(1).collect();
    let to = match arguments.as_slice() {
        [to] if to == "1" => Form::First,
        [to] if to == "2" => Form::Second,
        _ => return failure("usage: convert_reference TO <TEXT, where TO is 1 or 2"),
    };
    match run(to) {
        Ok(()) => ExitCode::SUCCESS,
        Err(error) => failure(&error.to_string()),
    }
}

fn failure(message: &str) -> ExitCode {
    eprintln!("convert_reference: {message}");
    ExitCode::FAILURE
}

/// Reads one byte more than the longest text has, which is enough to see that a text is
/// too long.
fn run(to: Form) -> io::Result<()> {
    let mut text = [0; Form::LONGEST + 1];
    let length = fill(&mut io::stdin().lock(), &mut text)?;
    let mut converted = vec![0; to.length()];
    if let Err(refusal) = convert(to, &text[..length], &mut converted) {
        converted = format!("refused {}\n", refusal.number()).into_bytes();
    }
    let mut output = io::stdout().lock();
    output.write_all(&converted)?;
    output.flush()
}
