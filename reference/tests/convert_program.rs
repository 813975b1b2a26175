//! The program convert_reference: its argument, its input, and what it writes.

use std::io::Write;
use std::process::{Command, Output, Stdio};

use reference::{Form, Hart};

fn program(arguments: &[&str], input: &[u8]) -> Output {
    let mut command = Command::new(env!("CARGO_BIN_EXE_convert_reference"));
    command.args(arguments).stdin(Stdio::piped()).stdout(Stdio::piped()).stderr(Stdio::piped());
    let mut child = command.spawn().unwrap();
    // The program may end before it has read all.
    let _ = child.stdin.take().unwrap().write_all(input);
    child.wait_with_output().unwrap()
}

fn written(to: &str, input: &[u8]) -> Vec<u8> {
    let output = program(&[to], input);
    assert!(output.status.success() && output.stderr.is_empty());
    output.stdout
}

fn texts(hart: &Hart) -> [Vec<u8>; 2] {
    Form::ALL.map(|form| form.text(&hart.to_words()))
}

#[test]
fn the_converted_text_or_the_refusal_is_written() {
    let [first, second] = texts(&Hart::reset());
    assert_eq!(written("2", &first), second);
    assert_eq!(written("1", &second), first);
    assert_eq!(written("1", &first), b"refused 4\n");
    assert_eq!(written("2", &second), b"refused 4\n");
    let [wide, with_room] = texts(&Hart { medeleg: 1 << 12, ..Hart::reset() });
    assert_eq!(written("2", &wide), b"refused 5\n");
    assert_eq!(written("1", &with_room), b"refused 12\n");
    assert_eq!(written("1", &texts(&Hart { grain: 11, ..Hart::reset() })[1]), b"refused 5\n");
}

#[test]
fn all_of_the_input_is_the_text() {
    let [first, second] = texts(&Hart::reset());
    for (to, text) in [("2", first), ("1", second)] {
        for input in [b"".to_vec(), text[1..].to_vec(), [&text[..], b"\n"].concat()] {
            assert_eq!(written(to, &input), b"refused 4\n");
        }
        assert_eq!(written(to, &text.repeat(1000)), b"refused 4\n");
    }
}

#[test]
fn any_other_argument_is_told_and_nothing_written() {
    let [first, second] = texts(&Hart::reset());
    let wrong: [&[&str]; 10] = [
        &[],
        &[""],
        &["0"],
        &["3"],
        &["01"],
        &["+1"],
        &["1 "],
        &["-h"],
        &["1", "2"],
        &["2", "2", "2"],
    ];
    for arguments in wrong {
        for text in [&first, &second] {
            let output = program(arguments, text);
            assert!(!output.status.success() && output.stdout.is_empty(), "{arguments:?}");
            assert!(String::from_utf8_lossy(&output.stderr).contains("usage: "));
        }
    }
}
