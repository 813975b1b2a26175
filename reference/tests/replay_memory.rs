//! The program replay_reference with a memory: its arguments, the form of the text,
//! and the example with page tables.

mod common;

use std::fs::{self, File};
use std::path::{Path, PathBuf};
use std::process::{Command, Output};

use common::paging::{BASE, RWX, entry, one_page};
use reference::{Form, Hart, MOST_WORDS, Memory, read_memory, write_memory, write_record};

fn example(name: &str) -> PathBuf {
    Path::new(env!("CARGO_MANIFEST_DIR")).join("../examples/paging").join(name)
}

/// A file of this test's own.
fn file(name: &str, bytes: &[u8]) -> PathBuf {
    let path = Path::new(env!("CARGO_TARGET_TMPDIR")).join(name);
    fs::write(&path, bytes).unwrap();
    path
}

fn program<P: AsRef<Path>>(arguments: &[P], trace: &Path) -> Output {
    let mut command = Command::new(env!("CARGO_BIN_EXE_replay_reference"));
    let arguments = arguments.iter().map(AsRef::as_ref);
    command.args(arguments).stdin(File::open(trace).unwrap()).output().unwrap()
}

fn written<P: AsRef<Path>>(arguments: &[P], trace: &Path) -> String {
    let output = program(arguments, trace);
    assert!(output.status.success() && output.stderr.is_empty());
    String::from_utf8(output.stdout).unwrap()
}

#[test]
fn the_example_with_page_tables() {
    let arguments = ["start.txt", "memory.txt"].map(example);
    let found = written(&arguments, &example("trace.txt"));
    assert_eq!(found, fs::read_to_string(example("expected.txt")).unwrap());
    assert!(found.contains("\nform=0000000000000002\nmode="));
    assert!(found.contains("\ngrain=0000000000000000\nrange "));
}

#[test]
fn a_dash_is_reset_and_no_words_at_0() {
    let steps = [[1, 0x180, 8 << 60], [1, 0x180, 0], [15, 0, 8]].map(write_record).concat();
    let trace = file("dash", &steps);
    let none: [&str; 0] = [];
    let found = written(&none, &trace);
    assert!(
        found.starts_with("done 0000000000000000\ndone 8000000000000000\ngranted entry none\n")
    );
    assert!(found.contains("\nmode=0000000000000003\n") && found.ends_with("\nleft 0\n"));
    for arguments in [vec!["-"], vec!["-", "-"]] {
        assert_eq!(written(&arguments, &trace), found);
    }
    let start = file("dash-start", &Form::First.text(&Hart::reset().to_words()));
    assert_eq!(written(&[start.as_path()], &trace), found);
    assert_eq!(written(&[start.as_path(), Path::new("-")], &trace), found);
    assert!(!program(&["-", "-", "-"], &trace).status.success());
}

#[test]
fn texts_of_a_memory() {
    let words = one_page(entry(0x9000, RWX));
    let memory = Memory { words: &words, base: BASE };
    let text = write_memory(memory);
    assert_eq!(text.len(), 22 + 22 * words.len());
    assert!(text.starts_with(b"base=0000000080000000\nword=0000000020000401\nword=0000"));
    assert_eq!(read_memory(&text), Some((BASE, words.clone())));
    assert_eq!(read_memory(&text[..22]), Some((BASE, vec![])));
    for length in (0..60).filter(|length| length % 22 != 0 || *length == 0) {
        assert_eq!(read_memory(&text[..length]), None, "{length} bytes");
    }
    for (from, to) in [("base", "Base"), ("word", "base"), ("80", "8g"), ("\n", "\r"), ("\n", "")] {
        let damaged = String::from_utf8_lossy(&text).replacen(from, to, 1);
        assert_eq!(read_memory(damaged.as_bytes()), None, "{from:?} to {to:?}");
    }
    assert_eq!(read_memory(&[&text[..], b"\n"].concat()), None);
    for (length, whole) in [(MOST_WORDS, true), (MOST_WORDS + 1, false)] {
        let many = write_memory(Memory { words: &vec![7; length], base: 1 });
        assert_eq!(read_memory(&many).is_some(), whole);
    }
}

#[test]
fn a_broken_memory_is_told_and_nothing_written() {
    let trace = file("broken-trace", &write_record([14, 0, 0]));
    let text = write_memory(Memory { words: &vec![0; MOST_WORDS + 1], base: 0 });
    for (name, bytes) in
        [("empty", &b""[..]), ("cut", &text[..43]), ("long", &text), ("other", b"base=0\n")]
    {
        let path = file(name, bytes);
        let output = program(&[Path::new("-"), &path], &trace);
        assert!(!output.status.success() && output.stdout.is_empty(), "{name}");
        let told = format!("{}: not in the form of a memory text", path.display());
        assert!(String::from_utf8_lossy(&output.stderr).contains(&told));
    }
    let output = program(&["-", "no such file"], &trace);
    assert!(!output.status.success() && output.stdout.is_empty());
    assert!(String::from_utf8_lossy(&output.stderr).contains("no such file"));
    let whole = file("whole", &text[..text.len() - 22]);
    assert!(program(&[Path::new("-"), &whole], &trace).status.success());
}

/// A refused start is told before the memory is looked at; one that cannot be read too.
#[test]
fn the_start_is_judged_first() {
    let trace = file("judged-trace", b"");
    let broken = file("judged-broken", b"base=");
    let short = file("judged-short", &Form::First.text(&Hart::reset().to_words())[..1026]);
    for memory in [broken.as_path(), Path::new("no such file"), Path::new("-")] {
        assert_eq!(written(&[short.as_path(), memory], &trace), "refused 4\n");
    }
    let output = program(&["no such start", "no such memory"], &trace);
    let told = String::from_utf8_lossy(&output.stderr).into_owned();
    assert!(told.contains("no such start") && !told.contains("no such memory"));
}

/// A base that is not lawful is no broken file.
#[test]
fn an_unlawful_base_is_refusal_13_at_each_access() {
    let steps = [[14, 0, 0], [15, 0, 3], [4, 0x180, 0], [16, 0, 8]].map(write_record).concat();
    let trace = file("unlawful-trace", &steps);
    let memory = file("unlawful", &write_memory(Memory { words: &[], base: 4 }));
    let found = written(&[Path::new("-"), &memory], &trace);
    assert!(found.starts_with("refused 13\nrefused 13\ndone 0000000000000000\nrefused 13\nmode="));
}
