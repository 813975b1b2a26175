//! The program replay_reference on the stored vectors, which the crate
//! replay_vectors of the product runs, and on files it cannot read.

use std::fs::{self, File};
use std::path::{Path, PathBuf};
use std::process::{Command, Output, Stdio};

fn program(start: &Path, memory: &Path, input: Stdio) -> Output {
    let mut command = Command::new(env!("CARGO_BIN_EXE_replay_reference"));
    command.args([start, memory]).stdin(input).output().unwrap()
}

fn product_crate() -> PathBuf {
    Path::new(env!("CARGO_MANIFEST_DIR")).join("../crates/replay_vectors")
}

fn stored() -> PathBuf {
    product_crate().join("data")
}

/// Start, memory and trace of each case, in the order in which the crate runs them.
/// A start or memory `-` is none.
fn cases() -> Vec<(PathBuf, PathBuf, String)> {
    let words = fs::read_to_string(product_crate().join("args")).unwrap();
    let words: Vec<&str> = words.lines().collect();
    let file = |word: &str| if word == "-" { word.into() } else { stored().join(word) };
    words.chunks(3).map(|case| (file(case[0]), file(case[1]), case[2].to_string())).collect()
}

#[test]
fn the_stored_output_is_what_the_model_writes() {
    assert!(cases().len() > 30);
    let mut expected = Vec::new();
    for (start, memory, name) in cases() {
        let trace = File::open(stored().join(&name)).unwrap();
        let output = program(&start, &memory, trace.into());
        assert!(output.status.success() && output.stderr.is_empty(), "{name}");
        expected.extend(format!("{name}\n").bytes());
        expected.extend(output.stdout);
    }
    assert!(fs::read(product_crate().join("stdout")).unwrap() == expected);
}

#[test]
fn the_stored_vectors_are_those_of_seed_1() {
    let made = Path::new(env!("CARGO_TARGET_TMPDIR")).join("vectors");
    let mut command = Command::new(env!("CARGO_BIN_EXE_make_vectors"));
    let output = command.arg(&made).arg("1").output().unwrap();
    let names = String::from_utf8(output.stdout).unwrap();
    assert_eq!(names.lines().count(), cases().len());
    for folder in names.lines().map(Path::new) {
        for file in ["start", "memory", "trace"].map(|name| folder.join(name)) {
            let (made, stored) = (made.join(&file), stored().join(&file));
            assert!(fs::read(made).ok() == fs::read(stored).ok(), "{}", file.display());
        }
    }
}

#[test]
fn no_stored_file_is_large() {
    for (_, _, name) in cases() {
        assert!(stored().join(name).metadata().unwrap().len() < 200_000);
    }
}

#[test]
fn a_start_that_cannot_be_opened_is_told_and_nothing_written() {
    for path in ["no such file", "."] {
        let output = program(Path::new(path), Path::new("-"), Stdio::null());
        assert!(!output.status.success());
        assert!(output.stdout.is_empty());
        assert!(String::from_utf8_lossy(&output.stderr).contains(path));
    }
}
