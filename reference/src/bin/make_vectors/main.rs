//! `make_vectors FOLDER [SEED]`: writes stored vectors for replay, a folder
//! for each case with `trace`, `expected` (standard output), `start` where the
//! replay does not start at reset, and `memory` where words are lent.

mod broken;
mod interrupts;
mod paging;
mod protection;
mod refused;
mod registers;
mod second_form;
mod steps;
mod traps;
mod vector;

use std::path::Path;
use std::process::ExitCode;

use vector::Vector;

const DEFAULT_SEED: u64 = 1;

fn main() -> ExitCode {
    let arguments: Vec<String> = std::env::args().skip(1).collect();
    let (folder, seed) = match arguments.as_slice() {
        [folder] => (folder, Ok(DEFAULT_SEED)),
        [folder, seed] => (folder, seed.parse()),
        _ => return failure("usage: make_vectors FOLDER [SEED]"),
    };
    let Ok(seed) = seed else {
        return failure("SEED is a decimal number below 2^64");
    };
    for vector in all(seed) {
        if let Err(error) = vector.write(Path::new(folder)) {
            return failure(&format!("cannot write {}: {error}", vector.name));
        }
        println!("{}", vector.name);
    }
    ExitCode::SUCCESS
}

fn failure(message: &str) -> ExitCode {
    eprintln!("make_vectors: {message}");
    ExitCode::FAILURE
}

fn all(seed: u64) -> Vec<Vector> {
    [
        registers::vectors(seed),
        traps::vectors(seed),
        interrupts::vectors(),
        protection::vectors(seed),
        paging::vectors(),
        second_form::vectors(seed),
        refused::vectors(),
        broken::vectors(),
    ]
    .concat()
}
