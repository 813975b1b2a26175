//! Compares the product with the model on random calls, and stops at the first
//! difference.
//!
//! `differential [small] [loud] [only=N] [seed=N] [walks=N] [steps=N] [runs=N]
//! [queries=N] [texts=N] [calls=N] [paging=N] [feeds=N]`: numbers are decimal; one walk is
//! every CSR number in every mode by every operation with all else that its access hangs on,
//! every choice that step 7 can have to make, every shape of a NAPOT register, every grain
//! under every A with bits set around it, every setting listed for the boundaries of a map,
//! every map of a few ranges over a few bytes, the bits of a page-table entry at every level
//! by every kind of access, every bit of every word of a state and every configuration byte,
//! every place of a text of either form with telling bytes, every two of its lines, every
//! length of it and of a buffer, every kind of word for its form, every length of a short
//! run and its answers, every kind of word for the grain of a hart that is made, every byte
//! at every place of a record, every kind of word for its step and its arguments, every two
//! places where a trace is cut, every length of what a feed is lent, and every kind of word
//! for the place of a reader. Should the product end the program, `loud` tells the case, and
//! `only` what it was lent.
//!
//! The last line tells how many CSR steps of the walks were done, refused, or illegal
//! for each reason of document 01. In each walk these must be exactly as many as
//! counted by hand in `registers.rs`, and no access that the rule can tell from others
//! may be missing, or the comparison fails.
//!
//! It also tells how many accepted steps 7 were compared, and in how many of them the
//! single order of document 01 would have chosen another interrupt than request [2]
//! does. In each walk that must be exactly 3,402, or the comparison fails. The same
//! goes for the NAPOT entries whose range would be another if trailing zeros were
//! counted: 3,074 in each walk. And for the entries that a grain makes read unlike what
//! is stored, 737, or match other bytes, 463. And for the maps with 33 ranges that the
//! listed settings make: 406 in each walk. Of queries, of accesses by steps, of steps by
//! their grain and of calls on texts, it tells how many were of each class; the comparison
//! fails where a class has too few of them. So it does of the accesses by page tables,
//! whose ends `diagnosis.rs` judges by itself, and of traces and the feeds that they come
//! in, of which `account.rs` has an account of its own.

mod accesses;
mod account;
mod boundaries;
mod calls;
mod classes;
mod coarse;
mod compare;
mod converting;
mod deciders;
mod diagnosis;
mod entries;
mod feed_calls;
mod feed_classes;
mod feed_walks;
mod feeding;
mod feeds;
mod grains;
mod held;
mod interrupts;
mod lengths;
mod lent;
mod making;
mod napot;
mod narrow;
mod near_powers;
mod orders;
mod outcomes;
mod paging;
mod queries;
mod reading;
mod reads;
mod reasons;
mod records;
mod registers;
mod report;
mod restoring;
mod room;
mod runs;
mod saving;
mod sizes;
mod steps;
mod telling;
mod text_calls;
mod text_walks;
mod texts;
mod traces;
mod trailing;
mod walker;

use std::process::ExitCode;
use std::time::Instant;

use report::Difference;
use sizes::Sizes;

fn main() -> ExitCode {
    let sizes = match Sizes::from_arguments(std::env::args().skip(1)) {
        Ok(sizes) => sizes,
        Err(message) => {
            eprintln!("differential: {message}");
            return ExitCode::FAILURE;
        }
    };
    println!("seed {}", sizes.seed);
    let start = Instant::now();
    match compare_all(&sizes) {
        Ok(counts) => {
            println!("{:.1} seconds", start.elapsed().as_secs_f64());
            println!("{counts}: 0 differences");
            ExitCode::SUCCESS
        }
        Err(difference) => {
            println!("{difference}");
            ExitCode::FAILURE
        }
    }
}

fn compare_all(sizes: &Sizes) -> Result<String, Difference> {
    let reasons = registers::walk(sizes)?;
    let walk_orders = interrupts::walk(sizes)?;
    let trailing = napot::walk(sizes)?;
    let coarse = coarse::walk(sizes)?;
    let judged = boundaries::walk(sizes)?;
    let narrow = narrow::walk(sizes)?;
    let entries = entries::walk(sizes)?;
    let held = held::walk(sizes)?;
    let walked = text_walks::walk(sizes)?;
    let forms = text_calls::walk(sizes)?;
    let lengths = lengths::walk(sizes)?;
    let made = making::walk(sizes)?;
    let fed = feed_walks::walk(sizes)?;
    let step_telling = steps::random(sizes)?;
    let (run_steps, run_telling) = runs::random(sizes)?;
    let reads = queries::random(sizes)?;
    let readings = restoring::random(sizes)?;
    let saves = saving::random(sizes)?;
    let conversions = converting::random(sizes)?;
    let misfits = text_calls::wrong(sizes)?;
    calls::wrong(sizes)?;
    let outcomes = paging::random(sizes)?;
    let feeds = feeds::random(sizes)?;
    let wrong_feeds = feed_calls::wrong(sizes)?;
    if let Some(case) = sizes.only {
        return Ok(format!("case {case} alone of each stage"));
    }
    Ok(format!(
        "CSR walks of {reasons}, interrupt walks of {walk_orders}, NAPOT walks of {trailing}, \
         grain walks of {coarse}, boundary walks of {judged}, walks over narrow maps, each of {narrow}, \
         walks over page-table entries of {entries}, \
         {held} states with one word changed, {walked}, {forms} calls with no form, \
         {lengths} runs of any lengths, {made} harts made or not, {fed}, {} random steps with {step_telling}, \
         {} runs of {run_steps} steps with {run_telling}, \
         {} queries with {reads}, {readings}, {saves}, {conversions}, {misfits}, {} wrong calls, \
         {} settings of page tables with {outcomes}, {feeds}, {wrong_feeds}",
        sizes.steps, sizes.runs, sizes.queries, sizes.calls, sizes.paging
    ))
}
