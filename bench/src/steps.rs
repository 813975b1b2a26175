//! Steps: the reference changed in place and by value, the product through its
//! C interface, and the method `Hart::step` in the Rattle program `step_speed`. In
//! the mix of present and absent numbers the reference judges CSR accesses by a table.

use std::error::Error;
use std::hint::black_box;
use std::process::{Command, Stdio};
use std::time::Duration;

use reference::csr::{Judge, Rule};
use reference::{
    ANSWER_WORDS, Answer, HART_WORDS, Hart, MAP_WORDS, Map, Memory, STEP_WORDS, Step, capi,
    step_judged_by,
};

use crate::checksum::Checksum;
use crate::contest::{Work, contest};
use crate::csr_table::{self, Table};
use crate::mixes::{Judgement, MIXES, Mix, Words, formed};
use crate::processor;

const PROGRAM: &str = "crates/step_speed/out/step_speed";
/// Steps of one call of `tegrwyllt_run`.
pub const BATCH: usize = 1_024;
/// The part of the steps that is timed to be taken off, with the start-up.
const SHORT: u64 = 8;

/// Nanoseconds a step.
pub struct Row {
    pub name: &'static str,
    pub rust: f64,
    pub by_value: f64,
    pub step: f64,
    pub run: f64,
    pub method: f64,
}

pub fn rows(rounds: u32) -> Result<Vec<Row>, Box<dyn Error>> {
    csr_table::compare()?;
    MIXES.iter().map(|mix| row(rounds, mix)).collect()
}

fn row(rounds: u32, mix: &Mix) -> Result<Row, Box<dyn Error>> {
    compare(mix)?;
    let short = mix.count / SHORT;
    let mut contenders: [Work<'_>; 6] = [
        Box::new(|| processor::here(|| in_place(mix, mix.count))),
        Box::new(|| processor::here(|| by_value(mix, mix.count))),
        Box::new(|| processor::here(|| one_by_one(mix, mix.count))),
        Box::new(|| processor::here(|| in_batches(mix, mix.count))),
        Box::new(|| processor::in_programs(|| by_program(mix, mix.count))),
        Box::new(|| processor::in_programs(|| by_program(mix, short))),
    ];
    let best = contest(rounds, &mut contenders);
    let each = |time: Duration, steps: u64| time.as_secs_f64() * 1e9 / steps as f64;
    Ok(Row {
        name: mix.name,
        rust: each(best[0], mix.count),
        by_value: each(best[1], mix.count),
        step: each(best[2], mix.count),
        run: each(best[3], mix.count),
        method: each(best[4].saturating_sub(best[5]), mix.count - short),
    })
}

/// All must leave and answer as the reference does, also where they are timed.
fn compare(mix: &Mix) -> Result<(), Box<dyn Error>> {
    let wanted = in_place_judged_by::<Rule>(mix, mix.count);
    let ways: [fn(&Mix, u64) -> Checksum; 5] =
        [in_place, by_value, one_by_one, in_batches, by_program];
    let found = ways.map(|way| way(mix, mix.count));
    if found != [wanted; 5] {
        return Err(format!("{}: {found:?} in place of {wanted:?}", mix.name).into());
    }
    Ok(())
}

/// A way of stepping through a mix in this program, by its name.
pub fn way(name: &str) -> Option<fn(&Mix, u64) -> Checksum> {
    match name {
        "rust" => Some(in_place),
        "by-value" => Some(by_value),
        "step" => Some(one_by_one),
        "run" => Some(in_batches),
        _ => None,
    }
}

/// The words that a mix starts from, in the product's interface.
fn start(mix: &Mix) -> ([u64; HART_WORDS], [u64; MAP_WORDS]) {
    let (hart, map) = (mix.start)();
    (hart.to_words(), map.to_words())
}

fn in_place(mix: &Mix, count: u64) -> Checksum {
    match mix.judgement {
        Judgement::Rule => in_place_judged_by::<Rule>(mix, count),
        Judgement::Table => in_place_judged_by::<Table>(mix, count),
    }
}

fn in_place_judged_by<J: Judge>(mix: &Mix, count: u64) -> Checksum {
    let (mut hart, mut map): (Hart, Map) = (mix.start)();
    let mut sum = Checksum::default();
    for &words in endless(mix).take(count as usize) {
        let answer = step_judged_by::<J>(&mut hart, &mut map, mix.memory, formed(words));
        sum.add_answer(answer.words());
    }
    sum.add_left(&hart.to_words(), &map.to_words());
    sum
}

/// The form of `Hart::step`: hart and map go in by value, and both come back.
/// A call stays a call, or the compiler would change them in place again.
#[inline(never)]
fn stepped<J: Judge>(
    mut hart: Hart,
    mut map: Map,
    memory: Memory,
    next: Step,
) -> (Hart, Map, Answer) {
    let answer = step_judged_by::<J>(&mut hart, &mut map, memory, next);
    (hart, map, answer)
}

fn by_value(mix: &Mix, count: u64) -> Checksum {
    match mix.judgement {
        Judgement::Rule => by_value_judged_by::<Rule>(mix, count),
        Judgement::Table => by_value_judged_by::<Table>(mix, count),
    }
}

fn by_value_judged_by<J: Judge>(mix: &Mix, count: u64) -> Checksum {
    let (mut hart, mut map): (Hart, Map) = (mix.start)();
    let mut sum = Checksum::default();
    for &words in endless(mix).take(count as usize) {
        let answer;
        (hart, map, answer) = stepped::<J>(hart, map, mix.memory, formed(words));
        sum.add_answer(answer.words());
    }
    sum.add_left(&hart.to_words(), &map.to_words());
    sum
}

fn one_by_one(mix: &Mix, count: u64) -> Checksum {
    let (mut hart, mut map) = start(mix);
    let mut sum = Checksum::default();
    let mut answer = [0; ANSWER_WORDS];
    for &words in endless(mix).take(count as usize) {
        capi::step(&mut hart, &mut map, mix.memory, words, &mut answer);
        sum.add_answer(answer);
    }
    sum.add_left(&hart, &map);
    sum
}

fn in_batches(mix: &Mix, count: u64) -> Checksum {
    let (mut hart, mut map) = start(mix);
    let mut sum = Checksum::default();
    let period = BATCH.max(mix.steps.len());
    let steps: Vec<u64> = endless(mix).take(period).flatten().copied().collect();
    let batches = steps.chunks_exact(STEP_WORDS * BATCH).cycle();
    let mut answers = vec![0; ANSWER_WORDS * BATCH];
    for batch in batches.take(count as usize / BATCH) {
        capi::run(&mut hart, &mut map, mix.memory, batch, &mut answers);
        answers.as_chunks().0.iter().for_each(|&answer| sum.add_answer(answer));
    }
    sum.add_left(&hart, &map);
    sum
}

/// The mix over and over; its steps are hidden from the compiler.
fn endless(mix: &Mix) -> impl Iterator<Item = &Words> {
    black_box(mix.steps).iter().cycle()
}

/// The checksum at the end of the line that the program writes.
fn by_program(mix: &Mix, count: u64) -> Checksum {
    let line = Command::new(PROGRAM)
        .args([mix.number.to_string(), count.to_string()])
        .stderr(Stdio::inherit())
        .output()
        .unwrap_or_else(|error| panic!("{PROGRAM}: {error}"))
        .stdout;
    let line = String::from_utf8_lossy(&line);
    let digits = line.trim_end().rsplit(' ').next().unwrap_or_default();
    Checksum(u64::from_str_radix(digits, 16).unwrap_or_else(|_| panic!("{PROGRAM}: {line}")))
}

/// The lines that `step_speed` writes for all mixes, worked out by the
/// reference.
pub fn expected_lines(count: u64) -> String {
    let line = |mix: &Mix| {
        let sum = in_place_judged_by::<Rule>(mix, count);
        format!("mix {} steps {count} checksum {:016x}\n", mix.number, sum.0)
    };
    MIXES.iter().map(line).collect()
}
