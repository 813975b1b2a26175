//! Prints how the product's speed compares with the reference model's.
//!
//! `bench [ROUNDS]`: how many rounds there are, the best of which counts.
//! `bench lines COUNT`: what `step_speed 0 COUNT` must write.
//! `bench count WORK CONTENDER TIMES`: one contender's work alone.

mod checksum;
mod contest;
mod count;
mod csr_table;
mod feeds;
mod mixes;
mod one_pass;
mod processor;
mod queries;
mod replays;
mod steps;
mod texts;
mod translated;

use std::error::Error;
use std::process::ExitCode;

const DEFAULT_ROUNDS: u32 = 25;

fn main() -> ExitCode {
    let arguments: Vec<String> = std::env::args().skip(1).collect();
    let words: Vec<&str> = arguments.iter().map(String::as_str).collect();
    let done = match words.as_slice() {
        [] => report(DEFAULT_ROUNDS),
        ["lines", count] => lines(count),
        ["count", work, contender, times] => count::count(work, contender, times),
        [rounds] => rounds.parse().map_err(Into::into).and_then(report),
        _ => {
            Err("usage: bench [ROUNDS] | bench lines COUNT | bench count WORK CONTENDER TIMES"
                .into())
        }
    };
    match done {
        Ok(()) => ExitCode::SUCCESS,
        Err(error) => {
            eprintln!("bench: {error}");
            ExitCode::FAILURE
        }
    }
}

fn lines(count: &str) -> Result<(), Box<dyn Error>> {
    print!("{}", steps::expected_lines(count.parse()?));
    Ok(())
}

fn report(rounds: u32) -> Result<(), Box<dyn Error>> {
    println!("Ratios: the product's processor time over that of Rust, each the");
    println!("least of {rounds} rounds. In brackets, and under Rust: nanoseconds.\n");
    report_steps(rounds)?;
    report_queries(rounds);
    report_texts(rounds);
    report_replay(rounds)
}

/// A ratio with the time above the line.
fn ratio(product: f64, rust: f64) -> String {
    format!("{:.2} ({product:.0})", product / rust)
}

fn report_steps(rounds: u32) -> Result<(), Box<dyn Error>> {
    println!(
        "| Steps | Rust | Rust, by value | tegrwyllt_step | tegrwyllt_run, {} steps | Hart::step |",
        steps::BATCH
    );
    println!("|---|---|---|---|---|---|");
    for row in steps::rows(rounds)? {
        println!(
            "| {} | {:.0} | {} | {} | {} | {} |",
            row.name,
            row.rust,
            ratio(row.by_value, row.rust),
            ratio(row.step, row.rust),
            ratio(row.run, row.rust),
            ratio(row.method, row.rust),
        );
    }
    println!();
    Ok(())
}

fn report_queries(rounds: u32) {
    let row = queries::row(rounds);
    println!("| Query, 33 ranges | Rust | tegrwyllt_query |");
    println!("|---|---|---|");
    println!("| against a query on the map | {:.0} | {} |", row.map, ratio(row.product, row.map));
    println!(
        "| against the byte rule | {:.0} | {} |\n",
        row.byte_rule,
        ratio(row.product, row.byte_rule),
    );
}

fn report_texts(rounds: u32) {
    println!("| Texts | Rust | tegrwyllt_save, tegrwyllt_restore, tegrwyllt_convert |");
    println!("|---|---|---|");
    for row in texts::rows(rounds) {
        println!("| {} | {:.0} | {} |", row.name, row.rust, ratio(row.product, row.rust));
    }
    println!();
}

fn report_replay(rounds: u32) -> Result<(), Box<dyn Error>> {
    println!(
        "| Replay of {} records | Ratio | Records a second | MB/s | Peak memory, kB |",
        replays::RECORDS
    );
    println!("|---|---|---|---|---|");
    let (rows, fed) = replays::rows(rounds)?;
    for row in &rows {
        println!(
            "| {} | {:.2} | {:.2} million | {:.0} | {} |",
            row.name,
            row.time / rows[0].time,
            replays::RECORDS as f64 / row.time / 1e6,
            replays::megabytes() / row.time,
            row.memory,
        );
    }
    println!(
        "\n| The same records in scraps of {} bytes | Rust | Rust, byte by byte | tegrwyllt_feed | tegrwyllt_feed over replay |",
        feeds::SCRAP
    );
    println!("|---|---|---|---|---|");
    println!(
        "| a record | {:.0} | {} | {} | {:.2} |",
        fed.rust,
        ratio(fed.byte_by_byte, fed.rust),
        ratio(fed.product, fed.rust),
        fed.product / fed.replay,
    );
    Ok(())
}
