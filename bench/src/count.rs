//! The work of one contender and no other, so many times, for a counter of
//! instructions to watch: bench/count runs it with two counts.

use std::error::Error;
use std::hint::black_box;

use crate::feeds::Feeds;
use crate::mixes::{MIXES, Mix};
use crate::queries::Queries;
use crate::steps;
use crate::texts::{CALLS, Call, Texts};

/// `work` is `query`, `feed`, the word of a call on texts, or a mix's number.
pub fn count(work: &str, contender: &str, times: &str) -> Result<(), Box<dyn Error>> {
    let times = times.parse()?;
    let mix = || MIXES.iter().find(|mix| mix.number.to_string() == work);
    let done = if work == "query" {
        query(contender, times)
    } else if work == "feed" {
        feed(contender, times)
    } else if let Some(call) = CALLS.iter().find(|call| call.word == work) {
        text(call, contender, times)
    } else {
        mix().and_then(|mix| step(mix, contender, times))
    };
    done.ok_or_else(|| format!("no contender {contender} at {work}").into())
}

fn step(mix: &Mix, contender: &str, times: usize) -> Option<()> {
    let way = steps::way(contender)?;
    black_box(way(mix, times as u64));
    Some(())
}

fn query(contender: &str, times: usize) -> Option<()> {
    let queries = Queries::new();
    match contender {
        "rust" => _ = black_box(queries.by_map(times)),
        "bytes" => _ = black_box(queries.by_bytes(times)),
        "product" => _ = black_box(queries.by_product(times)),
        _ => return None,
    }
    Some(())
}

/// The most records that can be fed: the trace is the same for any number of them.
const RECORDS: usize = 16_384;

fn feed(contender: &str, times: usize) -> Option<()> {
    let feeds = Feeds::new(RECORDS);
    match contender {
        "rust" => _ = black_box(feeds.by_records(times)),
        "bytes" => _ = black_box(feeds.byte_by_byte(times)),
        "product" => _ = black_box(feeds.by_product(times)),
        _ => return None,
    }
    Some(())
}

fn text(call: &Call, contender: &str, times: usize) -> Option<()> {
    let work = match contender {
        "rust" => call.rust,
        "product" => call.product,
        _ => return None,
    };
    work(&Texts::new(), times);
    Some(())
}
