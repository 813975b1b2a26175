//! Replay of a long trace, by the product's program and by the reference's, and the same
//! trace fed in scraps.

use std::error::Error;
use std::fs::{self, File};
use std::io::Write;
use std::path::{Path, PathBuf};
use std::process::{Command, Stdio};
use std::thread::sleep;
use std::time::Duration;

use reference::random::Random;
use reference::{Hart, Map, Memory, RECORD_LENGTH, Step, generate, step, write_record};

use crate::contest::{Work, contest};
use crate::feeds::Feeds;
use crate::mixes::formed;
use crate::processor::{here, in_programs};

const PRODUCT: &str = "crates/replay/out/replay";
const REFERENCE: &str = "bench/target/release/replay_reference";
pub const RECORDS: usize = 1_000_000;
const SEED: u64 = 1;
/// A replay takes long, so there are fewer rounds than for steps.
const MOST_ROUNDS: u32 = 9;

pub struct Row {
    pub name: &'static str,
    /// Seconds for all records.
    pub time: f64,
    /// The most memory held, in kB.
    pub memory: u64,
}

/// Nanoseconds a record of the trace fed in scraps.
pub struct FeedRow {
    pub rust: f64,
    pub byte_by_byte: f64,
    pub product: f64,
    /// Those of the product's program `replay`.
    pub replay: f64,
}

/// The reference's row, then the product's, and that of feeds: all are timed in turn.
pub fn rows(rounds: u32) -> Result<([Row; 2], FeedRow), Box<dyn Error>> {
    let folder = Folder::new()?;
    let trace = folder.0.join("trace");
    let feeds = Feeds::new(RECORDS);
    fs::write(&trace, &feeds.trace)?;
    compare(&folder.0, &trace)?;
    feeds.compare()?;
    let mut contenders: [Work<'_>; 5] = [
        Box::new(|| {
            in_programs(|| replay(REFERENCE, &trace, Stdio::null()).expect("replayed before"))
        }),
        Box::new(|| {
            in_programs(|| replay(PRODUCT, &trace, Stdio::null()).expect("replayed before"))
        }),
        Box::new(|| here(|| feeds.by_records(RECORDS))),
        Box::new(|| here(|| feeds.byte_by_byte(RECORDS))),
        Box::new(|| here(|| feeds.by_product(RECORDS))),
    ];
    let best = contest(rounds.min(MOST_ROUNDS), &mut contenders);
    let row = |name, program, time: Duration| -> Result<Row, Box<dyn Error>> {
        Ok(Row { name, time: time.as_secs_f64(), memory: peak_memory(program, &trace)? })
    };
    let each = |time: Duration| time.as_secs_f64() * 1e9 / RECORDS as f64;
    let fed = FeedRow {
        rust: each(best[2]),
        byte_by_byte: each(best[3]),
        product: each(best[4]),
        replay: each(best[1]),
    };
    Ok(([row("replay_reference", REFERENCE, best[0])?, row("replay", PRODUCT, best[1])?], fed))
}

/// A folder that goes away with its value.
struct Folder(PathBuf);

impl Folder {
    fn new() -> Result<Folder, Box<dyn Error>> {
        let path = std::env::temp_dir().join(format!("tegrwyllt-bench-{}", std::process::id()));
        fs::create_dir(&path)?;
        Ok(Folder(path))
    }
}

impl Drop for Folder {
    fn drop(&mut self) {
        // Nothing is to be done about a folder that cannot be removed.
        let _ = fs::remove_dir_all(&self.0);
    }
}

/// Random steps from reset, each drawn for the hart that the ones before leave.
pub fn trace(records: usize) -> Vec<u8> {
    let mut bytes = Vec::with_capacity(RECORD_LENGTH * records);
    let mut random = Random::new(SEED);
    let (mut hart, mut map) = (Hart::reset(), Map::reset());
    for _ in 0..records {
        let next: Step = formed(generate::step(&mut random, &hart, &map));
        step(&mut hart, &mut map, Memory::EMPTY, next);
        bytes.extend(write_record(next.to_words()));
    }
    bytes
}

fn replay(program: &str, trace: &Path, output: Stdio) -> Result<(), Box<dyn Error>> {
    let status = Command::new(program)
        .stdin(File::open(trace)?)
        .stdout(output)
        .status()
        .map_err(|error| format!("{program}: {error}"))?;
    if status.success() { Ok(()) } else { Err(format!("{program}: {status}").into()) }
}

/// Both must write the same bytes.
fn compare(folder: &Path, trace: &Path) -> Result<(), Box<dyn Error>> {
    let written = |program, name: &str| -> Result<Vec<u8>, Box<dyn Error>> {
        let path = folder.join(name);
        replay(program, trace, File::create(&path)?.into())?;
        let bytes = fs::read(&path)?;
        fs::remove_file(&path)?;
        Ok(bytes)
    };
    if written(PRODUCT, "product")? != written(REFERENCE, "reference")? {
        return Err("the two replays write different bytes".into());
    }
    Ok(())
}

/// The trace comes through a pipe that stays open, so that the program still
/// runs when it has read all, and the system can be asked for its peak.
fn peak_memory(program: &str, trace: &Path) -> Result<u64, Box<dyn Error>> {
    let bytes = fs::read(trace)?;
    let mut child = Command::new(program).stdin(Stdio::piped()).stdout(Stdio::null()).spawn()?;
    let mut input = child.stdin.take().expect("a pipe");
    input.write_all(&bytes)?;
    sleep(Duration::from_millis(200));
    let status = fs::read_to_string(format!("/proc/{}/status", child.id()))?;
    drop(input);
    child.wait()?;
    let line = status.lines().find_map(|line| line.strip_prefix("VmHWM:"));
    let number = line.and_then(|line| line.split_whitespace().next());
    Ok(number.ok_or("no VmHWM")?.parse()?)
}

/// Megabytes of the trace.
pub fn megabytes() -> f64 {
    (RECORDS * RECORD_LENGTH) as f64 / 1e6
}
