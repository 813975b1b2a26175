//! Traces fed in scraps, with room for some answers: each feed, and all of them together
//! against the trace in one piece.

use std::fmt::{self, Display, Formatter};

use reference::random::Random;
use reference::{ANSWER_WORDS, Hart, MOST_CARRIED, RECORD_LENGTH, capi};

use crate::account::Account;
use crate::classes::Tally;
use crate::compare::map_difference;
use crate::feed_classes::{Case, FEEDS, Fed, TRACES};
use crate::feeding::{Kept, compare_feed, reader_difference, unwritten};
use crate::lent::Lent;
use crate::report::{Difference, Stage, state_difference};
use crate::sizes::Sizes;
use crate::traces::{Memory, Trace, trace};

/// How many feeds and traces there were of each class.
pub struct Feeds {
    feeds: Tally<Case>,
    traces: Tally<Fed>,
}

impl Display for Feeds {
    fn fmt(&self, formatter: &mut Formatter) -> fmt::Result {
        write!(formatter, "{} by {}", self.traces, self.feeds)
    }
}

pub fn random(sizes: &Sizes) -> Result<Feeds, Difference> {
    let mut counts =
        Feeds { feeds: Tally::new("feeds", &FEEDS), traces: Tally::new("traces", &TRACES) };
    Stage::new("feeds", sizes, sizes.feeds).run(|random, _| {
        let trace = trace(random);
        let fed = feed_in_scraps(random, &trace, &mut counts.feeds)?;
        compare_pieces(&trace, &fed)?;
        counts.traces.count(&fed);
        Ok(())
    })?;
    counts.feeds.check("feeds")?;
    counts.traces.check("feeds")?;
    Ok(counts)
}

/// Only a trace of fewer bytes is cut into short scraps alone.
const SHORT: usize = 500;

/// How the scraps of one trace are cut.
#[derive(Clone, Copy)]
enum Cut {
    Whole,
    Short,
    Records,
    Any,
}

impl Cut {
    fn length(self, random: &mut Random, rest: usize) -> usize {
        let length = match self {
            _ if random.once_in(10) => 0,
            _ if random.once_in(10) => 1,
            Cut::Whole => rest,
            Cut::Short => random.index(30),
            Cut::Records => RECORD_LENGTH * random.index(8) + random.index(3),
            Cut::Any => random.index(rest + 1),
        };
        length.min(rest)
    }
}

/// Room for some answers: enough, just enough, one too few, few or none.
fn room(random: &mut Random, length: usize) -> usize {
    let (records, enough) = (length / RECORD_LENGTH, (MOST_CARRIED + length) / RECORD_LENGTH);
    match random.below(10) {
        0 => 0,
        1 => random.index(3),
        2 => random.index(enough + 1),
        3 if records > 0 => records - 1,
        4 if records > 0 => records,
        5 | 6 => enough,
        _ => enough + random.index(4),
    }
}

/// Feeds the trace by and by, each feed with any of the memories.
fn feed_in_scraps(
    random: &mut Random,
    trace: &Trace,
    counts: &mut Tally<Case>,
) -> Result<Fed, String> {
    let short = trace.bytes.len() < SHORT && random.once_in(3);
    let cut = if short { Cut::Short } else { random.pick(&[Cut::Whole, Cut::Records, Cut::Any]) };
    let mut fed = Fed::new(trace.start.clone());
    let mut at = 0;
    // An empty trace, too, is fed.
    while at < trace.bytes.len() || fed.feeds == 0 {
        let rest = &trace.bytes[at..];
        let scrap = &rest[..cut.length(random, rest.len())];
        let room = room(random, scrap.len());
        let memory = random.index(trace.memories.len()).min(random.index(trace.memories.len()));
        let kept = lend(&fed.end, &trace.memories[memory]);
        let (end, account) = compare_feed(&kept, scrap, room)?;
        at += account.taken;
        let case = Case { kept, scrap: scrap.len(), room, account };
        counts.count(&case);
        fed.add(end, &case.account, memory, at);
    }
    fed.finish(trace);
    Ok(fed)
}

pub fn lend(kept: &Kept, (base, words): &Memory) -> Kept {
    let lent = Lent { base: *base, words: words.clone(), ..kept.lent.clone() };
    Kept { lent, ..kept.clone() }
}

/// The trace once more by the product, in one piece, or in as few as the memories that
/// its records were lent allow.
fn compare_pieces(trace: &Trace, fed: &Fed) -> Result<(), String> {
    let (mut kept, mut at) = (trace.start.clone(), 0);
    let mut answers = Vec::new();
    for &(memory, end) in &fed.pieces {
        kept = lend(&kept, &trace.memories[memory]);
        let piece = &trace.bytes[at..end];
        at = end;
        let mut given = unwritten(piece.len() / RECORD_LENGTH + 1);
        let (before, Kept { carried, place, lent }) = (kept.clone(), &mut kept);
        let memory = before.lent.memory();
        let taken =
            capi::feed(carried, place, &mut lent.hart, &mut lent.map, memory, piece, &mut given);
        if taken != piece.len() as u64 {
            return Err(format!("of a piece of {} bytes {taken} are taken", piece.len()));
        }
        given.truncate(ANSWER_WORDS * place[3].min(given.len() as u64) as usize);
        answers.extend(given);
    }
    kept.place[3] = fed.end.place[3];
    let mut text = reader_difference(&fed.end, &kept);
    if answers != fed.answers {
        text += "answers differ\n";
    }
    text += &state_difference(&fed.end.lent.hart, &kept.lent.hart);
    text += &map_difference(&fed.end.lent.map, &kept.lent.map, fed.made_anew).unwrap_or_default();
    if text.is_empty() {
        return Ok(());
    }
    Err(format!(
        "in {} feeds, for the reference below, and in {} pieces, for the product, the trace\n{}\n{text}",
        fed.feeds,
        fed.pieces.len(),
        trace.bytes.escape_ascii()
    ))
}

impl Fed {
    /// A feed more, after which so many bytes are taken. A record that it ends is lent this
    /// memory.
    fn add(&mut self, end: Kept, account: &Account, memory: usize, at: usize) {
        let begun = !self.end.carried().is_empty();
        self.feeds += 1;
        self.split |= begun && account.answers.is_empty() && account.taken > 0;
        if account.answers.is_empty() {
            self.begun_with = if begun { self.begun_with } else { memory };
        } else {
            self.changed_within |= begun && self.begun_with != memory;
            let end = at - account.left.len();
            match self.pieces.last_mut() {
                Some(piece) if piece.0 == memory => piece.1 = end,
                _ => self.pieces.push((memory, end)),
            }
            self.begun_with = memory;
        }
        self.answers.extend(account.answers.as_flattened());
        self.made_anew |= account.made_anew;
        self.broken |= account.flaw.is_some();
        self.end = end;
    }

    /// The bytes behind the last record are in the last piece.
    fn finish(&mut self, trace: &Trace) {
        match self.pieces.last_mut() {
            Some(piece) => piece.1 = trace.bytes.len(),
            None => self.pieces.push((0, trace.bytes.len())),
        }
        let one = Account::of(&trace.start, &trace.bytes, trace.bytes.len());
        self.hangs_on_memory = one.answers.as_flattened() != self.answers;
        self.unheld = !Hart::from_words(&trace.start.lent.hart).can_hold();
    }
}
