//! Records with one thing changed at every place where it can be, a short trace cut at
//! every two places, and every length and kind of word that a feed can be lent.

use std::fmt::{self, Display, Formatter};

use reference::random::Random;
use reference::{
    ANSWER_WORDS, HART_WORDS, LAST_STEP, MAP_WORDS, MOST_CARRIED, PLACE_WORDS, RECORD_LENGTH, Step,
    write_record,
};

use crate::account::Account;
use crate::feed_calls::Given;
use crate::feeding::{Kept, compare_feed, compare_left};
use crate::lent::Lent;
use crate::near_powers::{WORDS, word};
use crate::report::{Difference, Stage};
use crate::sizes::Sizes;
use crate::steps::random_step;

/// How many cases there were of each kind.
pub struct Walked {
    bytes: u64,
    steps: u64,
    arguments: u64,
    cuts: u64,
    lengths: u64,
    places: u64,
}

impl Display for Walked {
    fn fmt(&self, formatter: &mut Formatter) -> fmt::Result {
        let Walked { bytes, steps, arguments, cuts, lengths, places } = self;
        write!(
            formatter,
            "{bytes} records with one byte changed, {steps} with any step, {arguments} with any \
             argument, {cuts} traces cut at two places, {lengths} feeds of any lengths, {places} \
             with any word in the place"
        )
    }
}

pub fn walk(sizes: &Sizes) -> Result<Walked, Difference> {
    Ok(Walked {
        bytes: walk_bytes(sizes)?,
        steps: walk_steps(sizes)?,
        arguments: walk_arguments(sizes)?,
        cuts: walk_cuts(sizes)?,
        lengths: walk_lengths(sizes)?,
        places: walk_places(sizes)?,
    })
}

/// A reader between two records.
fn fresh(random: &mut Random) -> Kept {
    let place = [0, random.telling_word(), 0, random.telling_word()];
    Kept { carried: [0x77; MOST_CARRIED], place, lent: Lent::random(random) }
}

/// A record of a step that suits the state, its unused arguments being 0.
fn record(random: &mut Random, lent: &Lent) -> [u8; RECORD_LENGTH] {
    let [number, a, b] = random_step(random, lent);
    write_record(Step::from_words(number, a, b).expect("a step there is").to_words())
}

/// One record, and one more behind it, cut anywhere.
fn compare_record(
    random: &mut Random,
    kept: &Kept,
    record: [u8; RECORD_LENGTH],
) -> Result<(), String> {
    let bytes = [record, self::record(random, &kept.lent)].concat();
    let (first, second) = bytes.split_at(random.index(RECORD_LENGTH));
    let (kept, _) = compare_feed(kept, first, random.index(2))?;
    compare_feed(&kept, second, 1 + random.index(3)).map(drop)
}

/// Each place of a record with each byte.
fn walk_bytes(sizes: &Sizes) -> Result<u64, Difference> {
    let records = sizes.walks * (RECORD_LENGTH * 256) as u64;
    Stage::new("records with a byte changed", sizes, records).run(|random, case| {
        let kept = fresh(random);
        let mut record = record(random, &kept.lent);
        record[case as usize / 256 % RECORD_LENGTH] = case as u8;
        compare_record(random, &kept, record)
    })?;
    Ok(records)
}

/// Every kind of word for the number of a step.
fn walk_steps(sizes: &Sizes) -> Result<u64, Difference> {
    let records = sizes.walks * WORDS;
    Stage::new("records with any step", sizes, records).run(|random, case| {
        let kept = fresh(random);
        compare_record(random, &kept, write_record([word(case % WORDS), 0, 0]))
    })?;
    Ok(records)
}

/// Every kind of word for each argument of each step.
fn walk_arguments(sizes: &Sizes) -> Result<u64, Difference> {
    let steps = LAST_STEP + 1;
    let records = sizes.walks * 2 * steps * WORDS;
    Stage::new("records with any argument", sizes, records).run(|random, case| {
        let (step, word) = (case / 2 / WORDS % steps, word(case / 2 % WORDS));
        let arguments = if case % 2 == 0 { [step, word, 0] } else { [step, 0, word] };
        let kept = fresh(random);
        compare_record(random, &kept, write_record(arguments))
    })?;
    Ok(records)
}

/// Records of the trace that is cut, and its bytes, of which some are no whole record.
const CUT_RECORDS: usize = 3;
const CUT_BYTES: usize = RECORD_LENGTH * CUT_RECORDS + 7;

/// A trace cut at each two places, every third of them with a broken record. What it leaves
/// must be what it leaves uncut.
fn walk_cuts(sizes: &Sizes) -> Result<u64, Difference> {
    let places = CUT_BYTES + 1;
    let traces = sizes.walks * (places * places) as u64;
    Stage::new("traces cut", sizes, traces).run(|random, case| {
        let [one, other] = [case as usize % places, case as usize / places % places];
        let (first, second) = (one.min(other), one.max(other));
        let kept = fresh(random);
        let mut bytes: Vec<u8> =
            (0..=CUT_RECORDS).flat_map(|_| record(random, &kept.lent)).take(CUT_BYTES).collect();
        if random.once_in(3) {
            bytes[random.index(CUT_BYTES)] ^= 1 << random.below(8);
        }
        let scraps = [&bytes[..first], &bytes[first..second], &bytes[second..]];
        compare_scraps(random, &kept, &bytes, scraps)
    })?;
    Ok(traces)
}

fn compare_scraps(
    random: &mut Random,
    start: &Kept,
    bytes: &[u8],
    scraps: [&[u8]; 3],
) -> Result<(), String> {
    let mut kept = start.clone();
    let mut answers = Vec::new();
    for mut scrap in scraps {
        loop {
            let (left, account) = compare_feed(&kept, scrap, random.index(5))?;
            kept = left;
            answers.extend(account.answers);
            scrap = &scrap[account.taken..];
            if scrap.is_empty() {
                break;
            }
        }
    }
    let whole = Account::of(start, bytes, CUT_RECORDS + 1);
    let (carried, place) = whole.reader();
    let same = kept.carried == carried
        && kept.place[..3] == place[..3]
        && answers == whole.answers
        && kept.lent.hart == whole.hart.to_words();
    if same { Ok(()) } else { Err("the trace in scraps leaves something else than uncut".into()) }
}

/// Lengths below these, one slice at a time having another than it must.
const LENGTHS: [usize; 5] = [
    2 * MOST_CARRIED + 3,
    2 * PLACE_WORDS + 2,
    2 * HART_WORDS + 2,
    2 * MAP_WORDS + 2,
    8 * ANSWER_WORDS + 2,
];

fn walk_lengths(sizes: &Sizes) -> Result<u64, Difference> {
    let all: usize = LENGTHS.iter().sum();
    let feeds = sizes.walks * all as u64;
    Stage::new("feeds of every length", sizes, feeds).run(|random, case| {
        let mut given = Given::random(random);
        let mut length = case as usize % all;
        let mut slice = 0;
        while length >= LENGTHS[slice] {
            length -= LENGTHS[slice];
            slice += 1;
        }
        match slice {
            0 => given.carried.resize(length, b's'),
            1 => given.place.resize(length, 0),
            2 => given.hart.resize(length, 0),
            3 => given.map.resize(length, 0),
            _ => given.answers.resize(length, 0x77),
        }
        given.judge()
    })?;
    Ok(feeds)
}

/// Every kind of word for the count, the number, whether the reader has stopped, and what
/// stands where the answers are counted, of readers that have stopped and of others.
fn walk_places(sizes: &Sizes) -> Result<u64, Difference> {
    let feeds = sizes.walks * 2 * PLACE_WORDS as u64 * WORDS;
    Stage::new("feeds with any place", sizes, feeds).run(|random, case| {
        let mut kept = fresh(random);
        kept.place[2] = case % 2;
        let case = case / 2;
        kept.place[case as usize % PLACE_WORDS] = word(case / PLACE_WORDS as u64 % WORDS);
        compare_left(&kept.place)?;
        if kept.place[2] > 1 {
            let mut given = Given::random(random);
            given.place = kept.place.to_vec();
            return given.judge();
        }
        let record = record(random, &kept.lent);
        kept.carried = record[..MOST_CARRIED].try_into().expect("59 bytes");
        let rest = &record[kept.carried().len()..];
        compare_feed(&kept, rest, random.index(3)).map(drop)
    })?;
    Ok(feeds)
}
