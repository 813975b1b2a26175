//! Access queries on a map of 33 ranges.

use std::hint::black_box;

use reference::capi::{self, Question};
use reference::{ANSWER_WORDS, Access, HART_WORDS, Hart, MAP_WORDS, Map, Mode, Verdict, query};

use crate::contest::{Work, contest};
use crate::mixes::setting;
use crate::one_pass::one_pass;
use crate::processor::here;

/// A multiple of the number of different questions.
const COUNT: usize = 306 * 857;

type Query = fn(&Hart, &Map, Mode, Access, u64, u64) -> Verdict;

/// Nanoseconds a query.
pub struct Row {
    pub map: f64,
    pub byte_rule: f64,
    pub product: f64,
}

/// A hart and its map, in both forms, and what is asked.
pub struct Queries {
    hart: Hart,
    map: Map,
    hart_words: [u64; HART_WORDS],
    map_words: [u64; MAP_WORDS],
    questions: Vec<(Mode, Access, Question)>,
}

/// What the answers come to: the sums of their words, place by place.
#[derive(Clone, Copy, PartialEq, Eq, Debug, Default)]
pub struct Tally([u64; ANSWER_WORDS]);

impl Tally {
    fn add(&mut self, words: [u64; ANSWER_WORDS]) {
        self.0.iter_mut().zip(words).for_each(|(sum, word)| *sum += word);
    }
}

/// Aligned accesses to the bytes of all ranges, in all modes, of all kinds.
fn questions() -> Vec<(Mode, Access, Question)> {
    let kinds = Access::ALL.into_iter().zip(0..);
    let accesses = kinds.flat_map(|kind| Mode::ALL.map(|mode| (mode, kind)));
    accesses
        .flat_map(|(mode, (access, kind))| {
            (0..34).map(move |word| {
                let size = 1 << (word % 3);
                let question = Question { mode: mode.number(), kind, address: 4 * word, size };
                (mode, access, question)
            })
        })
        .collect()
}

impl Queries {
    pub fn new() -> Queries {
        let (hart, map) = setting();
        let (hart_words, map_words) = (hart.to_words(), map.to_words());
        Queries { hart, map, hart_words, map_words, questions: questions() }
    }

    fn asked(&self, count: usize) -> impl Iterator<Item = &(Mode, Access, Question)> {
        black_box(&self.questions).iter().cycle().take(count)
    }

    fn by_query(&self, count: usize, query: Query) -> Tally {
        let mut tally = Tally::default();
        for &(mode, access, q) in self.asked(count) {
            let (hart, map) = (black_box(&self.hart), black_box(&self.map));
            tally.add(query(hart, map, mode, access, q.address, q.size).words());
        }
        tally
    }

    pub fn by_map(&self, count: usize) -> Tally {
        self.by_query(count, one_pass)
    }

    pub fn by_bytes(&self, count: usize) -> Tally {
        let mut tally = Tally::default();
        for &(mode, access, q) in self.asked(count) {
            let ruling = black_box(&self.hart).byte_rule(mode.number(), access, q.address, q.size);
            tally.add(Verdict::Ruled(ruling).words());
        }
        tally
    }

    pub fn by_product(&self, count: usize) -> Tally {
        let mut tally = Tally::default();
        let mut answer = [0; ANSWER_WORDS];
        for &(_, _, question) in self.asked(count) {
            let (hart, map) = (black_box(&self.hart_words), black_box(&self.map_words));
            capi::query(hart, map, question, &mut answer);
            tally.add(answer);
        }
        tally
    }
}

pub fn row(rounds: u32) -> Row {
    let queries = Queries::new();
    let wanted = queries.by_query(COUNT, query);
    assert_eq!(wanted, queries.by_map(COUNT), "one pass answers differently");
    assert_eq!(wanted, queries.by_product(COUNT), "the product answers queries differently");
    assert_eq!(wanted, queries.by_bytes(COUNT), "the byte rule answers differently");
    let mut contenders: [Work<'_>; 3] = [
        Box::new(|| here(|| queries.by_map(COUNT))),
        Box::new(|| here(|| queries.by_bytes(COUNT))),
        Box::new(|| here(|| queries.by_product(COUNT))),
    ];
    let best = contest(rounds, &mut contenders);
    let each = |place: usize| best[place].as_secs_f64() * 1e9 / COUNT as f64;
    Row { map: each(0), byte_rule: each(1), product: each(2) }
}
