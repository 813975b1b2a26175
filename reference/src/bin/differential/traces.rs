//! Random traces: whole, damaged and cut off, with a reader to start from.

use std::rc::Rc;

use reference::csr::number::{PMPADDR0, PMPCFG0, PMPCFG2};
use reference::generate::Paging;
use reference::random::Random;
use reference::{
    HART_WORDS, MAP_WORDS, MOST_CARRIED, RECORD_LENGTH, STEP_WORDS, Step, generate, write_record,
};

use crate::feeding::Kept;
use crate::lent::Lent;
use crate::steps::random_step;

/// The base of a memory and its words.
pub type Memory = (u64, Rc<[u64]>);

/// Bytes to be fed, with what the first feed finds, and memories to lend.
pub struct Trace {
    pub start: Kept,
    pub bytes: Vec<u8>,
    pub memories: Vec<Memory>,
}

/// The word of pmpcfg0 in a hart; pmpcfg2 and the pmpaddr registers follow.
const CONFIGURATION: usize = 23;

/// Of the traces that are not short, one in so many is long.
const LONG: u64 = 128;

pub fn trace(random: &mut Random) -> Trace {
    let paging = random.once_in(3).then(|| generate::paging(random));
    let lent = start(random, paging.as_ref());
    let memories = memories(random, &lent);
    let records = match random.below(16) {
        0 if random.once_in(LONG) => 1000 + random.index(2000),
        0 => random.index(150),
        1 | 2 => random.index(40),
        _ => random.index(12),
    };
    let mut bytes = records_for(random, &lent, paging.as_ref(), records);
    if random.once_in(3) {
        damage(random, &mut bytes);
    }
    if random.once_in(2) {
        let more = write_record(random_step(random, &lent));
        bytes.extend(&more[..random.index(RECORD_LENGTH)]);
    }
    let (carried, place, begun) = reader(random, &bytes);
    bytes.drain(..begun);
    Trace { start: Kept { carried, place, lent }, bytes, memories }
}

fn start(random: &mut Random, paging: Option<&Paging>) -> Lent {
    let lent = Lent::random(random);
    let Some(paging) = paging else {
        if random.once_in(12) {
            let hart = std::array::from_fn::<u64, HART_WORDS, _>(|_| random.word());
            return Lent { hart, map: any_words(random), ..lent };
        }
        return lent;
    };
    Lent { hart: paging.hart.to_words(), ..lent }
        .with_memory(paging.base, Rc::from(paging.words.as_slice()))
}

fn any_words(random: &mut Random) -> [u64; MAP_WORDS] {
    std::array::from_fn(|_| random.telling_word())
}

/// That of the start, and, mostly, others: fewer of its words, at another address, or none
/// like it.
fn memories(random: &mut Random, lent: &Lent) -> Vec<Memory> {
    let mut memories = vec![(lent.base, lent.words.clone())];
    while !random.once_in(3) {
        let fewer = random.index(lent.words.len() + 1);
        memories.push(match random.below(5) {
            0 => (lent.base, Rc::from(&lent.words[..fewer])),
            1 => (lent.base ^ 1 << random.below(12), lent.words.clone()),
            2 => (lent.base.wrapping_add(0x1000), lent.words.clone()),
            3 => (0, Rc::new([])),
            _ => {
                let (base, words) = generate::memory(random);
                (base, words.into())
            }
        });
    }
    memories
}

/// Records in order, each drawn for what the ones before leave.
fn records_for(
    random: &mut Random,
    start: &Lent,
    paging: Option<&Paging>,
    records: usize,
) -> Vec<u8> {
    let mut lent = start.clone();
    let mut bytes = Vec::with_capacity(RECORD_LENGTH * (records + 1));
    let mut back = None;
    for _ in 0..records {
        let words = match (back.take(), paging) {
            (Some(back), _) => back,
            (None, Some(paging)) if !random.once_in(4) => paging.step(random),
            _ if random.once_in(16) => [0, 0, 0],
            _ if random.once_in(16) => {
                let [there, again] = there_and_back(random, &lent);
                back = Some(again);
                there
            }
            _ => random_step(random, &lent),
        };
        let words = used(words);
        lent = lent.reference_step(words).0;
        bytes.extend(write_record(words));
    }
    bytes
}

/// Another value for a protection register, and then the one that it has.
fn there_and_back(random: &mut Random, lent: &Lent) -> [[u64; STEP_WORDS]; 2] {
    let place = random.index(18);
    let number = [PMPCFG0, PMPCFG2].get(place).copied().unwrap_or(PMPADDR0 + place as u64 - 2);
    let held = lent.hart[CONFIGURATION + place];
    [[1, number, held ^ 1 << random.below(8)], [1, number, held]]
}

/// The same step with 0 in the arguments that it does not use.
fn used([number, a, b]: [u64; STEP_WORDS]) -> [u64; STEP_WORDS] {
    Step::from_words(number, a, b).expect("a step there is").to_words()
}

/// Bytes to put anywhere: digits and their neighbours, and what ends lines.
const TELLING: &[u8] = b"0123456789abcdefAFgG/:@`= \r\n\0s+\x80\xFF";
/// Numbers of no step. Cut to fewer bits, some would be.
const NO_STEPS: [u64; 10] = [18, 18, 19, 20, 31, 0x100, 0x111, 1 << 32 | 4, 1 << 63 | 1, u64::MAX];

/// One record spoilt, mostly.
fn damage(random: &mut Random, bytes: &mut Vec<u8>) {
    let records = bytes.len() / RECORD_LENGTH;
    if records == 0 {
        return;
    }
    // One of the later ones, more often.
    let record = random.index(records).max(random.index(records));
    let range = RECORD_LENGTH * record..RECORD_LENGTH * (record + 1);
    let place = range.start + random.index(RECORD_LENGTH);
    let words = match random.below(8) {
        0 | 1 => {
            bytes[place] = random.pick(TELLING);
            return;
        }
        2 => {
            bytes[place] ^= 1 << random.below(8);
            return;
        }
        3 if random.once_in(2) => {
            bytes.insert(place, random.pick(TELLING));
            return;
        }
        3 => {
            bytes.remove(place);
            return;
        }
        4 => [random.pick(&NO_STEPS), 0, 0],
        5 => [18, random.below(9), 0],
        _ => unused(random),
    };
    bytes.splice(range, write_record(words));
}

/// A step with an argument that it does not use, which is not 0.
fn unused(random: &mut Random) -> [u64; STEP_WORDS] {
    let word = random.telling_word().max(1);
    let number = random.pick(&[0, 4, 6, 7, 8, 9, 10, 11, 12, 13, 14]);
    match number {
        4 | 6 | 13 => [number, random.telling_word(), word],
        _ if random.once_in(2) => [number, word, 0],
        _ => [number, 0, word],
    }
}

/// Carried bytes, a place, and how many of the bytes are those carried.
fn reader(random: &mut Random, bytes: &[u8]) -> ([u8; MOST_CARRIED], [u64; 4], usize) {
    let mut carried: [u8; MOST_CARRIED] = std::array::from_fn(|_| random.word() as u8);
    let count = match random.below(8) {
        0..=3 => 0,
        4 | 5 => random.below(60),
        6 => 59,
        _ => 60 + random.pick(&[0, 1, 59, 60, 195, 196, 196 + 7, (1 << 32) - 60, u64::MAX - 60]),
    };
    let begun = bytes.len().min(count.min(59) as usize);
    // Else what is carried is no record that was begun.
    if !random.once_in(16) {
        carried[..begun].copy_from_slice(&bytes[..begun]);
    }
    let number = match random.below(4) {
        0 => 0,
        1 => u64::MAX - random.below(8),
        _ => random.telling_word(),
    };
    let stopped = u64::from(random.once_in(16));
    (carried, [count, number, stopped, random.telling_word()], begun)
}
