//! The reader of a trace that comes in scraps, cut anywhere: request [1] of document 02.

use crate::answer::{ANSWER_WORDS, Answer, Refusal};
use crate::execute::step;
use crate::hart::Hart;
use crate::map::Map;
use crate::memory::Memory;
use crate::record::{RECORD_LENGTH, read_record};
use crate::step::Step;

/// The most bytes that can wait for the rest of their record.
pub const MOST_CARRIED: usize = RECORD_LENGTH - 1;
/// Number of words of a place: the bytes carried, the number of the next record, whether
/// the reader has stopped, and the answers that a feed wrote.
pub const PLACE_WORDS: usize = 4;

/// What is kept from one scrap to the next.
#[derive(Clone, Copy, PartialEq, Eq, Debug)]
pub struct Reader {
    /// The bytes of a record that is not whole, and 0 behind them.
    carried: [u8; MOST_CARRIED],
    count: usize,
    number: u64,
    stopped: bool,
}

/// What a record gives once its last byte is there.
#[derive(Clone, Copy, PartialEq, Eq, Debug)]
pub enum Reading {
    /// The step and its answer, a refusal being one like others.
    Stepped(Step, Answer),
    /// The record of this number is broken.
    Broken(u64),
}

impl Reading {
    pub fn words(self) -> [u64; ANSWER_WORDS] {
        match self {
            Reading::Stepped(_, answer) => answer.words(),
            Reading::Broken(number) => {
                let [kind, refusal, _, last] = Answer::Refused(Refusal::Record).words();
                [kind, refusal, number, last]
            }
        }
    }
}

impl Reader {
    /// Before the first byte of a trace.
    pub const START: Reader =
        Reader { carried: [0; MOST_CARRIED], count: 0, number: 0, stopped: false };

    /// The reader of these bytes and the first three words of a place, if there is one:
    /// the third is 0 or 1. A count above 59 is read as 59, and nothing is carried by a
    /// reader that has stopped.
    pub fn from_words(carried: &[u8; MOST_CARRIED], place: &[u64; PLACE_WORDS]) -> Option<Reader> {
        let [count, number, stopped, _] = *place;
        match stopped {
            0 => {
                let count = count.min(MOST_CARRIED as u64) as usize;
                let mut reader = Reader { number, count, ..Reader::START };
                reader.carried[..count].copy_from_slice(&carried[..count]);
                Some(reader)
            }
            1 => Some(Reader { number, stopped: true, ..Reader::START }),
            _ => None,
        }
    }

    /// The bytes, 0 behind those carried, and the first three words of a place.
    pub fn to_words(&self) -> ([u8; MOST_CARRIED], [u64; PLACE_WORDS - 1]) {
        (self.carried, [self.count as u64, self.number, u64::from(self.stopped)])
    }

    /// How many bytes short of a record there are.
    pub fn left(&self) -> usize {
        self.count
    }

    /// Whether a record was broken.
    pub fn has_stopped(&self) -> bool {
        self.stopped
    }

    /// Whether the next byte would be the last of its record.
    pub fn awaits_last(&self) -> bool {
        !self.stopped && self.count == MOST_CARRIED
    }

    /// Takes one byte. The hart steps if it is the last of a record.
    pub fn take(
        &mut self,
        hart: &mut Hart,
        map: &mut Map,
        memory: Memory,
        byte: u8,
    ) -> Option<Reading> {
        if self.stopped {
            return None;
        }
        if self.count < MOST_CARRIED {
            self.carried[self.count] = byte;
            self.count += 1;
            return None;
        }
        let mut record = [byte; RECORD_LENGTH];
        record[..MOST_CARRIED].copy_from_slice(&self.carried);
        (self.carried, self.count) = ([0; MOST_CARRIED], 0);
        Some(self.take_record(hart, map, memory, &record))
    }

    /// Takes a whole record, where none is begun and the reader has not stopped.
    pub fn take_record(
        &mut self,
        hart: &mut Hart,
        map: &mut Map,
        memory: Memory,
        record: &[u8; RECORD_LENGTH],
    ) -> Reading {
        debug_assert!(self.count == 0 && !self.stopped);
        let Some(next) = read_record(record) else {
            self.stopped = true;
            return Reading::Broken(self.number);
        };
        self.number = self.number.wrapping_add(1);
        Reading::Stepped(next, step(hart, map, memory, next))
    }

    /// Takes the bytes of a scrap up to the first whose answer has no room. Gives how many
    /// bytes it took, and how many answers it wrote.
    pub fn feed(
        &mut self,
        hart: &mut Hart,
        map: &mut Map,
        memory: Memory,
        scrap: &[u8],
        answers: &mut [[u64; ANSWER_WORDS]],
    ) -> (usize, usize) {
        let mut written = 0;
        for (place, &byte) in scrap.iter().enumerate() {
            if self.awaits_last() && written == answers.len() {
                return (place, written);
            }
            if let Some(reading) = self.take(hart, map, memory, byte) {
                answers[written] = reading.words();
                written += 1;
            }
        }
        (scrap.len(), written)
    }
}
