//! A trace fed in scraps that cut records, by the reference and by the product.

use std::hint::black_box;

use reference::{
    ANSWER_WORDS, HART_WORDS, Hart, MAP_WORDS, MOST_CARRIED, Map, Memory, PLACE_WORDS,
    RECORD_LENGTH, Reader, Reading, capi,
};

use crate::checksum::Checksum;
use crate::replays;

/// Bytes of a scrap: no whole number of records.
pub const SCRAP: usize = 1 << 16;
/// Room for the answers of a scrap.
const ROOM: usize = SCRAP / RECORD_LENGTH + 1;

type Answers = [[u64; ANSWER_WORDS]];
/// Takes the bytes of a scrap; gives how many, and how many answers it wrote.
type Feed = fn(&mut Reader, &mut Hart, &mut Map, &[u8], &mut Answers) -> (usize, usize);

/// What answers and end state come to, the number of the next record, and the bytes left.
#[derive(Clone, Copy, PartialEq, Eq, Debug)]
pub struct Fed(Checksum, u64, u64);

pub struct Feeds {
    pub trace: Vec<u8>,
}

impl Feeds {
    pub fn new(records: usize) -> Feeds {
        Feeds { trace: replays::trace(records) }
    }

    /// The first records, and a part of the next where there is one.
    fn scraps(&self, records: usize) -> impl Iterator<Item = &[u8]> {
        let length = self.trace.len().min(RECORD_LENGTH * records + RECORD_LENGTH / 2);
        black_box(&self.trace[..length]).chunks(SCRAP)
    }

    fn by(&self, records: usize, feed: Feed) -> Fed {
        let (mut hart, mut map) = (Hart::reset(), Map::reset());
        let mut reader = Reader::START;
        let mut answers = [[0; ANSWER_WORDS]; ROOM];
        let mut sum = Checksum::default();
        for scrap in self.scraps(records) {
            let (taken, written) = feed(&mut reader, &mut hart, &mut map, scrap, &mut answers);
            assert_eq!(taken, scrap.len(), "there is room for all answers");
            answers[..written].iter().for_each(|&answer| sum.add_answer(answer));
        }
        sum.add_left(&hart.to_words(), &map.to_words());
        let [left, number, _] = reader.to_words().1;
        Fed(sum, number, left)
    }

    /// As a plain Rust program would: whole records where they lie, and only those that
    /// are cut by their bytes.
    pub fn by_records(&self, records: usize) -> Fed {
        self.by(records, whole_records)
    }

    /// As the reference does, for clarity.
    pub fn byte_by_byte(&self, records: usize) -> Fed {
        self.by(records, |reader, hart, map, scrap, answers| {
            reader.feed(hart, map, Memory::EMPTY, scrap, answers)
        })
    }

    pub fn by_product(&self, records: usize) -> Fed {
        let (mut hart, mut map): ([u64; HART_WORDS], [u64; MAP_WORDS]) =
            (Hart::reset().to_words(), Map::reset().to_words());
        let (mut carried, mut place) = ([0; MOST_CARRIED], [0; PLACE_WORDS]);
        let mut answers = [0; ANSWER_WORDS * ROOM];
        let mut sum = Checksum::default();
        for scrap in self.scraps(records) {
            let memory = Memory::EMPTY;
            let taken = capi::feed(
                &mut carried,
                &mut place,
                &mut hart,
                &mut map,
                memory,
                scrap,
                &mut answers,
            );
            assert_eq!(taken, scrap.len() as u64, "there is room for all answers");
            let written = &answers.as_chunks().0[..place[3] as usize];
            written.iter().for_each(|&answer| sum.add_answer(answer));
        }
        sum.add_left(&hart, &map);
        Fed(sum, place[1], capi::left(&place))
    }

    /// All must answer and leave the same, also where a record is broken.
    pub fn compare(&self) -> Result<(), String> {
        let mut damaged = self.trace[..self.trace.len() / 4].to_vec();
        let middle = damaged.len() / 2;
        damaged[middle] = b'x';
        self.same()?;
        Feeds { trace: damaged }.same()
    }

    fn same(&self) -> Result<(), String> {
        for records in [self.trace.len() / RECORD_LENGTH, 5_000] {
            let wanted = self.byte_by_byte(records);
            let found = [self.by_records(records), self.by_product(records)];
            if found != [wanted; 2] {
                return Err(format!("feeds: {found:?} in place of {wanted:?}"));
            }
        }
        Ok(())
    }
}

fn whole_records(
    reader: &mut Reader,
    hart: &mut Hart,
    map: &mut Map,
    scrap: &[u8],
    answers: &mut Answers,
) -> (usize, usize) {
    let memory = Memory::EMPTY;
    let begun = match reader.left() {
        0 => 0,
        left => scrap.len().min(RECORD_LENGTH - left),
    };
    let (mut taken, mut written) = reader.feed(hart, map, memory, &scrap[..begun], answers);
    if taken == begun && reader.left() == 0 && !reader.has_stopped() {
        let records = scrap[begun..].as_chunks().0.iter();
        for (record, answer) in records.zip(&mut answers[written..]) {
            let reading = reader.take_record(hart, map, memory, record);
            *answer = reading.words();
            taken += RECORD_LENGTH;
            written += 1;
            if let Reading::Broken(_) = reading {
                break;
            }
        }
    }
    let rest = reader.feed(hart, map, memory, &scrap[taken..], &mut answers[written..]);
    (taken + rest.0, written + rest.1)
}
