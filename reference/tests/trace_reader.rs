//! Request [1] of document 02, sentence by sentence: a trace in scraps, cut anywhere.

mod common;

use std::io::{self, Read};

use common::{READ, WRITE, hart_with, odd_map};
use reference::{
    ANSWER_WORDS, Hart, MOST_CARRIED, Map, Memory, RECORD_LENGTH, Reader, Reading, Step, make,
    replay, step, write_record,
};

type Words = [u64; ANSWER_WORDS];

/// What answers hold before a feed, unlike any answer.
const UNWRITTEN: Words = [u64::MAX, 0x5555, 0xAAAA, 0x3333];
const ECALL: [u64; 3] = [11, 0, 0];

/// A reader, its hart and its map.
#[derive(Clone, Copy, PartialEq, Eq, Debug)]
struct Fed {
    reader: Reader,
    hart: Hart,
    map: Map,
}

impl Fed {
    fn new() -> Fed {
        Fed::with(Hart::reset(), Map::reset())
    }

    fn with(hart: Hart, map: Map) -> Fed {
        Fed { reader: Reader::START, hart, map }
    }

    /// Gives the bytes taken and the answers written; no others may be.
    fn feed(&mut self, scrap: &[u8], room: usize) -> (usize, Vec<Words>) {
        self.feed_with(Memory::EMPTY, scrap, room)
    }

    fn feed_with(&mut self, memory: Memory, scrap: &[u8], room: usize) -> (usize, Vec<Words>) {
        let mut answers = vec![UNWRITTEN; room];
        let Fed { reader, hart, map } = self;
        let (taken, written) = reader.feed(hart, map, memory, scrap, &mut answers);
        assert!(answers[written..].iter().all(|&answer| answer == UNWRITTEN));
        answers.truncate(written);
        (taken, answers)
    }

    /// With room for all; every byte must be taken.
    fn feed_all(&mut self, scrap: &[u8]) -> Vec<Words> {
        let (taken, answers) = self.feed(scrap, scrap.len() / RECORD_LENGTH + 1);
        assert_eq!(taken, scrap.len());
        answers
    }

    /// The words of the place: count, number, whether stopped.
    fn place(&self) -> [u64; 3] {
        self.reader.to_words().1
    }

    fn carried(&self) -> Vec<u8> {
        self.reader.to_words().0.to_vec()
    }
}

fn trace(steps: &[[u64; 3]]) -> Vec<u8> {
    steps.iter().flat_map(|&words| write_record(words)).collect()
}

fn broken(number: u64) -> Words {
    [5, 8, number, 0]
}

/// A reader between records, before that of this number.
fn before(number: u64) -> Reader {
    Reader::from_words(&[0; MOST_CARRIED], &[0, number, 0, 0]).unwrap()
}

/// Steps with answers of all kinds, the map compiled, and one refused.
fn mixed() -> Vec<[u64; 3]> {
    vec![
        [WRITE, 0x3B0, 3],
        [WRITE, 0x3A0, 0x90],
        [15, 8, 8],
        [15, 0, 3],
        [READ, 0x3B0, 0],
        [0, 0, 0],
        [17, 5, 6],
    ]
}

/// The trace by whole records, with no reader: answers, and what is left.
fn whole(start: &Fed, bytes: &[u8]) -> (Vec<Words>, Hart, Map, [u64; 3]) {
    let Fed { mut hart, mut map, .. } = *start;
    let [_, mut number, _] = start.place();
    let mut answers = Vec::new();
    let (records, rest) = bytes.as_chunks::<RECORD_LENGTH>();
    for record in records {
        let Some(next) = plainly(record) else {
            answers.push(broken(number));
            return (answers, hart, map, [0, number, 1]);
        };
        answers.push(step(&mut hart, &mut map, Memory::EMPTY, next).words());
        number = number.wrapping_add(1);
    }
    (answers, hart, map, [rest.len() as u64, number, 0])
}

/// The step of a record, read by other means than the model's.
fn plainly(record: &[u8]) -> Option<Step> {
    let text = std::str::from_utf8(record).ok()?;
    let lines: Vec<&str> = text.split('\n').collect();
    let [step, a, b, ""] = lines[..] else { return None };
    let word = |line: &str, key: &str| {
        let digits = line.strip_prefix(key)?;
        let plain =
            digits.len() == 16 && digits.bytes().all(|byte| b"0123456789abcdef".contains(&byte));
        plain.then(|| u64::from_str_radix(digits, 16).ok())?
    };
    let words = [word(step, "step=")?, word(a, "a=")?, word(b, "b=")?];
    let used = match words[0] {
        0 | 7..=12 | 14 => 0,
        4 | 6 | 13 => 1,
        1..=3 | 5 | 15..=17 => 2,
        _ => return None,
    };
    let unused = &words[1 + used..];
    unused.iter().all(|&word| word == 0).then(|| Step::from_words(words[0], words[1], words[2]))?
}

#[test]
fn a_record_is_60_bytes_and_the_hart_steps_at_each() {
    let mut fed = Fed::new();
    let record = write_record([WRITE, 0x340, 0xAB]);
    assert_eq!(record.len(), 60);
    assert!(fed.feed_all(&record[..59]).is_empty());
    assert_eq!((fed.hart, fed.place()), (Hart::reset(), [59, 0, 0]));
    assert_eq!(fed.feed_all(&record[59..]), [[1, 0, 0, 0]]);
    assert_eq!((fed.hart.mscratch, fed.place()), (0xAB, [0, 1, 0]));
}

#[test]
fn however_cut_in_two_and_three_all_is_the_same() {
    let damaged = trace(&[mixed(), vec![[18, 0, 0]], mixed()].concat());
    for bytes in [trace(&mixed()[..3]), trace(&mixed()), damaged] {
        for end in [bytes.len(), bytes.len() - 1, bytes.len() - 31] {
            let bytes = &bytes[..end];
            let start = Fed { reader: before(u64::MAX - 2), ..Fed::with(Hart::reset(), odd_map()) };
            let expected = whole(&start, bytes);
            let thirds = if bytes.len() < 181 { 1 } else { 7 };
            for first in 0..=end {
                for second in (first..=end).step_by(thirds) {
                    let mut fed = start;
                    let scraps = [&bytes[..first], &bytes[first..second], &bytes[second..]];
                    let answers = scraps.map(|scrap| fed.feed_all(scrap)).concat();
                    let found = (answers, fed.hart, fed.map, fed.place());
                    assert_eq!(found, expected, "cut at {first} and {second}");
                    let left = if fed.place()[2] == 1 { 0 } else { end % 60 };
                    assert_eq!(fed.reader.left(), left);
                    assert_eq!(fed.carried()[..left], bytes[end - left..]);
                    assert!(fed.carried()[left..].iter().all(|&byte| byte == 0));
                }
            }
        }
    }
}

#[test]
fn byte_by_byte_with_empty_scraps_between() {
    let bytes = trace(&[mixed(), vec![ECALL, [4, 0, 1]]].concat());
    let expected = whole(&Fed::new(), &bytes);
    let mut fed = Fed::new();
    let mut answers = Vec::new();
    for byte in bytes {
        answers.extend(fed.feed_all(&[byte]));
        let before = fed;
        assert_eq!(fed.feed(&[], 0), (0, vec![]));
        assert_eq!(fed.feed(&[], 3), (0, vec![]));
        assert_eq!(fed, before);
    }
    assert_eq!((answers, fed.hart, fed.map, fed.place()), expected);
}

#[test]
fn a_step_number_above_17_is_refusal_8() {
    for number in [18, 19, 31, 32, 255, 256, 1 << 32, 1 << 32 | 4, 1 << 63, u64::MAX] {
        let mut fed = Fed::new();
        assert_eq!(fed.feed_all(&trace(&[ECALL, [number, 0, 0], ECALL]))[1..], [broken(1)]);
    }
    for number in 0..18 {
        let mut fed = Fed::new();
        assert_eq!(fed.feed_all(&trace(&[[number, 0, 0]])).len(), 1);
        assert_eq!(fed.place(), [0, 1, 0]);
    }
}

#[test]
fn an_unused_argument_that_is_not_0_is_refusal_8() {
    let values = [1, 2, 0x80, 1 << 32, 1 << 63, u64::MAX];
    for number in 0..18 {
        let used = match number {
            0 | 7..=12 | 14 => 0,
            4 | 6 | 13 => 1,
            _ => 2,
        };
        for value in values {
            for (place, words) in [[number, value, 0], [number, 0, value]].into_iter().enumerate() {
                let mut fed = Fed::new();
                let answers = fed.feed_all(&trace(&[words]));
                assert_eq!(answers == [broken(0)], place >= used, "{words:x?}");
                assert_eq!(fed.place()[2] == 1, place >= used);
            }
        }
    }
}

/// Every byte of a record changed to every other one: of the places with a digit, just
/// the digits make no broken line, and then the step or an unused argument may be broken.
#[test]
fn a_broken_line_is_refusal_8_at_every_byte() {
    let digit_places: Vec<usize> = (5..21).chain(24..40).chain(43..59).collect();
    for words in [[1, 0x340, 5], [4, 0x340, 0], [12, 0, 0], [17, 1, 2]] {
        let record = write_record(words);
        for place in 0..RECORD_LENGTH {
            let mut taken = 0;
            for byte in (0..=255).filter(|&byte| byte != record[place]) {
                let mut damaged = record;
                damaged[place] = byte;
                let mut fed = Fed::new();
                let answers = fed.feed_all(&damaged);
                let is_broken = answers == [broken(0)];
                assert_eq!(is_broken, plainly(&damaged).is_none(), "{byte} at {place}");
                assert_eq!(is_broken, fed.place() == [0, 0, 1]);
                taken += usize::from(!is_broken);
            }
            let most = if digit_places.contains(&place) { 15 } else { 0 };
            assert!(taken <= most);
            let argument = (words[0] == 1 || words[0] == 17) && place > 22;
            assert!(!argument || taken == most);
        }
    }
}

#[test]
fn a_record_is_judged_with_its_last_byte_alone() {
    let flaws =
        [trace(&[[18, 0, 0]]), trace(&[[12, 1, 0]]), vec![b'x'; 60], vec![0; 60], vec![0xFF; 60]];
    for bytes in flaws {
        for cut in 0..60 {
            let mut fed = Fed::new();
            assert!(fed.feed_all(&bytes[..cut]).is_empty());
            assert_eq!(fed.place(), [cut as u64, 0, 0]);
            assert_eq!(fed.carried()[..cut], bytes[..cut]);
            assert_eq!(fed.feed_all(&bytes[cut..]), [broken(0)]);
            assert_eq!((fed.hart, fed.place()), (Hart::reset(), [0, 0, 1]));
        }
    }
}

#[test]
fn record_numbers_wrap() {
    let mut fed = Fed { reader: before(u64::MAX), ..Fed::new() };
    assert_eq!(fed.feed_all(&trace(&[ECALL])).len(), 1);
    assert_eq!(fed.place(), [0, 0, 0]);
    assert_eq!(fed.feed_all(&trace(&[ECALL, [99, 0, 0]]))[1..], [broken(1)]);
    let mut fed = Fed { reader: before(u64::MAX), ..Fed::new() };
    assert_eq!(fed.feed_all(&trace(&[[99, 0, 0], ECALL])), [broken(u64::MAX)]);
    assert_eq!(fed.place(), [0, u64::MAX, 1]);
    let mut fed = Fed { reader: before(u64::MAX - 1), ..Fed::new() };
    assert_eq!(
        fed.feed_all(&trace(&[ECALL, [15, 0, 3], [99, 0, 0]]))[1..],
        [[5, 1, 0, 0], broken(0)]
    );
}

#[test]
fn later_bytes_are_ignored_and_nothing_is_left() {
    let bytes = [trace(&[ECALL, [18, 0, 0], [WRITE, 0x340, 7]]), vec![b's'; 59]].concat();
    let expected = whole(&Fed::new(), &bytes);
    for room in [2, 3, 9] {
        let mut fed = Fed::new();
        assert_eq!(fed.feed(&bytes, room), (bytes.len(), expected.0.clone()));
        assert_eq!((fed.hart, fed.map, fed.place()), (expected.1, expected.2, [0, 1, 1]));
        let stopped = fed;
        for scrap in [&[][..], &bytes[..1], &bytes[..60], &bytes] {
            for room in [0, 1, 5] {
                assert_eq!(fed.feed(scrap, room), (scrap.len(), vec![]));
                assert_eq!(fed, stopped);
                assert_eq!(fed.reader.left(), 0);
            }
        }
    }
    // The refusal needs room for its answer as any other.
    let mut fed = Fed::new();
    assert_eq!(fed.feed(&bytes, 1), (119, expected.0[..1].to_vec()));
    assert_eq!(fed.place(), [59, 1, 0]);
    assert_eq!(fed.feed(&bytes[119..], 0), (0, vec![]));
    assert_eq!(fed.feed(&bytes[119..], 1), (bytes.len() - 119, vec![broken(1)]));
}

#[test]
fn a_refused_step_is_an_answer_and_counts() {
    let unlawful = Memory { words: &[], base: 4 };
    let steps = [[15, 0, 3], [READ, 4096, 0], [5, 8, 0], [6, 1, 0], [14, 0, 0], ECALL, [20, 0, 0]];
    let mut fed = Fed::new();
    let (taken, answers) = fed.feed_with(unlawful, &trace(&steps), 7);
    assert_eq!(taken, 7 * 60);
    let numbers: Vec<u64> = answers.iter().map(|answer| answer[1]).collect();
    assert_eq!(numbers[..5], [13, 2, 2, 2, 13]);
    assert!(answers[..5].iter().all(|answer| answer[0] == 5 && answer[2..] == [0, 0]));
    assert_eq!(answers[6], broken(6));
    assert_eq!(fed.hart.mcause, 11);
    assert_eq!(Fed::new().feed_all(&trace(&steps[..1])), [[5, 1, 0, 0]]);
}

#[test]
fn refusal_3_is_each_steps_own() {
    let bad = Hart { mode: 2, ..Hart::reset() };
    let steps: Vec<[u64; 3]> = (1..18).map(|number| [number, 0, 0]).collect();
    let healed = [[0, 0, 0], ECALL];
    let mut fed = Fed::with(bad, odd_map());
    assert_eq!(fed.feed_all(&trace(&steps)), vec![[5, 3, 0, 0]; 17]);
    assert_eq!((fed.hart, fed.map, fed.place()), (bad, odd_map(), [0, 17, 0]));
    assert_eq!(fed.feed_all(&trace(&healed)), [[0; 4], [4, 11, 3, 16]]);
    assert_eq!((fed.map, fed.place()), (Map::reset(), [0, 19, 0]));
    // Refusal 8 is the reader's, whatever the state is.
    for words in [[18, 0, 0], [0, 1, 0], [11, 0, 1]] {
        let mut fed = Fed::with(bad, odd_map());
        assert_eq!(fed.feed_all(&trace(&[ECALL, words, [0, 0, 0]])), [[5, 3, 0, 0], broken(1)]);
        assert_eq!((fed.hart, fed.map), (bad, odd_map()));
    }
}

#[test]
fn a_carried_count_above_59_is_read_as_59() {
    let record = write_record([WRITE, 0x340, 0xAB]);
    let carried = *record.first_chunk::<MOST_CARRIED>().unwrap();
    for count in [59, 60, 61, 118, 119, 120, 255, 256, 256 + 7, 1 << 32, 1 << 63, u64::MAX] {
        let reader = Reader::from_words(&carried, &[count, 5, 0, 0]).unwrap();
        assert_eq!((reader.left(), reader.to_words()), (59, (carried, [59, 5, 0])));
        let mut fed = Fed { reader, ..Fed::new() };
        assert_eq!(fed.feed(b"\n", 0), (0, vec![]));
        assert_eq!(fed.feed(b"\n", 1), (1, vec![[1, 0, 0, 0]]));
        assert_eq!((fed.hart.mscratch, fed.place()), (0xAB, [0, 6, 0]));
        let mut fed = Fed { reader, ..Fed::new() };
        assert_eq!(fed.feed_all(b"x"), [broken(5)]);
    }
}

#[test]
fn bytes_behind_the_count_are_0() {
    let filled = [0xEE; MOST_CARRIED];
    for count in 0..=MOST_CARRIED {
        let reader = Reader::from_words(&filled, &[count as u64, 9, 0, 7]).unwrap();
        let (carried, place) = reader.to_words();
        assert_eq!(place, [count as u64, 9, 0]);
        assert!(
            carried[..count] == filled[..count] && carried[count..].iter().all(|&byte| byte == 0)
        );
        let stopped = Reader::from_words(&filled, &[count as u64, 9, 1, 7]).unwrap();
        assert_eq!((stopped.left(), stopped.to_words()), (0, ([0; MOST_CARRIED], [0, 9, 1])));
    }
    for stopped in [2, 3, 256, 1 << 32, 1 << 32 | 1, 1 << 63, u64::MAX] {
        assert_eq!(Reader::from_words(&filled, &[0, 0, stopped, 0]), None);
    }
    // Also where a record has come and gone.
    let mut fed = Fed::new();
    fed.feed_all(&[&trace(&[ECALL])[..], b"step="].concat());
    assert!(fed.carried()[..5] == *b"step=" && fed.carried()[5..].iter().all(|&byte| byte == 0));
}

/// With room for n answers and c bytes carried, 60*n+59-c bytes at most.
#[test]
fn a_feed_takes_what_it_has_room_to_answer() {
    let bytes = trace(&[ECALL; 6]);
    for carried in 0..60 {
        for room in 0..5 {
            let mut fed = Fed::new();
            fed.feed_all(&bytes[..carried]);
            let most = 60 * room + 59 - carried;
            for length in [0, most.saturating_sub(1), most, most + 1, most + 60, 359 - carried] {
                let length = length.min(360 - carried);
                let mut fed = fed;
                let (taken, answers) = fed.feed(&bytes[carried..][..length], room);
                assert_eq!(taken, length.min(most));
                assert_eq!(answers.len(), (carried + taken) / 60);
                assert_eq!(fed.reader.left(), (carried + taken) % 60);
            }
        }
    }
}

#[test]
fn any_rooms_lead_to_the_same_end() {
    let bytes = trace(&[mixed(), mixed(), vec![[7, 1, 0]], mixed()].concat());
    let expected = whole(&Fed::new(), &bytes);
    for scrap in [1, 7, 59, 60, 61, 200, bytes.len()] {
        for rooms in [[1, 1, 1], [0, 1, 0], [2, 0, 3], [0, 0, 1]] {
            let (mut fed, mut answers, mut at) = (Fed::new(), Vec::new(), 0);
            for room in rooms.into_iter().cycle() {
                let (taken, more) = fed.feed(&bytes[at..bytes.len().min(at + scrap)], room);
                at += taken;
                answers.extend(more);
                if at == bytes.len() {
                    break;
                }
            }
            assert_eq!((answers, fed.hart, fed.map, fed.place()), expected);
        }
    }
}

#[test]
fn the_map_is_made_anew_only_where_a_step_makes_it() {
    let write = write_record([WRITE, 0x3B0, 7]);
    let mut fed = Fed::with(hart_with(0, &[(0x10, 3)]), odd_map());
    fed.feed_all(&trace(&[ECALL, [WRITE, 0x3B0, 3], [15, 0, 8], [15, 0, 3]]));
    fed.feed_all(&write[..59]);
    assert_eq!(fed.map, odd_map());
    fed.feed_all(&write[59..]);
    assert_eq!(fed.map, hart_with(0, &[(0x10, 7)]).compile());
    let mut fed = Fed::with(make(4).0, odd_map());
    fed.feed_all(&trace(&[[0, 0, 0]]));
    assert_eq!((fed.hart.grain, fed.map), (4, Map::reset()));
}

/// [8]: the slice and address that count are those lent with a record's last byte.
#[test]
fn the_memory_of_a_record_is_that_of_its_last_byte() {
    let record = trace(&[[14, 0, 0]]);
    let unlawful = Memory { words: &[], base: 4 };
    for cut in 0..60 {
        let mut fed = Fed::new();
        assert_eq!(fed.feed_with(unlawful, &record[..cut], 1), (cut, vec![]));
        assert_eq!(fed.feed_all(&record[cut..]), [[3, 0, 0, 16]]);
        assert!(fed.feed_all(&record[..cut]).is_empty());
        let (_, answers) = fed.feed_with(unlawful, &record[cut..], 1);
        assert_eq!(answers, [[5, 13, 0, 0]]);
    }
}

#[test]
fn the_words_of_a_reading() {
    let mut fed = Fed::new();
    let Fed { reader, hart, map } = &mut fed;
    let good = reader.take_record(hart, map, Memory::EMPTY, &write_record([READ, 0x301, 0]));
    let Reading::Stepped(step, _) = good else { panic!("{good:?}") };
    assert_eq!(step.to_words(), [READ, 0x301, 0]);
    assert_eq!(good.words(), [1, 0x8000_0000_0014_1101, 0, 0]);
    let bad = reader.take_record(hart, map, Memory::EMPTY, &[b'0'; 60]);
    assert_eq!((bad, bad.words()), (Reading::Broken(1), broken(1)));
    assert!(!reader.awaits_last());
    assert_eq!(reader.take(hart, map, Memory::EMPTY, b's'), None);
}

/// An input that gives so many bytes at a time.
struct Pieces<'a>(&'a [u8], usize);

impl Read for Pieces<'_> {
    fn read(&mut self, buffer: &mut [u8]) -> io::Result<usize> {
        let most = self.1.min(buffer.len());
        self.0.read(&mut buffer[..most])
    }
}

#[test]
fn a_replay_is_the_same_however_its_input_comes() {
    let good = trace(&mixed());
    for end in [&b""[..], b"s", &good[..59], &trace(&[[18, 0, 0], ECALL])] {
        let bytes = [&good[..], end].concat();
        let written = |piece| {
            let mut output = Vec::new();
            replay(None, Memory::EMPTY, &mut Pieces(&bytes, piece), &mut output).unwrap();
            String::from_utf8(output).unwrap()
        };
        let whole = written(usize::MAX);
        let left = if end.len() < 60 { end.len() } else { 0 };
        assert!(whole.ends_with(&format!("\nleft {left}\n")));
        assert_eq!(whole.contains("\nrefused 8 record 7\n"), end.len() >= 60);
        for piece in [1, 7, 59, 60, 61, 100] {
            assert_eq!(written(piece), whole);
        }
    }
}
