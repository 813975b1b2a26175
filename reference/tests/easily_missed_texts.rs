//! Rules easily missed about texts of the first form and about traces, numbered as in
//! the list of readings.

use reference::{
    Form, HART_WORDS, Hart, KEYS, Map, Memory, Refusal, Step, read_record, replay, save,
    write_record,
};

const TEXT_LENGTH: usize = 1027;

fn form(words: &[u64; HART_WORDS]) -> Vec<u8> {
    Form::First.text(words)
}

fn restore(text: &[u8]) -> Result<(Hart, Map), Refusal> {
    reference::restore(Form::First, text)
}

fn reset_text() -> Vec<u8> {
    form(&Hart::reset().to_words())
}

fn replayed(start: Option<&[u8]>, input: &[u8]) -> String {
    let mut output = Vec::new();
    replay(start, Memory::EMPTY, &mut &input[..], &mut output).unwrap();
    String::from_utf8(output).unwrap()
}

#[test]
fn the_saved_form() {
    let text = String::from_utf8(reset_text()).unwrap();
    assert_eq!(text.len(), TEXT_LENGTH);
    let lines: Vec<&str> = text.lines().collect();
    assert_eq!(lines.len(), 41);
    for (key, line) in KEYS.iter().zip(lines) {
        let value = match *key {
            "mode" => "0000000000000003",
            "pc" => "0000000000001000",
            "mstatus" => "0000000a00000000",
            _ => "0000000000000000",
        };
        assert_eq!(line, format!("{key}={value}"));
    }
    assert_eq!(restore(&reset_text()), Ok((Hart::reset(), Map::reset())));
}

#[test]
fn b29_saving() {
    let damaged = Hart { mode: 2, ..Hart::reset() };
    for length in [0, 1, 1026, 1027, 1028, 1100] {
        let mut buffer = vec![0xEE; length];
        assert_eq!(save(Form::First, &damaged, &mut buffer), Err(Refusal::State));
        assert!(buffer.iter().all(|&byte| byte == 0xEE));
        let saved = save(Form::First, &Hart::reset(), &mut buffer);
        if length < TEXT_LENGTH {
            assert_eq!(saved, Err(Refusal::Buffer));
            assert!(buffer.iter().all(|&byte| byte == 0xEE));
        } else {
            assert_eq!(saved, Ok(()));
            assert_eq!(buffer[..TEXT_LENGTH], reset_text());
            assert!(buffer[TEXT_LENGTH..].iter().all(|&byte| byte == 0xEE));
        }
    }
}

#[test]
fn b34_what_is_not_in_the_form() {
    let text = reset_text();
    let refused = |text: &[u8]| assert_eq!(restore(text), Err(Refusal::Form));
    refused(&[]);
    refused(&text[..1026]);
    refused(&[&text[..], b"\n"].concat());
    refused(&[&text[..], &text[..]].concat());
    let replaced = |from: &str, to: &str| {
        let text = String::from_utf8(text.clone()).unwrap();
        assert!(text.contains(from));
        text.replacen(from, to, 1).into_bytes()
    };
    refused(&replaced("a00000000", "A00000000"));
    refused(&replaced("\n", "\r"));
    refused(&replaced("\n", "\r\n"));
    refused(&replaced("=", ":"));
    refused(&replaced("=0", "= "));
    refused(&replaced("mie=0000000000000000\nmip", "mip=0000000000000000\nmie"));
    refused(&replaced("pmpaddr10", "pmpaddr11"));
    refused(&replaced("mode=0", "mode=+"));
    for place in 0..TEXT_LENGTH {
        let mut damaged = text.clone();
        damaged[place] ^= 0x80;
        refused(&damaged);
    }
}

#[test]
fn the_form_is_judged_before_the_state() {
    let mut words = Hart::reset().to_words();
    words[0] = 2;
    assert_eq!(restore(&form(&words)), Err(Refusal::TextState));
    assert_eq!(restore(&form(&words)[..1026]), Err(Refusal::Form));
}

#[test]
fn every_register_has_its_own_line() {
    for word in 0..41 {
        let mut words = Hart::reset().to_words();
        words[word] ^= match word {
            0 => 3,
            4 | 6 => 2,
            5 | 7 => 8,
            9 | 10 | 16 => 1,
            23 | 24 => 0x9F00_0000_0000_0000,
            2 => 1 << 17,
            _ => 4,
        };
        let hart = Hart::from_words(&words);
        assert_eq!(hart.to_words(), words);
        assert_eq!(restore(&form(&words)), Ok((hart, hart.compile())));
    }
}

#[test]
fn a32_records() {
    for number in 0..=17 {
        for (a, b) in [(0, 0), (1, 0), (0, 1), (1 << 63, 0), (0, u64::MAX)] {
            let uses_a = !matches!(number, 0 | 7..=12 | 14);
            let uses_b = uses_a && !matches!(number, 4 | 6 | 13);
            let step = Step::from_words(number, a, b).unwrap();
            let broken = !uses_a && a != 0 || !uses_b && b != 0;
            let read = read_record(&write_record([number, a, b]));
            assert_eq!(read, if broken { None } else { Some(step) });
        }
    }
    for number in [18, 1 << 32, u64::MAX] {
        assert_eq!(Step::from_words(number, 0, 0), None);
        assert_eq!(read_record(&write_record([number, 0, 0])), None);
    }
    let record = write_record([1, 0x340, 0xABC]);
    assert_eq!(&record, b"step=0000000000000001\na=0000000000000340\nb=0000000000000abc\n");
    for place in 0..record.len() {
        for damage in [0x80, 0x20] {
            let mut damaged = record;
            damaged[place] ^= damage;
            assert_eq!(read_record(&damaged), None);
        }
    }
}

#[test]
fn b30_a_broken_record_ends_the_replay() {
    let good = write_record([11, 0, 0]);
    let bad = write_record([18, 0, 0]);
    let input = [&good[..], &good, &bad, &good, b"step"].concat();
    let output = replayed(None, &input);
    let lines: Vec<&str> = output.lines().collect();
    assert_eq!(
        lines[..3],
        ["trapped exception 11 to M"; 2]
            .into_iter()
            .chain(["refused 8 record 2"])
            .collect::<Vec<_>>()
    );
    assert_eq!(lines[3], "mode=0000000000000003");
    assert_eq!(lines[lines.len() - 1], "left 0");
    assert_eq!(lines.len(), 3 + 41 + 1 + 1);
}

#[test]
fn b30_a_record_is_judged_with_its_last_byte() {
    let bad = write_record([18, 0, 0]);
    for length in [0, 1, 59] {
        let output = replayed(None, &bad[..length]);
        assert!(output.starts_with("mode="));
        assert!(output.ends_with(&format!("none\nleft {length}\n")));
    }
}

#[test]
fn a_start_that_cannot_be_read_is_refused_alone() {
    let record = write_record([11, 0, 0]);
    assert_eq!(replayed(Some(&reset_text()[..1026]), &record), "refused 4\n");
    let mut words = Hart::reset().to_words();
    words[1] = 2;
    assert_eq!(replayed(Some(&form(&words)), &record), "refused 5\n");
}

#[test]
fn the_lines_of_the_answers() {
    let mut start = Hart::reset();
    (start.mode, start.medeleg, start.mie) = (0, 1 << 8, 0x80);
    let words = [[11, 0, 0], [1, 0x140, 0xAB], [4, 0x140, 0], [15, 0, 3], [15, 0, 4], [6, 0x80, 0]];
    let later = [[7, 0, 0], [15, 0, 4], [7, 0, 0], [10, 0, 0], [8, 0, 0], [4, 4096, 0]];
    let input: Vec<u8> = words.into_iter().chain(later).flat_map(write_record).collect();
    let output = replayed(Some(&form(&start.to_words())), &input);
    let lines: Vec<&str> = output.lines().take(12).collect();
    let expected = [
        "trapped exception 8 to S",
        "done 0000000000000000",
        "done 00000000000000ab",
        "refused 1",
        "trapped exception 5 to M entry none",
        "done",
        "done no",
        "granted entry none",
        "done no",
        "done yes",
        "done",
        "refused 2",
    ];
    assert_eq!(lines, expected);
    assert!(output.ends_with("range 0000000000000000 00ffffffffffffff none\nleft 0\n"));
}

/// Request [5] of document 02. A raise with the cause of an access fault beside that
/// fault: only the access has an entry to tell.
#[test]
fn the_line_of_an_access_tells_the_entry_and_no_other_does() {
    let mut start = Hart { medeleg: 1 << 7, ..Hart::reset() };
    (start.pmpcfg[3], start.pmpaddr[3]) = (0x97, 3);
    (start.pmpcfg[15], start.pmpaddr[15]) = (0x80, 0x1FF);
    (start.pmpcfg[12], start.pmpaddr[12]) = (0x98, 0x3FF);
    let past = (1 << 56) - 4;
    let told = [
        ([15, 12, 4], "granted entry 3"),
        ([15, 8, 8], "trapped exception 5 to M entry 3"),
        ([5, 5, 8], "trapped exception 5 to M"),
        ([15, 0, 8], "trapped exception 5 to M entry 12"),
        ([16, 0x2000, 8], "granted entry none"),
        ([16, past, 8], "trapped exception 7 to M entry none"),
        ([5, 7, past], "trapped exception 7 to M"),
        ([5, 1, 0], "trapped exception 1 to M"),
        ([14, 0, 0], "trapped exception 1 to M entry 12"),
        ([11, 0, 0], "trapped exception 11 to M"),
        ([12, 0, 0], "trapped exception 3 to M"),
        ([13, 2, 0], "trapped exception 0 to M"),
        ([4, 0x7C0, 0], "trapped exception 2 to M"),
        ([15, 0, 5], "refused 1"),
        ([1, 0x300, 0], "done 0000000a00001800"),
        ([8, 0, 0], "done"),
        ([16, 0x2000, 1], "trapped exception 7 to S entry none"),
        ([16, 12, 2], "granted entry 3"),
        ([16, 15, 2], "trapped exception 7 to S entry 3"),
        ([5, 7, 15], "trapped exception 7 to S"),
    ];
    let input: Vec<u8> = told.iter().flat_map(|&(words, _)| write_record(words)).collect();
    let output = replayed(Some(&form(&start.to_words())), &input);
    for ((words, expected), line) in told.into_iter().zip(output.lines()) {
        assert_eq!(line, expected, "step {words:x?}");
    }
}
