//! Request [10] of document 02: texts of the second form, saved and read back, worked out
//! by hand and from the list of readings.

mod common;

use common::*;
use reference::status::SUM;
use reference::{Form, Hart, Map, Memory, Refusal, make, replay, restore, save, write_record};

const LENGTH: usize = 1094;
const SV39: u64 = 8 << 60;

/// The second form around the lines of the first.
fn wrapped(first: &[u8], satp: &str, grain: &str) -> Vec<u8> {
    let lines = format!("satp={satp}\ngrain={grain}\n");
    [b"form=0000000000000002\n", first, lines.as_bytes()].concat()
}

fn text(hart: &Hart) -> Vec<u8> {
    Form::Second.text(&hart.to_words())
}

fn reset_text() -> Vec<u8> {
    text(&Hart::reset())
}

/// The first `from` in the text of the reset state becomes `to`.
fn replaced(from: &str, to: &str) -> Vec<u8> {
    let text = String::from_utf8(reset_text()).unwrap();
    assert!(text.contains(from), "{from}");
    text.replacen(from, to, 1).into_bytes()
}

fn read(text: &[u8]) -> Result<(Hart, Map), Refusal> {
    restore(Form::Second, text)
}

#[test]
fn the_second_form() {
    let [none, ten] = ["0000000000000000", "000000000000000a"];
    let reset = Hart::reset();
    let first = Form::First.text(&reset.to_words());
    assert_eq!([Form::First.length(), Form::Second.length()], [1027, LENGTH]);
    assert_eq!(reset_text(), wrapped(&first, none, none));
    assert_eq!(reset_text().len(), LENGTH);
    assert_eq!(read(&reset_text()), Ok((reset, Map::reset())));
    let wide = Hart { satp: SV39 | 0xABC, grain: 10, ..reset };
    assert_eq!(text(&wide), wrapped(&first, "8000000000000abc", ten));
    assert_eq!(read(&text(&wide)), Ok((wide, Map::reset())));
}

#[test]
fn the_forms_have_the_numbers_1_and_2() {
    assert_eq!(Form::from_number(1), Some(Form::First));
    assert_eq!(Form::from_number(2), Some(Form::Second));
    for number in [0, 3, 4, 257, 258, 1 << 32 | 1, 1 << 63 | 2, u64::MAX] {
        assert_eq!(Form::from_number(number), None);
    }
}

/// B27, [8] and [9]: each alone, and all at once.
fn wide_states() -> Vec<Hart> {
    let reset = Hart::reset();
    let mut wide = vec![
        Hart { mstatus: reset.mstatus | SUM, ..reset },
        Hart { mstatus: 0xA_007E_19AA, medeleg: 0xB3FF, satp: SV39, grain: 3, ..reset },
    ];
    wide.extend([1 << 12, 1 << 13, 1 << 15].map(|medeleg| Hart { medeleg, ..reset }));
    wide.extend([1, 1 << 43, SV39, SV39 | 7].map(|satp| Hart { satp, ..reset }));
    wide.extend((1..=10).map(|grain| make(grain).0));
    wide
}

#[test]
fn the_second_form_has_room_for_every_state() {
    for hart in wide_states() {
        assert!(hart.has_text(Form::Second) && !hart.has_text(Form::First));
        let mut buffer = vec![0xEE; LENGTH + 3];
        assert_eq!(save(Form::Second, &hart, &mut buffer), Ok(()));
        assert_eq!(buffer[..LENGTH], text(&hart));
        assert_eq!(buffer[LENGTH..], [0xEE; 3]);
        assert_eq!(read(&buffer[..LENGTH]), Ok((hart, hart.compile())));
    }
}

#[test]
fn b29_saving_reads_the_length_of_the_form_asked_for() {
    let damaged = Hart { lines: 1, ..Hart::reset() };
    for form in Form::ALL {
        for length in [0, 1, 1026, 1027, 1028, 1093, 1094, 1095] {
            let mut buffer = vec![0xEE; length];
            assert_eq!(save(form, &damaged, &mut buffer), Err(Refusal::State));
            let enough = length >= form.length();
            for hart in wide_states() {
                let refused = match (enough, form) {
                    (false, _) => Err(Refusal::Buffer),
                    (true, Form::First) => Err(Refusal::NoText),
                    (true, Form::Second) => continue,
                };
                assert_eq!(save(form, &hart, &mut buffer), refused, "{length} bytes");
            }
            assert!(buffer.iter().all(|&byte| byte == 0xEE));
            assert_eq!(save(form, &Hart::reset(), &mut buffer).is_ok(), enough);
        }
    }
}

#[test]
fn each_reader_refuses_the_other_form() {
    let first = Form::First.text(&Hart::reset().to_words());
    assert_eq!(read(&first), Err(Refusal::Form));
    assert_eq!(restore(Form::First, &reset_text()), Err(Refusal::Form));
    // Whatever the state is, and also where the length is that of the form asked for.
    let impossible = Hart { mode: 2, grain: 11, ..Hart::reset() };
    assert_eq!(read(&Form::First.text(&impossible.to_words())), Err(Refusal::Form));
    assert_eq!(restore(Form::First, &text(&impossible)), Err(Refusal::Form));
    assert_eq!(restore(Form::First, &reset_text()[..1027]), Err(Refusal::Form));
    assert_eq!(restore(Form::First, &reset_text()[22..1049]), Ok((Hart::reset(), Map::reset())));
    assert_eq!(read(&[&first[..], &first[..67]].concat()), Err(Refusal::Form));
}

#[test]
fn b34_what_is_not_in_the_second_form() {
    let whole = reset_text();
    let refused = |text: &[u8]| assert_eq!(read(text), Err(Refusal::Form));
    for length in [0, 1, 21, 22, 1026, 1027, 1028, 1049, 1071, 1093] {
        refused(&whole[..length]);
    }
    for byte in [b'\n', b'0', 0] {
        refused(&[&whole[..], &[byte]].concat());
    }
    refused(&[&whole[..], &whole[..]].concat());
    refused(&[&whole[..22], &whole[..]].concat());
    refused(&replaced("a00000000", "A00000000"));
    refused(&replaced("form", "Form"));
    refused(&replaced("satp", "SATP"));
    refused(&replaced("form=0000000000000002\n", "form=0000000000000002\r"));
    refused(&replaced("\ngrain", "\r\ngrain"));
    refused(&replaced("satp=0", "satp=+"));
    refused(&replaced("grain=0", "grain= "));
    refused(&replaced("mode=0000000000000003\npc", "pc=0000000000000003\nmode"));
    for place in 0..LENGTH {
        let mut damaged = whole.clone();
        damaged[place] ^= 0x80;
        refused(&damaged);
    }
}

#[test]
fn lines_in_another_order_are_not_in_the_form() {
    let whole = reset_text();
    let (head, tail) = whole.split_at(1049);
    let (satp, grain) = tail.split_at(22);
    let (form, lines) = head.split_at(22);
    for parts in [
        [form, lines, grain, satp],
        [lines, form, satp, grain],
        [form, satp, grain, lines],
        [form, satp, lines, grain],
        [lines, satp, grain, form],
        [satp, lines, form, grain],
    ] {
        assert_eq!(read(&parts.concat()), Err(Refusal::Form));
    }
    let keys = replaced("satp=0000000000000000\ngrain", "grain=0000000000000000\nsatp");
    assert_eq!(keys.len(), LENGTH);
    assert_eq!(read(&keys), Err(Refusal::Form));
}

/// A28.
#[test]
fn a_form_that_is_not_2_is_refusal_4() {
    let line = |value: u64| format!("form={value:016x}\n");
    for value in [0, 1, 3, 4, 0x12, 0x20, 0x102, 1 << 32 | 2, 1 << 63 | 2, u64::MAX] {
        let text = replaced(&line(2), &line(value));
        assert_eq!(text.len(), LENGTH);
        assert_eq!(read(&text), Err(Refusal::Form), "{value:x}");
        // Before the state is judged.
        let text = String::from_utf8(text).unwrap().replacen("mode=0", "mode=1", 1);
        assert_eq!(read(text.as_bytes()), Err(Refusal::Form));
    }
}

/// A28.
#[test]
fn what_no_hart_can_hold_is_refusal_5() {
    for grain in [11, 12, 16, 256, 1 << 32, 1 << 63 | 1, u64::MAX] {
        let hart = Hart { grain, ..Hart::reset() };
        assert_eq!(read(&text(&hart)), Err(Refusal::TextState), "grain {grain:x}");
    }
    for satp in [1 << 44, 1 << 59, 1 << 60, 9 << 60, 10 << 60, 0xFFFF << 44, u64::MAX] {
        let hart = Hart { satp, ..Hart::reset() };
        assert_eq!(read(&text(&hart)), Err(Refusal::TextState), "satp {satp:x}");
    }
    for grain in 0..=10 {
        let na4 = hart_with(grain, &[(0, 0), (0x11, 3)]);
        let expected = if grain == 0 { Ok((na4, na4.compile())) } else { Err(Refusal::TextState) };
        assert_eq!(read(&text(&na4)), expected, "A=2 with a grain of {grain}");
    }
    for medeleg in [1 << 10, 1 << 11, 1 << 14, 1 << 16, u64::MAX] {
        let hart = Hart { medeleg, ..Hart::reset() };
        assert_eq!(read(&text(&hart)), Err(Refusal::TextState));
    }
}

/// B27: the first form keeps to its masks; what it has no line for is not judged.
#[test]
fn a_first_text_with_wide_bits_is_refusal_5() {
    for hart in wide_states() {
        let narrow = Hart { satp: 0, grain: 0, ..hart };
        let found = restore(Form::First, &Form::First.text(&hart.to_words()));
        if narrow.has_text(Form::First) {
            assert_eq!(found, Ok((narrow, narrow.compile())));
        } else {
            assert_eq!(found, Err(Refusal::TextState));
        }
    }
}

/// The map is that of the grain: entry 1 reads 5 under NAPOT, which is 16 bytes.
#[test]
fn reading_back_compiles_the_map_of_the_grain() {
    let hart = hart_with(2, &[(0, 0), (0x1F, 4)]);
    let map = read(&text(&hart)).unwrap().1;
    let expected = [(0, 0xF, 16), (0x10, 0x1F, 1), (0x20, (1 << 56) - 1, 16)];
    assert_eq!(map.listed(), map_of(&expected).listed());
}

fn replayed(start: &[u8], steps: &[[u64; 3]]) -> String {
    let input: Vec<u8> = steps.iter().flat_map(|&words| write_record(words)).collect();
    let mut output = Vec::new();
    replay(Some(start), Memory::EMPTY, &mut &input[..], &mut output).unwrap();
    String::from_utf8(output).unwrap()
}

#[test]
fn a_replay_starts_from_either_form_and_ends_in_the_first_that_has_a_text() {
    let range = "range 0000000000000000 00ffffffffffffff none\nleft 0\n";
    let ended = |form: Form, hart: &Hart| {
        let text = form.text(&hart.to_words());
        format!("{}{range}", String::from_utf8(text).unwrap())
    };
    let reset = Hart::reset();
    for form in Form::ALL {
        assert_eq!(replayed(&form.text(&reset.to_words()), &[]), ended(Form::First, &reset));
    }
    for hart in wide_states() {
        assert_eq!(replayed(&text(&hart), &[]), ended(Form::Second, &hart));
    }
    let satp = Hart { satp: SV39, ..reset };
    let cleared = Hart { pc: 0x1004, ..reset };
    let expected = format!("done 8000000000000000\n{}", ended(Form::First, &cleared));
    assert_eq!(replayed(&text(&satp), &[[WRITE, 0x180, 0]]), expected);
    let written = Hart { pc: 0x1004, ..satp };
    let expected = format!("done 0000000000000000\n{}", ended(Form::Second, &written));
    let first = Form::First.text(&reset.to_words());
    assert_eq!(replayed(&first, &[[WRITE, 0x180, SV39]]), expected);
}

/// A length of 1,094 bytes is read as the second form, any other as the first.
#[test]
fn the_length_of_a_start_tells_its_form() {
    let whole = reset_text();
    for length in [0, 1026, 1028, 1049, 1093] {
        assert_eq!(replayed(&whole[..length], &[]), "refused 4\n");
    }
    assert_eq!(replayed(&[&whole[..], b"\n"].concat(), &[]), "refused 4\n");
    assert_eq!(
        replayed(&replaced("form=0000000000000002", "form=0000000000000001"), &[]),
        "refused 4\n"
    );
    assert_eq!(replayed(&whole[..1027], &[]), "refused 4\n");
    let first = Form::First.text(&Hart::reset().to_words());
    assert_eq!(replayed(&[&first[..], &first[..67]].concat(), &[]), "refused 4\n");
    assert_eq!(replayed(&text(&Hart { grain: 11, ..Hart::reset() }), &[]), "refused 5\n");
    let wide = Hart { medeleg: 1 << 12, ..Hart::reset() };
    assert_eq!(replayed(&Form::First.text(&wide.to_words()), &[]), "refused 5\n");
}
