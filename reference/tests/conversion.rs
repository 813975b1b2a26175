//! Request [10] of document 02: texts converted from one form to the other.

mod common;

use common::*;
use reference::random::Random;
use reference::status::SUM;
use reference::{Form, Hart, Refusal, convert, generate, make, restore};

const LENGTHS: [usize; 9] = [0, 1, 1026, 1027, 1028, 1093, 1094, 1095, 2000];

/// The same in all lengths of buffers; a refusal leaves every byte, and a text the bytes
/// past it.
fn converted(to: Form, text: &[u8]) -> Result<Vec<u8>, Refusal> {
    let mut longest = vec![0; 2000];
    let judged = convert(to, text, &mut longest).map(|()| longest[..to.length()].to_vec());
    for length in LENGTHS {
        let mut buffer = vec![0xEE; length];
        let found = convert(to, text, &mut buffer);
        let expected = match judged {
            Err(Refusal::Form | Refusal::TextState) => judged.clone(),
            _ if length < to.length() => Err(Refusal::Buffer),
            _ => judged.clone(),
        };
        assert_eq!(found, expected.clone().map(drop), "{length} bytes");
        let written = expected.unwrap_or_default();
        assert!(buffer.starts_with(&written));
        assert!(buffer[written.len()..].iter().all(|&byte| byte == 0xEE));
    }
    judged
}

fn text(form: Form, hart: &Hart) -> Vec<u8> {
    form.text(&hart.to_words())
}

#[test]
fn old_texts_read_as_satp_0_and_g_0() {
    let old = text(Form::First, &Hart::reset());
    let lines: &[&[u8]] = &[
        b"form=0000000000000002\n",
        &old,
        b"satp=0000000000000000\n",
        b"grain=0000000000000000\n",
    ];
    assert_eq!(converted(Form::Second, &old), Ok(lines.concat()));
    assert_eq!(converted(Form::First, &lines.concat()), Ok(old));
}

#[test]
fn there_and_back_gives_the_same_bytes_and_keeps_the_state() {
    for seed in 0..1000 {
        let hart = generate::narrowed(&generate::holdable(&mut Random::new(seed)));
        for form in Form::ALL {
            let there = converted(form.other(), &text(form, &hart)).unwrap();
            assert_eq!(there, text(form.other(), &hart));
            assert_eq!(restore(form.other(), &there), Ok((hart, hart.compile())));
            assert_eq!(converted(form, &there), Ok(text(form, &hart)));
        }
    }
}

/// B29: after 6, which `converted` looks at.
#[test]
fn new_to_old_is_refusal_12_for_each_reason_alone() {
    let reset = Hart::reset();
    let mut wide = vec![Hart { mstatus: reset.mstatus | SUM, ..reset }];
    wide.extend([1 << 12, 1 << 13, 1 << 15].map(|medeleg| Hart { medeleg, ..reset }));
    wide.extend([1, 1 << 43, 8 << 60, 8 << 60 | 5].map(|satp| Hart { satp, ..reset }));
    wide.extend((1..=10).map(|grain| make(grain).0));
    for hart in wide {
        assert_eq!(converted(Form::First, &text(Form::Second, &hart)), Err(Refusal::NoText));
    }
    let narrow = Hart { mstatus: 0xA_007A_19AA, medeleg: 0x3FF, ..reset };
    assert_eq!(
        converted(Form::First, &text(Form::Second, &narrow)),
        Ok(text(Form::First, &narrow))
    );
}

/// 4, then 5, whatever the buffer is and whatever else is wide.
#[test]
fn a_text_that_cannot_be_read_is_4_then_5() {
    let wide = Hart { medeleg: 1 << 12, ..Hart::reset() };
    let coarse = Hart { grain: 11, satp: 8 << 60, ..Hart::reset() };
    let na4 = hart_with(1, &[(0x10, 0)]);
    let mode = Hart { mode: 2, ..Hart::reset() };
    for (form, hart) in [
        (Form::First, wide),
        (Form::First, mode),
        (Form::Second, coarse),
        (Form::Second, na4),
        (Form::Second, Hart { satp: 1 << 44, ..Hart::reset() }),
        (Form::Second, Hart { grain: 3, ..mode }),
    ] {
        let whole = text(form, &hart);
        assert_eq!(converted(form.other(), &whole), Err(Refusal::TextState));
        assert_eq!(converted(form.other(), &whole[1..]), Err(Refusal::Form));
        assert_eq!(converted(form.other(), &whole[..whole.len() - 1]), Err(Refusal::Form));
        assert_eq!(converted(form.other(), &[&whole[..], b"\n"].concat()), Err(Refusal::Form));
        // Of the form to write, and not of the other one.
        assert_eq!(converted(form, &whole), Err(Refusal::Form));
    }
    for to in Form::ALL {
        assert_eq!(converted(to, &text(to, &Hart::reset())), Err(Refusal::Form));
        assert_eq!(converted(to, b""), Err(Refusal::Form));
    }
    let one = text(Form::Second, &Hart::reset());
    let one = String::from_utf8(one).unwrap().replacen(
        "form=0000000000000002",
        "form=0000000000000001",
        1,
    );
    for to in Form::ALL {
        assert_eq!(converted(to, one.as_bytes()), Err(Refusal::Form));
    }
}
