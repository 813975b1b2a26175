//! Starts that are refused: texts not in their form, or of no hart.

use reference::status::SUM;
use reference::{Form, Hart};

use crate::vector::{Vector, records};

type Start = (&'static str, Vec<u8>);

pub fn vectors() -> Vec<Vector> {
    [first_form(), second_form()]
        .concat()
        .into_iter()
        .map(|(name, start)| Vector::new(name, Some(start), records(&[[11, 0, 0]])))
        .collect()
}

/// The reset state's text with the first of these replaced.
fn replaced(form: Form, from: &str, to: &str) -> Vec<u8> {
    let whole = form.text(&Hart::reset().to_words());
    String::from_utf8_lossy(&whole).replacen(from, to, 1).into_bytes()
}

fn first_form() -> Vec<Start> {
    let reset = Hart::reset();
    let text = |hart: Hart| Form::First.text(&hart.to_words());
    let replaced = |from, to| replaced(Form::First, from, to);
    let whole = text(reset);
    vec![
        ("text-short", whole[..1026].to_vec()),
        ("text-long", [&whole[..], b"\n"].concat()),
        ("text-empty", Vec::new()),
        ("text-upper-case", replaced("a00000000", "A00000000")),
        ("text-carriage-return", replaced("\n", "\r\n")),
        ("text-keys-swapped", replaced("mie=0000000000000000\nmip", "mip=0000000000000000\nmie")),
        ("text-mode-2", text(Hart { mode: 2, ..reset })),
        ("text-mpp-2", replaced("mstatus=0000000a00000000", "mstatus=0000000a00001000")),
        ("text-write-without-read", replaced("pmpcfg2=00", "pmpcfg2=02")),
        // Only the second form has room for these.
        ("text-sum", text(Hart { mstatus: reset.mstatus | SUM, ..reset })),
        ("text-wide-medeleg", text(Hart { medeleg: 1 << 13, ..reset })),
    ]
}

/// Request [10] of document 02, with lengths that tell the form wrongly.
fn second_form() -> Vec<Start> {
    let reset = Hart::reset();
    let text = |hart: Hart| Form::Second.text(&hart.to_words());
    let replaced = |from, to| replaced(Form::Second, from, to);
    let [first, second] = Form::ALL.map(|form| form.text(&reset.to_words()));
    let swapped = ("satp=0000000000000000\ngrain", "grain=0000000000000000\nsatp");
    let mut na4 = Hart { grain: 1, ..reset };
    na4.pmpcfg[15] = 0x10;
    vec![
        ("second-form-short", second[..1093].to_vec()),
        ("second-form-long", [&second[..], b"\n"].concat()),
        ("second-form-cut-to-first", second[..1027].to_vec()),
        ("second-form-of-first", [&first[..], &first[..67]].concat()),
        ("second-form-number-1", replaced("form=0000000000000002", "form=0000000000000001")),
        ("second-form-number-3", replaced("form=0000000000000002", "form=0000000000000003")),
        ("second-form-upper-case", replaced("satp", "SATP")),
        ("second-form-carriage-return", replaced("\nmode", "\rmode")),
        ("second-form-keys-swapped", replaced(swapped.0, swapped.1)),
        ("second-form-grain-11", text(Hart { grain: 11, ..reset })),
        ("second-form-satp-mode-9", text(Hart { satp: 9 << 60, ..reset })),
        ("second-form-na4", text(na4)),
    ]
}
