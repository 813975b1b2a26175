//! Broken records, bytes left over, and no input.

use reference::Hart;

use crate::vector::{Vector, records, saved};

pub fn vectors() -> Vec<Vector> {
    [broken_records(), ends()].concat()
}

/// Two good records, a broken one, and two that must not be read.
fn broken_records() -> Vec<Vector> {
    let good = records(&[[1, 0x340, 0xABCD], [11, 0, 0]]);
    let with = |middle: &[u8]| [&good[..], middle, &good[..]].concat();
    let damaged = |place: usize, byte: u8| {
        let mut record = records(&[[1, 0x340, 0xABCD]]);
        record[place] = byte;
        record
    };
    [
        ("record-step-18", with(&records(&[[18, 0, 0]]))),
        ("record-unused-argument", with(&records(&[[4, 0x340, 1]]))),
        ("record-unused-arguments", with(&records(&[[8, 1, 0]]))),
        ("record-upper-case", with(&damaged(58, b'D'))),
        ("record-carriage-return", with(&damaged(21, b'\r'))),
        ("record-key", with(&damaged(22, b'A'))),
        ("record-first", [records(&[[0, 1, 0]]), good.clone()].concat()),
        ("record-last-byte", with(&damaged(59, b'\r'))),
        ("record-wide-step", with(&records(&[[1 << 32 | 11, 0, 0]]))),
        // Refused steps count, and what is behind is no part of a record.
        ("record-after-refusals", [&refused()[..], &good[1..]].concat()),
        ("record-with-part-behind", [with(&damaged(0, b'S')), good[..30].to_vec()].concat()),
    ]
    .into_iter()
    .map(|(name, trace)| Vector::new(name, None, trace))
    .collect()
}

/// Steps that are refused, by 1 and 2.
fn refused() -> Vec<u8> {
    records(&[[15, 0, 3], [4, 0x1000, 0], [5, 8, 0], [6, 1, 0], [16, 0, 0]])
}

fn ends() -> Vec<Vector> {
    let steps = records(&[[1, 0x340, 1], [2, 0x340, 2], [4, 0x340, 0]]);
    let start = Hart { mscratch: 0xFEED, pc: u64::MAX - 3, ..Hart::reset() };
    vec![
        Vector::new("left-1", None, [&steps[..], b"s"].concat()),
        Vector::new("left-59", Some(saved(&start)), [&steps[..], &steps[..59]].concat()),
        Vector::new("left-of-garbage", None, vec![0xFF; 59]),
        Vector::new(
            "left-of-broken",
            None,
            [refused(), records(&[[18, 0, 0]])[..59].to_vec()].concat(),
        ),
        Vector::new("empty", None, Vec::new()),
        Vector::new("empty-with-start", Some(saved(&start)), Vec::new()),
    ]
}
