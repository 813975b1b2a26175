//! Request [8] of document 02: accesses across pages.

mod common;

use common::paging::*;
use common::*;
use reference::sv39::pte;
use reference::{Answer, Hart, Mode, SUPERVISOR};

/// Two pages next to each other, at 0x5000 and at 0x9000.
fn two_pages(second: u64) -> Vec<u64> {
    let mut words = one_page(entry(0x5000, RWX));
    words[512 * LAST + 1] = second;
    words
}

#[test]
fn a21_an_access_across_pages_is_two_accesses() {
    let words = two_pages(entry(0x9000, RWX));
    let hart = with_entry(&translating(SUPERVISOR), 0, 0x1F, 0x5000 >> 2 | 0x1FF);
    let second = with_entry(&hart, 1, 0x1F, 0x9000 >> 2 | 0x1FF);
    for (before, size) in [(1, 2), (1, 4), (2, 4), (3, 4), (1, 8), (4, 8), (7, 8)] {
        for number in [LOAD, STORE] {
            let address = 0x1000 - before;
            let granted = |entry| Answer::Granted { entry: Some(entry) };
            assert_eq!(access(&second, &words, number, address, size).1, granted(1));
            assert_eq!(access(&hart, &words, number, address, size).1, granted(5));
        }
    }
    assert_eq!(access(&hart, &words, LOAD, 0xFF8, 8).1, Answer::Granted { entry: Some(0) });
}

#[test]
fn a21_the_first_fault_wins() {
    let hart = translating(SUPERVISOR);
    let split = |hart: &Hart, words: &[u64]| {
        let (left, answer) = access(hart, words, STORE, 0xFFD, 8);
        (answer, left.mtval)
    };
    let pages = |first, second| {
        let mut words = two_pages(entry(0x9000, second));
        words[512 * LAST] = entry(0x5000, first);
        words
    };
    let read_only = RWX & !pte::W;
    let machine = Mode::Machine;
    assert_eq!(split(&hart, &pages(RWX, read_only)), (trapped(15, machine), 0x1000));
    assert_eq!(split(&hart, &pages(read_only, RWX)), (trapped(15, machine), 0xFFD));
    assert_eq!(split(&hart, &pages(0, 0)), (trapped(15, machine), 0xFFD));
    let first_denied = with_entry(&hart, 2, 0x19, 0x5000 >> 2 | 0x1FF);
    let expected = (trapped_by(Some(2), 7, machine), 0xFFD);
    assert_eq!(split(&first_denied, &pages(RWX, 0)), expected);
    assert_eq!(split(&first_denied, &pages(0, RWX)), (trapped(15, machine), 0xFFD));
    let second_denied = with_entry(&hart, 2, 0x19, 0x9000 >> 2 | 0x1FF);
    let expected = (trapped_by(Some(2), 7, machine), 0x1000);
    assert_eq!(split(&second_denied, &pages(RWX, RWX)), expected);
}

/// Three bytes in the first page and five in the second: entries that match just these
/// grant them, and entries that match fewer do not.
#[test]
fn a21_each_part_has_its_own_size() {
    let words = two_pages(entry(0x9000, RWX));
    let closed = Hart { pmpcfg: [0; 16], ..translating(SUPERVISOR) };
    let hart = with_entry(&closed, 0, 0x19, BASE >> 2 | 0x7FF);
    let hart = with_entry(&hart, 7, 0x11, 0x5FFC >> 2);
    let whole = with_entry(&hart, 8, 0x19, 0x9000 >> 2);
    let (_, answer) = access(&whole, &words, LOAD, 0xFFD, 8);
    assert_eq!(answer, Answer::Granted { entry: Some(8) });
    let short = with_entry(&hart, 8, 0x11, 0x9000 >> 2);
    let (left, answer) = access(&short, &words, LOAD, 0xFFD, 8);
    assert_eq!((answer, left.mtval), (trapped_by(Some(8), 5, Mode::Machine), 0x1000));
    let (_, answer) = access(&short, &words, LOAD, 0xFFC, 8);
    assert_eq!(answer, Answer::Granted { entry: Some(8) });
    let (left, answer) = access(&short, &words, LOAD, 0xFFB, 8);
    assert_eq!((answer, left.mtval), (trapped_by(Some(7), 5, Mode::Machine), 0xFFB));
}

/// Addresses wrap: the second part begins at 0. The canonical hole is another border.
#[test]
fn a21_the_ends_of_the_addresses() {
    let gib = |number: u64| (ROOT, number as usize, entry(number << 30, RWX));
    let words = tables(&[gib(0), gib(255), gib(256), gib(511)]);
    let hart = with_entry(&translating(SUPERVISOR), 1, 0x1F, 0x1FF);
    let (_, answer) = access(&hart, &words, LOAD, u64::MAX - 3, 8);
    assert_eq!(answer, Answer::Granted { entry: Some(1) });
    let upper = tables(&[gib(511)]);
    let (left, answer) = access(&hart, &upper, STORE, u64::MAX, 2);
    assert_eq!((answer, left.mtval), (trapped(15, Mode::Machine), 0));
    let hole = 0x40_0000_0000;
    let (left, answer) = access(&hart, &words, LOAD, hole - 4, 8);
    assert_eq!((answer, left.mtval), (trapped(13, Mode::Machine), hole));
    let past = 0xFFFF_FFC0_0000_0000;
    let (left, answer) = access(&hart, &words, LOAD, past - 4, 8);
    assert_eq!((answer, left.mtval), (trapped(13, Mode::Machine), past - 4));
}

/// A border inside a superpage counts too: an entry across the border, which would
/// match the whole access, decides each part.
#[test]
fn a21_a_border_inside_a_superpage() {
    let words = tables(&[(ROOT, 0, entry(0, RWX))]);
    let hart = with_entry(&translating(SUPERVISOR), 0, 0x1F, 0x1FF);
    let (_, answer) = access(&hart, &words, STORE, 0xFFC, 8);
    assert_eq!(answer, Answer::Granted { entry: Some(5) }, "physically it would be partial");
    let untranslated = Hart { satp: 0, ..hart };
    let (left, answer) = access(&untranslated, &words, STORE, 0xFFC, 8);
    assert_eq!((answer, left.mtval), (trapped_by(Some(0), 7, Mode::Machine), 0xFFC));
}

/// A fetch is of four bytes at a multiple of four, so it never has two parts.
#[test]
fn a_fetch_at_the_end_of_a_page_is_one_access() {
    let words = two_pages(0);
    let (_, answer) = access(&translating(SUPERVISOR), &words, FETCH, 0xFFC, 4);
    assert_eq!(answer, Answer::Granted { entry: Some(5) });
}
