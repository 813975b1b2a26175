//! Request [8] of document 02: the Sv39 walk, over page tables worked out by hand.

mod common;

use common::paging::*;
use common::*;
use reference::sv39::{Fault, pte, satp};
use reference::{Access, Answer, Hart, Memory, Mode, SUPERVISOR, USER};

const PAGE_FAULT: Fault = Fault { cause: 13, entry: None };

/// A load in S.
fn walk(words: &[u64], address: u64) -> Result<u64, Fault> {
    let memory = Memory { words, base: BASE };
    translating(SUPERVISOR).walk(memory, SUPERVISOR, Access::Load, address)
}

#[test]
fn pages_of_4_kib_2_mib_and_1_gib() {
    let words = tables(&[
        (ROOT, 1, pointer(MIDDLE)),
        (ROOT, 2, entry(0xC0_4000_0000, RWX)),
        (MIDDLE, 3, pointer(LAST)),
        (MIDDLE, 4, entry(0x4060_0000, RWX)),
        (LAST, 5, entry(0x1234_5000, RWX)),
    ]);
    assert_eq!(walk(&words, virtual_address([1, 3, 5], 0x678)), Ok(0x1234_5678));
    assert_eq!(walk(&words, virtual_address([1, 4, 0x1FF], 0xFFF)), Ok(0x407F_FFFF));
    assert_eq!(walk(&words, virtual_address([2, 0x155, 0xAA], 0x123)), Ok(0xC0_6AAA_A123));
    for absent in [[0, 0, 0], [3, 0, 0], [1, 2, 0], [1, 5, 0], [1, 3, 4], [1, 3, 6]] {
        assert_eq!(walk(&words, virtual_address(absent, 0)), Err(PAGE_FAULT));
    }
}

/// Addresses of 39 bits, extended by their highest bit: anything else is a page fault
/// before any table is read, even where that could not be read.
#[test]
fn a17_addresses_that_are_not_canonical() {
    let gib = |number: u64| entry(number << 30, RWX);
    let words = tables(&[0, 255, 256, 511].map(|number| (ROOT, number, gib(number as u64))));
    for (address, physical) in [
        (0, 0),
        (0x3F_FFFF_FFFF, 0x3F_FFFF_FFFF),
        (0xFFFF_FFC0_0000_0000, 0x40_0000_0000),
        (u64::MAX, 0x7F_FFFF_FFFF),
    ] {
        assert_eq!(walk(&words, address), Ok(physical));
        for bit in 39..64 {
            assert_eq!(walk(&words, address ^ 1 << bit), Err(PAGE_FAULT), "{address:x}, {bit}");
        }
    }
    for address in [0x40_0000_0000, 0xFFFF_FFBF_FFFF_FFFF] {
        assert_eq!(walk(&words, address), Err(PAGE_FAULT));
        assert_eq!(walk(&[], address), Err(PAGE_FAULT));
        let closed = Hart { pmpcfg: [0; 16], ..translating(SUPERVISOR) };
        let found = closed.walk(Memory::EMPTY, SUPERVISOR, Access::Load, address);
        assert_eq!(found, Err(PAGE_FAULT));
    }
}

#[test]
fn a17_entries_that_are_not_valid() {
    for bits in [0, RWX & !pte::V, pte::V | pte::W, pte::V | pte::W | pte::X | pte::A | pte::D] {
        assert_eq!(walk(&one_page(entry(0x9000, bits)), 0), Err(PAGE_FAULT), "{bits:x}");
    }
    for bit in 54..64 {
        assert_eq!(walk(&one_page(entry(0x9000, RWX) | 1 << bit), 0), Err(PAGE_FAULT));
        for table in [ROOT, MIDDLE] {
            let mut words = one_page(entry(0x9000, RWX));
            words[512 * table] |= 1 << bit;
            assert_eq!(walk(&words, 0), Err(PAGE_FAULT), "table {table}, bit {bit}");
        }
    }
    let top = 0xFF_FFFF_FFFF_F000;
    assert_eq!(walk(&one_page(entry(top, RWX)), 0xABC), Ok(top + 0xABC));
}

#[test]
fn a17_rsw_and_g_do_not_matter() {
    for bits in [pte::G, 1 << 8, 1 << 9, pte::G | 3 << 8] {
        let mut words = one_page(entry(0x9000, RWX) | bits);
        words[0] |= bits;
        words[512] |= bits;
        assert_eq!(walk(&words, 0x10), Ok(0x9010));
    }
}

#[test]
fn a18_pointers_with_u_a_or_d() {
    for bits in [pte::U, pte::A, pte::D, pte::U | pte::A | pte::D] {
        for table in [ROOT, MIDDLE] {
            let mut words = one_page(entry(0x9000, RWX_USER));
            words[512 * table] |= bits;
            for (mode, access) in
                [USER, SUPERVISOR].into_iter().flat_map(|m| Access::ALL.map(|a| (m, a)))
            {
                let memory = Memory { words: &words, base: BASE };
                let found = translating(mode).walk(memory, mode, access, 0);
                assert_eq!(found, Err(Fault { cause: access.page_fault(), entry: None }));
            }
        }
    }
}

#[test]
fn a17_a_pointer_at_level_0() {
    for bits in [POINTER, POINTER | pte::G] {
        assert_eq!(walk(&one_page(entry(BASE, bits)), 0), Err(PAGE_FAULT));
    }
}

#[test]
fn a17_superpages_begin_at_a_multiple_of_their_size() {
    for bit in 12..56 {
        let page = 1 << bit;
        let at = |table, page| tables(&[(ROOT, 0, pointer(MIDDLE)), (table, 0, entry(page, RWX))]);
        let aligned = |least| if bit >= least { Ok(page | 0x9ABC) } else { Err(PAGE_FAULT) };
        assert_eq!(walk(&at(MIDDLE, page), 0x9ABC), aligned(21), "2 MiB at {page:x}");
        assert_eq!(walk(&at(ROOT, page), 0x9ABC), aligned(30), "1 GiB at {page:x}");
    }
}

#[test]
fn accessed_and_dirty_are_never_set_for_the_program() {
    for (bits, kinds) in [
        (RWX, vec![FETCH, LOAD, STORE]),
        (RWX & !pte::D, vec![FETCH, LOAD]),
        (RWX & !pte::A, vec![]),
        (RWX & !(pte::A | pte::D), vec![]),
    ] {
        for (number, cause) in [(FETCH, 12), (LOAD, 13), (STORE, 15)] {
            let words = one_page(entry(0x9000, bits));
            let answer = access(&translating(SUPERVISOR), &words, number, 0x10, 4).1;
            let expected = match kinds.contains(&number) {
                true => Answer::Granted { entry: Some(5) },
                false => trapped(cause, Mode::Machine),
            };
            assert_eq!(answer, expected, "bits {bits:x}, step {number}");
        }
    }
}

/// The root may be any page, and MODE 0 does not translate.
#[test]
fn the_root_is_where_satp_says() {
    let words = one_page(entry(0x9000, RWX));
    let hart = translating(SUPERVISOR);
    let middle = Hart { satp: satp::SV39 << 60 | ((BASE >> 12) + 1), ..hart };
    let memory = Memory { words: &words, base: BASE };
    let found = middle.walk(memory, SUPERVISOR, Access::Load, 0x678);
    assert_eq!(found, Err(PAGE_FAULT), "the last table's page would be one of 2 MiB");
    let last = Hart { satp: satp::SV39 << 60 | ((BASE >> 12) + 2), ..hart };
    let large = one_page(entry(0x4000_0000, RWX));
    let memory = Memory { words: &large, base: BASE };
    let found = last.walk(memory, SUPERVISOR, Access::Load, 0x1234_5678);
    assert_eq!(found, Ok(0x5234_5678), "the last table's page is one of 1 GiB");
    for mode in [USER, SUPERVISOR] {
        assert!(hart.is_translated(mode));
        assert!(!Hart { satp: hart.satp & satp::PPN, ..hart }.is_translated(mode));
    }
    assert!(!hart.is_translated(3));
}
