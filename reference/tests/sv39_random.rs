//! Laws of translated accesses, on random page tables.

use reference::random::Random;
use reference::{Access, Answer, Cause, Hart, Map, Memory, Step, generate, step};

const SETTINGS: u64 = 3_000;

/// Some accesses to each of the random settings of page tables.
fn accesses() -> impl Iterator<Item = (Hart, (u64, Vec<u64>), [u64; 3])> {
    (0..SETTINGS).flat_map(|seed| {
        let mut random = Random::new(seed);
        let paging = generate::paging(&mut random);
        let each = move |_| {
            let (hart, words) = paging.access(&mut random);
            (hart, (paging.base, paging.words.clone()), words)
        };
        (0..8).map(each)
    })
}

fn stepped(hart: &Hart, memory: Memory, words: [u64; 3]) -> (Hart, Answer) {
    let (mut hart, mut map) = (*hart, Map::reset());
    let next = Step::from_words(words[0], words[1], words[2]).unwrap();
    let answer = step(&mut hart, &mut map, memory, next);
    assert_eq!(map, Map::reset());
    (hart, answer)
}

#[test]
fn only_a_trap_changes_the_hart_and_it_tells_an_address_of_the_access() {
    for (hart, (base, lent), words) in accesses() {
        assert!(hart.can_hold());
        let (left, answer) = stepped(&hart, Memory { words: &lent, base }, words);
        assert!(left.can_hold());
        match answer {
            Answer::Trapped { cause: Cause::Exception(cause), .. } => {
                assert!([1, 5, 7, 12, 13, 15].contains(&cause));
                let told = if left.mode == 1 { left.stval } else { left.mtval };
                let address = if words[0] == 14 { hart.pc } else { words[1] };
                let part = told.wrapping_sub(address);
                assert!(part == 0 || part < words[2] && told.is_multiple_of(4096));
            }
            _ => assert_eq!(left, hart),
        }
    }
}

/// What is granted whole is granted byte by byte, translated or not.
#[test]
fn each_byte_of_a_granted_access_is_granted() {
    let mut split = 0;
    for (hart, (base, lent), [number, address, size]) in accesses() {
        let memory = Memory { words: &lent, base };
        let (_, answer) = stepped(&hart, memory, [number, address, size]);
        if number == 14 || !matches!(answer, Answer::Granted { .. }) {
            continue;
        }
        split += u64::from(address % 4096 + size > 4096);
        for offset in 0..size {
            let byte = [number, address.wrapping_add(offset), 1];
            assert!(matches!(stepped(&hart, memory, byte).1, Answer::Granted { .. }));
        }
    }
    assert!(split > SETTINGS / 10, "{split}");
}

/// A page is granted or not as a whole by the walk, and its bytes follow one another.
#[test]
fn a_page_is_translated_as_a_whole() {
    let mut translated = 0;
    for (hart, (base, lent), [_, address, _]) in accesses() {
        let memory = Memory { words: &lent, base };
        let page = address & !0xFFF;
        for access in Access::ALL {
            let found = hart.walk(memory, 1, access, address);
            let whole = hart.walk(memory, 1, access, page);
            assert_eq!(found, whole.map(|physical| physical + address % 4096));
            translated += u64::from(found.is_ok());
        }
    }
    assert!(translated > SETTINGS, "{translated}");
}
