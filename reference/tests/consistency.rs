//! Laws that tie the parts of the model together, on random states.

use reference::protection::MEMORY;
use reference::random::Random;
use reference::{
    Access, Answer, Form, Hart, Map, Memory, Mode, Step, Verdict, generate, query, restore, save,
    step,
};

const STATES: u64 = 20_000;

fn states() -> impl Iterator<Item = (Random, Hart)> {
    (0..STATES).map(|seed| {
        let mut random = Random::new(seed);
        let hart = generate::holdable(&mut random);
        (random, hart)
    })
}

#[test]
fn states_made_to_be_held_can_be_and_damaged_ones_mostly_cannot() {
    assert!(states().all(|(_, hart)| hart.can_hold()));
    let held = states()
        .filter(|(_, hart)| {
            let mut random = Random::new(hart.mscratch);
            Hart::from_words(&generate::damaged(&mut random)).can_hold()
        })
        .count() as u64;
    assert!(held < STATES / 4 && held > STATES / 100);
}

#[test]
fn mixed_delegation_often_tells_request_2_from_the_single_order_of_01() {
    let told_apart = (0..STATES)
        .map(|seed| generate::mixed_delegation(&mut Random::new(seed)))
        .filter(|hart| {
            assert!(hart.can_hold());
            let single = [11, 3, 7, 9, 1, 5].into_iter().find(|&code| hart.takeable(code));
            hart.next_interrupt() != single
        })
        .count() as u64;
    assert!(told_apart > STATES / 5, "{told_apart} of {STATES}");
}

#[test]
fn steps_keep_what_a_hart_can_hold_and_the_map_of_its_registers() {
    for (mut random, mut hart) in states() {
        let mut map = hart.compile();
        for _ in 0..20 {
            let [number, a, b] = generate::step(&mut random, &hart, &map);
            let before = hart;
            let answer =
                step(&mut hart, &mut map, Memory::EMPTY, Step::from_words(number, a, b).unwrap());
            assert!(hart.can_hold());
            if let Answer::Refused(_) | Answer::Granted { .. } = answer {
                assert_eq!(hart, before);
            }
            if (hart.pmpcfg, hart.pmpaddr) != (before.pmpcfg, before.pmpaddr) {
                assert_eq!(map, hart.compile());
            }
        }
        assert_eq!(map.listed(), hart.compile().listed());
    }
}

/// In order, no gap, no overlap, the whole memory, neighbours apart.
fn assert_lawful(map: &Map) {
    let ranges = map.listed();
    assert_eq!(ranges.len() as u64, map.count);
    assert_eq!((ranges[0].first, ranges[ranges.len() - 1].last), (0, MEMORY - 1));
    assert!(ranges.iter().all(|range| range.first <= range.last));
    for pair in ranges.windows(2) {
        assert_eq!(pair[0].last + 1, pair[1].first);
        assert_ne!(pair[0].owner, pair[1].owner);
    }
}

#[test]
fn maps_are_lawful_and_name_the_owner_of_each_byte() {
    for (mut random, hart) in states() {
        let map = hart.compile();
        assert_lawful(&map);
        for range in map.listed() {
            let inside = range.first + random.below(range.last - range.first + 1);
            for byte in [range.first, inside, range.last] {
                assert_eq!(hart.owner(byte), range.owner);
            }
        }
        for byte in (0..300).chain(MEMORY - 300..MEMORY) {
            let mut holding = map.listed().iter().filter(|r| r.first <= byte && byte <= r.last);
            assert_eq!(holding.next().map(|range| range.owner), Some(hart.owner(byte)));
            assert_eq!(holding.next(), None);
        }
    }
}

#[test]
fn a_query_on_the_map_of_the_registers_is_the_byte_rule() {
    for (mut random, hart) in states() {
        let map = hart.compile();
        for place in 0..20 {
            let address = match place % 2 {
                0 => generate::address(&mut random, &hart, &map),
                _ => generate::near_range(&mut random, &map),
            };
            let size = 1 << random.below(4);
            for (mode, access) in Mode::ALL.into_iter().flat_map(|m| Access::ALL.map(|a| (m, a))) {
                let ruling = hart.byte_rule(mode.number(), access, address, size);
                let verdict = query(&hart, &map, mode, access, address, size);
                assert_eq!(verdict, Verdict::Ruled(ruling));
            }
        }
    }
}

#[test]
fn texts_come_back() {
    for (_, hart) in states() {
        for (form, hart) in [(Form::First, generate::narrowed(&hart)), (Form::Second, hart)] {
            let mut text = vec![0; form.length()];
            assert_eq!(save(form, &hart, &mut text), Ok(()));
            assert_eq!(text, form.text(&hart.to_words()));
            assert_eq!(restore(form, &text), Ok((hart, hart.compile())));
        }
    }
}

#[test]
fn words_go_in_and_out_without_loss() {
    let mut random = Random::new(1);
    for (_, hart) in states().take(100) {
        let words = std::array::from_fn(|_| random.word());
        assert_eq!(Hart::from_words(&words).to_words(), words);
        let words = generate::map(&mut random, &hart).to_words();
        assert_eq!(Map::from_words(&words).to_words(), words);
    }
}
