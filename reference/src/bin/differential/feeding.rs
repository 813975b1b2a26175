//! One feed on both sides, with all that is lent compared.

use reference::capi;
use reference::{ANSWER_WORDS, Hart, MOST_CARRIED, Map, PLACE_WORDS, Reader};

use crate::account::Account;
use crate::compare::map_difference;
use crate::lent::{Lent, UNWRITTEN};
use crate::report::{show, state_difference};

/// What is kept from one feed to the next, and the memory lent to the next.
#[derive(Clone, PartialEq, Eq)]
pub struct Kept {
    pub carried: [u8; MOST_CARRIED],
    pub place: [u64; PLACE_WORDS],
    pub lent: Lent,
}

impl Kept {
    /// The bytes that wait for the rest of their record.
    pub fn carried(&self) -> &[u8] {
        &self.carried[..left(&self.place) as usize]
    }

    pub fn is_stopped(&self) -> bool {
        self.place[2] == 1
    }

    fn text(&self) -> String {
        let Kept { carried, place, lent } = self;
        format!("{}carried {}\nplace {place:x?}\n", lent.text(), carried.escape_ascii())
    }
}

/// What `tegrwyllt_left` must give.
pub fn left(place: &[u64]) -> u64 {
    match *place {
        [count, _, 0, _] => count.min(MOST_CARRIED as u64),
        [_, _, _, _] => 0,
        _ => capi::MISFIT,
    }
}

/// What a feed gives and leaves.
struct Fed {
    taken: u64,
    kept: Kept,
    answers: Vec<u64>,
}

/// Words unlike those of any answer, so that each has to be written, and no others.
pub fn unwritten(room: usize) -> Vec<u64> {
    UNWRITTEN.repeat(room)
}

fn reference_feed(kept: &Kept, scrap: &[u8], room: usize) -> Fed {
    let mut reader = Reader::from_words(&kept.carried, &kept.place).expect("stopped or not");
    let (mut hart, mut map) = (Hart::from_words(&kept.lent.hart), Map::from_words(&kept.lent.map));
    let mut answers = unwritten(room);
    let room = answers.as_chunks_mut::<ANSWER_WORDS>().0;
    let (taken, written) = reader.feed(&mut hart, &mut map, kept.lent.memory(), scrap, room);
    let (carried, [count, number, stopped]) = reader.to_words();
    let place = [count, number, stopped, written as u64];
    let kept = Kept { carried, place, lent: kept.lent.left(&hart, &map) };
    Fed { taken: taken as u64, kept, answers }
}

fn product_feed(kept: &Kept, scrap: &[u8], room: usize) -> Fed {
    let mut after = kept.clone();
    let mut answers = unwritten(room);
    let Kept { carried, place, lent: Lent { hart, map, .. } } = &mut after;
    let taken = capi::feed(carried, place, hart, map, kept.lent.memory(), scrap, &mut answers);
    Fed { taken, kept: after, answers }
}

/// One feed by the product, the model and an account of it. Gives what the product leaves,
/// and the account.
pub fn compare_feed(kept: &Kept, scrap: &[u8], room: usize) -> Result<(Kept, Account), String> {
    let told = || {
        let text = scrap.escape_ascii();
        format!("{}room for {room}\nscrap of {} bytes\n{text}\n", kept.text(), scrap.len())
    };
    show(told);
    let account = Account::of(kept, scrap, room);
    let expected = reference_feed(kept, scrap, room);
    if !agree(&account, &expected) {
        return Err(format!("{}the model's reader differs from an account of it", told()));
    }
    let found = product_feed(kept, scrap, room);
    if let Some(text) = difference(&expected, &found, account.made_anew) {
        return Err(told() + &text);
    }
    compare_left(&kept.place)?;
    compare_left(&found.kept.place)?;
    Ok((found.kept, account))
}

pub fn compare_left(place: &[u64]) -> Result<(), String> {
    let (expected, found) = (left(place), capi::left(place));
    if expected == found {
        return Ok(());
    }
    Err(format!(
        "place {place:x?}: left over {expected:x} by the reference, {found:x} by the product"
    ))
}

fn agree(account: &Account, fed: &Fed) -> bool {
    let Kept { carried, place, lent } = &fed.kept;
    let written = ANSWER_WORDS * account.answers.len();
    account.taken as u64 == fed.taken
        && account.reader() == (*carried, *place)
        && account.answers.as_flattened() == &fed.answers[..written]
        && account.hart.to_words() == lent.hart
        && account.map.to_words() == lent.map
}

fn difference(expected: &Fed, found: &Fed, made_anew: bool) -> Option<String> {
    let mut text = String::new();
    if expected.taken != found.taken {
        text += &format!("taken: reference {}, product {}\n", expected.taken, found.taken);
    }
    if expected.answers != found.answers {
        let place = (0..expected.answers.len())
            .find(|&place| expected.answers[place] != found.answers[place])
            .unwrap_or(0);
        let (answer, word) = (place / ANSWER_WORDS, place % ANSWER_WORDS);
        let [expected, found] = [&expected.answers, &found.answers].map(|words| words[place]);
        text +=
            &format!("answer {answer}, word {word}: reference {expected:x}, product {found:x}\n");
    }
    text += &reader_difference(&expected.kept, &found.kept);
    if expected.kept.lent.hart != found.kept.lent.hart {
        text += &state_difference(&expected.kept.lent.hart, &found.kept.lent.hart);
    }
    let [expected, found] = [expected, found].map(|fed| &fed.kept.lent.map);
    text += &map_difference(expected, found, made_anew).unwrap_or_default();
    (!text.is_empty()).then_some(text)
}

/// Where two readers differ, in bytes carried or in place.
pub fn reader_difference(expected: &Kept, found: &Kept) -> String {
    let mut text = String::new();
    if expected.carried != found.carried {
        let [expected, found] = [expected, found].map(|kept| kept.carried.escape_ascii());
        text += &format!("carried: reference {expected}\nproduct {found}\n");
    }
    if expected.place != found.place {
        text += &format!("place: reference {:x?}, product {:x?}\n", expected.place, found.place);
    }
    text
}
