//! What a hart can hold: one word of a state changed, judged by every call.

use reference::random::Random;
use reference::{Form, HART_WORDS, generate};

use crate::compare::compare_step;
use crate::lent::Lent;
use crate::queries::{compare_query, random_question};
use crate::report::{Difference, Stage};
use crate::sizes::Sizes;
use crate::steps::random_step;
use crate::texts::{compare_readers, compare_save};

/// The words of pmpcfg0 and pmpcfg2.
const CONFIGURATION: usize = 23;
const BITS: usize = 64 * HART_WORDS;
const BYTES: usize = 16 * 256;

/// Every bit of every word turned over, and every value of every configuration
/// byte. Gives the number of states.
pub fn walk(sizes: &Sizes) -> Result<u64, Difference> {
    let states = sizes.walks * (BITS + BYTES) as u64;
    Stage::new("held", sizes, states).run(|random, case| {
        let held = generate::holdable(random);
        let map = generate::map(random, &held).to_words();
        let mut hart = held.to_words();
        change(&mut hart, case as usize % (BITS + BYTES));
        compare_calls(random, &Lent::new(hart, map))
    })?;
    Ok(states)
}

fn change(hart: &mut [u64; HART_WORDS], case: usize) {
    if case < BITS {
        hart[case / 64] ^= 1 << (case % 64);
        return;
    }
    let (entry, byte) = ((case - BITS) / 256, (case - BITS) % 256);
    let (word, shift) = (CONFIGURATION + entry / 8, 8 * (entry % 8));
    hart[word] = hart[word] & !(0xFF << shift) | (byte as u64) << shift;
}

fn compare_calls(random: &mut Random, lent: &Lent) -> Result<(), String> {
    let words = random_step(random, lent);
    compare_step(lent, words)?;
    compare_query(lent, random_question(random, lent))?;
    for form in Form::ALL {
        compare_save(form, &lent.hart, &vec![0x5A; form.length() - 1 + random.index(3)])?;
        compare_readers(random, &form.text(&lent.hart))?;
    }
    Ok(())
}
