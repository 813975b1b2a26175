//! What calls are lent, and one step on either side.

use std::ops::Range;
use std::rc::Rc;

use reference::random::Random;
use reference::{
    ANSWER_WORDS, HART_WORDS, Hart, MAP_WORDS, Map, Memory, STEP_WORDS, Step, capi, generate, step,
};

use crate::report::{map_text, memory_text, show, state_text};

/// The words of an answer before a call, unlike those of any answer, so that each
/// has to be written.
pub const UNWRITTEN: [u64; ANSWER_WORDS] = [u64::MAX, 0x5555, 0xAAAA, 0x3333];

/// The words of pmpcfg and pmpaddr.
const PROTECTION: Range<usize> = 23..41;

/// What a step leaves, and its answer.
pub type Outcome = (Lent, [u64; ANSWER_WORDS]);

/// The words of a hart and its map, and those for page tables with their base.
#[derive(Clone, PartialEq, Eq)]
pub struct Lent {
    pub hart: [u64; HART_WORDS],
    pub map: [u64; MAP_WORDS],
    pub words: Rc<[u64]>,
    pub base: u64,
}

impl Lent {
    /// With no words at address 0.
    pub fn new(hart: [u64; HART_WORDS], map: [u64; MAP_WORDS]) -> Lent {
        Lent { hart, map, words: Rc::new([]), base: 0 }
    }

    /// The same with words at an address.
    pub fn with_memory(self, base: u64, words: Rc<[u64]>) -> Lent {
        Lent { words, base, ..self }
    }

    /// The same words for page tables with another hart and map.
    pub fn left(&self, hart: &Hart, map: &Map) -> Lent {
        Lent { hart: hart.to_words(), map: map.to_words(), ..self.clone() }
    }

    pub fn memory(&self) -> Memory<'_> {
        Memory { words: &self.words, base: self.base }
    }

    /// A state, most often one a hart can hold, a map, lawful or not, and some words.
    pub fn random(random: &mut Random) -> Lent {
        let held = match random.below(4) {
            0 => generate::mixed_delegation(random),
            _ => generate::holdable(random),
        };
        let map = generate::map(random, &held).to_words();
        let hart = if random.once_in(8) { generate::damaged(random) } else { held.to_words() };
        let (base, words) = generate::memory(random);
        Lent::new(hart, map).with_memory(base, words.into())
    }

    pub fn text(&self) -> String {
        let [state, map] = [state_text(&self.hart), map_text(&self.map)];
        format!("state\n{state}map\n{map}{}", memory_text(self.memory()))
    }

    pub fn reference_step(&self, words: [u64; STEP_WORDS]) -> Outcome {
        let mut hart = Hart::from_words(&self.hart);
        let mut map = Map::from_words(&self.map);
        let next = Step::from_words(words[0], words[1], words[2]).expect("a step there is");
        let answer = step(&mut hart, &mut map, self.memory(), next).words();
        (self.left(&hart, &map), answer)
    }

    /// The product's step, which must find all it is lent in order.
    pub fn product_step(&self, words: [u64; STEP_WORDS]) -> Result<Outcome, String> {
        self.product_call("step", words, capi::step)
    }

    /// The same by a run of this step alone.
    pub fn product_run(&self, words: [u64; STEP_WORDS]) -> Result<Outcome, String> {
        self.product_call("run", words, |hart, map, memory, words, answer| {
            capi::run(hart, map, memory, &words, answer)
        })
    }

    fn product_call(
        &self,
        name: &str,
        words: [u64; STEP_WORDS],
        call: impl Fn(&mut [u64], &mut [u64], Memory, [u64; STEP_WORDS], &mut [u64]) -> u64,
    ) -> Result<Outcome, String> {
        show(|| format!("{}{name} {words:x?}", self.text()));
        let mut after = self.clone();
        let mut answer = UNWRITTEN;
        match call(&mut after.hart, &mut after.map, self.memory(), words, &mut answer) {
            1 => Ok((after, answer)),
            given => Err(format!("the {name}'s call gives {given}")),
        }
    }

    /// Whether the step must hand back a map made anew.
    pub fn makes_map(&self, after: &Lent, number: u64) -> bool {
        number == 0 || self.hart[PROTECTION] != after.hart[PROTECTION]
    }
}
