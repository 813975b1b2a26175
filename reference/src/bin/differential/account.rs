//! What a feed must do, worked out apart from the model's reader: all its bytes at once,
//! cut into records.

use reference::{
    ANSWER_WORDS, Hart, MOST_CARRIED, Map, PLACE_WORDS, RECORD_LENGTH, Refusal, Step, step,
};

use crate::feeding::Kept;
use crate::records::{Flaw, judge};

/// What a feed takes, answers and leaves.
pub struct Account {
    pub taken: usize,
    pub answers: Vec<[u64; ANSWER_WORDS]>,
    pub left: Vec<u8>,
    pub number: u64,
    pub stopped: bool,
    pub hart: Hart,
    pub map: Map,
    /// Whether a step was a reset or changed a protection register.
    pub made_anew: bool,
    /// What is wrong with the record at which the reader stopped.
    pub flaw: Option<Flaw>,
    /// Whether a reset followed on refusal 3.
    pub healed: bool,
    /// Whether a step was a reset.
    pub was_reset: bool,
}

impl Account {
    pub fn of(kept: &Kept, scrap: &[u8], room: usize) -> Account {
        let [_, number, stopped, _] = kept.place;
        let mut account = Account {
            taken: scrap.len(),
            answers: Vec::new(),
            left: Vec::new(),
            number,
            stopped: stopped == 1,
            hart: Hart::from_words(&kept.lent.hart),
            map: Map::from_words(&kept.lent.map),
            made_anew: false,
            flaw: None,
            healed: false,
            was_reset: false,
        };
        if !account.stopped {
            account.read(kept, scrap, room);
        }
        account
    }

    /// With room for n answers, 60*n+59 bytes at most are answered or carried.
    fn read(&mut self, kept: &Kept, scrap: &[u8], room: usize) {
        let carried = kept.carried();
        let bytes = [carried, scrap].concat();
        for record in bytes.chunks_exact(RECORD_LENGTH).take(room) {
            match judge(record) {
                Ok(words) => self.step(kept, words),
                Err(flaw) => {
                    self.answers.push([5, 8, self.number, 0]);
                    (self.stopped, self.flaw) = (true, Some(flaw));
                    return;
                }
            }
        }
        let held = bytes.len().min(RECORD_LENGTH * room + MOST_CARRIED);
        self.taken = held - carried.len();
        self.left = bytes[RECORD_LENGTH * self.answers.len()..held].to_vec();
    }

    fn step(&mut self, kept: &Kept, [number, a, b]: [u64; 3]) {
        let next = Step::from_words(number, a, b).expect("a step there is");
        let before = self.hart;
        let answer = step(&mut self.hart, &mut self.map, kept.lent.memory(), next);
        self.was_reset |= next == Step::Reset;
        self.made_anew |= next == Step::Reset || protection(&before) != protection(&self.hart);
        self.healed |= next == Step::Reset && !before.can_hold() && self.refused(Refusal::State);
        self.answers.push(answer.words());
        self.number = self.number.wrapping_add(1);
    }

    /// Whether protection registers were changed and are what they were.
    pub fn is_changed_back(&self, kept: &Kept) -> bool {
        let start = Hart::from_words(&kept.lent.hart);
        self.made_anew && !self.was_reset && protection(&start) == protection(&self.hart)
    }

    /// Whether an answer is this refusal.
    pub fn refused(&self, refusal: Refusal) -> bool {
        self.answers.iter().any(|answer| answer[..2] == [5, refusal.number()])
    }

    /// The carried bytes and the place that the feed leaves.
    pub fn reader(&self) -> ([u8; MOST_CARRIED], [u64; PLACE_WORDS]) {
        let mut carried = [0; MOST_CARRIED];
        carried[..self.left.len()].copy_from_slice(&self.left);
        let [count, written] = [self.left.len(), self.answers.len()].map(|number| number as u64);
        (carried, [count, self.number, u64::from(self.stopped), written])
    }
}

/// The protection registers.
fn protection(hart: &Hart) -> ([u8; 16], [u64; 16]) {
    (hart.pmpcfg, hart.pmpaddr)
}
