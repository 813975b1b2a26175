//! Feeds with slices that do not fit, or of a reader that has neither stopped nor not: they
//! give 2^64-1 and change nothing. And what is left over, asked of any place.

use std::fmt::{self, Display, Formatter};

use reference::capi::{self, MISFIT};
use reference::random::Random;
use reference::{ANSWER_WORDS, HART_WORDS, MAP_WORDS, MOST_CARRIED, PLACE_WORDS};

use crate::classes::{Class, Tally};
use crate::feeding::{Kept, compare_left, unwritten};
use crate::lent::Lent;
use crate::report::{Difference, Stage};
use crate::sizes::Sizes;
use crate::traces::trace;

/// What one feed is lent, of any lengths.
#[derive(Clone, PartialEq, Eq, Debug)]
pub struct Given {
    pub carried: Vec<u8>,
    pub place: Vec<u64>,
    pub hart: Vec<u64>,
    pub map: Vec<u64>,
    base: u64,
    memory: Vec<u64>,
    scrap: Vec<u8>,
    pub answers: Vec<u64>,
}

impl Given {
    /// All in order, but for the word that tells whether the reader has stopped.
    pub fn random(random: &mut Random) -> Given {
        let trace = trace(random);
        let Kept { carried, place, lent: Lent { hart, map, words, base } } = trace.start;
        Given {
            carried: carried.to_vec(),
            place: place.to_vec(),
            hart: hart.to_vec(),
            map: map.to_vec(),
            base,
            memory: words.to_vec(),
            scrap: trace.bytes,
            answers: unwritten(random.index(20)),
        }
    }

    fn is_carried(&self) -> bool {
        self.carried.len() == MOST_CARRIED
    }

    fn is_place(&self) -> bool {
        self.place.len() == PLACE_WORDS
    }

    fn is_hart(&self) -> bool {
        self.hart.len() == HART_WORDS
    }

    fn is_map(&self) -> bool {
        self.map.len() == MAP_WORDS
    }

    fn is_answers(&self) -> bool {
        self.answers.len().is_multiple_of(ANSWER_WORDS)
    }

    fn fits(&self) -> bool {
        self.is_carried() && self.is_place() && self.is_hart() && self.is_map() && self.is_answers()
    }

    /// Whether all fits but the word that tells whether the reader has stopped.
    fn is_neither(&self) -> bool {
        self.fits() && self.place[2] > 1
    }

    /// Unless all fits, the feed must change nothing.
    pub fn judge(&self) -> Result<(), String> {
        let mut after = self.clone();
        let Given { carried, place, hart, map, base, memory, scrap, answers } = &mut after;
        let memory = reference::Memory { words: memory, base: *base };
        let given = capi::feed(carried, place, hart, map, memory, scrap, answers);
        compare_left(&self.place)?;
        if self.fits() && !self.is_neither() {
            let most = self.scrap.len() as u64;
            let taken = given <= most && after.scrap == self.scrap;
            return if taken { Ok(()) } else { Err(format!("{self:x?}\ngives {given:x}")) };
        }
        if given == MISFIT && after == *self {
            return Ok(());
        }
        let changed = if after == *self { "nothing" } else { "something" };
        Err(format!(
            "{self:x?}\nmust give {MISFIT:x} and change nothing; product gives {given:x} and \
             changes {changed}"
        ))
    }

    /// Gives one of the slices another length.
    fn spoil(&mut self, random: &mut Random) {
        let lengths = [0, 1, 3, 4, 42, 43, 44, 58, 59, 60, 99, 100, 101, 118];
        loop {
            let length = random.pick(&lengths);
            match random.below(5) {
                0 => self.carried.resize(length, 0x77),
                1 => self.place.resize(random.index(9), random.below(3)),
                2 => self.hart.resize(length, 0x77),
                3 => self.map.resize(length, 0x77),
                _ => self.answers.resize(random.index(80), 0x77),
            }
            if !self.fits() {
                return;
            }
        }
    }
}

const CLASSES: [Class<Given>; 6] = [
    class("with other carried bytes", 20, |given| !given.is_carried()),
    class("with no place", 20, |given| !given.is_place()),
    class("with no hart", 20, |given| !given.is_hart()),
    class("with no map", 20, |given| !given.is_map()),
    class("with part of an answer", 20, |given| !given.is_answers()),
    class("neither stopped nor not", 10, Given::is_neither),
];

const fn class(name: &'static str, one_in: u64, holds: fn(&Given) -> bool) -> Class<Given> {
    Class { name, one_in, holds }
}

/// How many calls there were of each class.
pub struct Misfits(Tally<Given>);

impl Display for Misfits {
    fn fmt(&self, formatter: &mut Formatter) -> fmt::Result {
        self.0.fmt(formatter)
    }
}

pub fn wrong(sizes: &Sizes) -> Result<Misfits, Difference> {
    let mut misfits = Tally::new("wrong feeds", &CLASSES);
    Stage::new("wrong feeds", sizes, sizes.calls).run(|random, _| {
        let mut given = Given::random(random);
        if random.once_in(3) {
            given.place[2] = neither(random);
        } else {
            given.spoil(random);
            if random.once_in(4) {
                given.spoil(random);
            }
        }
        given.judge()?;
        misfits.count(&given);
        Ok(())
    })?;
    misfits.check("wrong feeds")?;
    Ok(Misfits(misfits))
}

/// Neither 0 nor 1. Cut to fewer bits, most would be.
fn neither(random: &mut Random) -> u64 {
    match random.below(3) {
        0 => random.pick(&[2, 3, 255, 1 << 63, u64::MAX]),
        1 => random.below(2) | 2 << random.below(63),
        _ => random.word().max(2),
    }
}
