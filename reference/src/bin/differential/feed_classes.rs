//! The classes of feeds, and of traces by how they were fed.

use reference::{Hart, MAP_WORDS, Map, Refusal};

use crate::account::Account;
use crate::classes::Class;
use crate::feeding::Kept;
use crate::records::Flaw;

/// One feed: what was lent, the lengths of scrap and answers, and an account of it.
pub struct Case {
    pub kept: Kept,
    pub scrap: usize,
    pub room: usize,
    pub account: Account,
}

impl Case {
    fn carried(&self) -> usize {
        self.kept.carried().len()
    }

    fn is_stopped(&self) -> bool {
        self.kept.is_stopped()
    }

    fn is_cut_short(&self) -> bool {
        self.account.taken < self.scrap
    }

    /// Whether all of its bytes are inside one record.
    fn is_within(&self) -> bool {
        let account = &self.account;
        self.carried() > 0 && account.taken > 0 && account.answers.is_empty()
    }

    fn wraps(&self) -> bool {
        self.account.number < self.kept.place[1]
    }

    /// How many bytes come behind the broken record.
    fn behind(&self) -> Option<usize> {
        self.account.flaw?;
        Some(self.carried() + self.scrap - 60 * self.account.answers.len())
    }

    /// Whether a map is handed back that is not that of the registers.
    fn keeps_other_map(&self) -> bool {
        let hart = Hart::from_words(&self.kept.lent.hart);
        let other = |map: &[u64; MAP_WORDS]| Map::from_words(map) != hart.compile();
        let keeps = !self.account.made_anew && !self.account.answers.is_empty();
        keeps && hart.can_hold() && other(&self.kept.lent.map)
    }
}

pub const FEEDS: [Class<Case>; 34] = [
    feed("of nothing", 15, |case| case.scrap == 0),
    feed("of one byte", 15, |case| case.scrap == 1),
    feed("of 1 KiB or more", 200, |case| case.scrap >= 1024),
    feed("of 48 KiB or more", 100_000, |case| case.scrap >= 48 << 10),
    feed("with no room", 10, |case| case.room == 0),
    feed("with room to spare", 5, |case| case.account.answers.len() < case.room),
    feed("cut short", 20, Case::is_cut_short),
    feed("with no room and cut short", 40, |case| case.room == 0 && case.is_cut_short()),
    feed("with several answers", 20, |case| case.account.answers.len() > 1),
    feed("beginning in a record", 5, |case| case.carried() > 0),
    feed("ending in one", 5, |case| !case.account.left.is_empty()),
    feed("within one", 10, Case::is_within),
    feed("that carry a count above 59", 200, |case| !case.is_stopped() && case.kept.place[0] > 59),
    feed("from a reader that has stopped", 15, Case::is_stopped),
    feed("with a count", 600, |case| case.is_stopped() && case.kept.place[0] > 0),
    feed("with a number that wraps", 100, Case::wraps),
    feed("refused 8", 80, |case| case.account.flaw.is_some()),
    feed("for a line", 150, |case| case.account.flaw == Some(Flaw::Line)),
    feed("for step 18", 500, |case| case.account.flaw == Some(Flaw::Step(18))),
    feed(
        "for a step above 18",
        500,
        |case| matches!(case.account.flaw, Some(Flaw::Step(number)) if number > 18),
    ),
    feed("for an unused argument", 250, |case| case.account.flaw == Some(Flaw::Argument)),
    feed("in a record begun before", 150, |case| {
        case.account.flaw.is_some() && case.carried() > 0 && case.account.answers.len() == 1
    }),
    feed("in a later one", 150, |case| {
        case.account.flaw.is_some() && case.account.answers.len() > 1
    }),
    feed("with bytes behind it", 100, |case| case.behind() > Some(0)),
    feed("with a record behind it", 150, |case| case.behind() >= Some(60)),
    feed("from a hart that none can hold", 1000, |case| {
        case.account.flaw.is_some() && !case.account.hart.can_hold()
    }),
    feed("with refusal 3", 150, |case| case.account.refused(Refusal::State)),
    feed("healed by a reset", 800, |case| case.account.healed),
    feed("with refusal 1", 400, |case| case.account.refused(Refusal::Size)),
    feed("with refusal 2", 100, |case| case.account.refused(Refusal::Argument)),
    feed("with refusal 13", 250, |case| case.account.refused(Refusal::Memory)),
    feed("with the map made anew", 40, |case| case.account.made_anew),
    feed("with its registers changed and changed back", 400, |case| {
        case.account.is_changed_back(&case.kept)
    }),
    feed("with another map handed back", 20, Case::keeps_other_map),
];

const fn feed(name: &'static str, one_in: u64, holds: fn(&Case) -> bool) -> Class<Case> {
    Class { name, one_in, holds }
}

/// A trace that has been fed.
pub struct Fed {
    pub end: Kept,
    pub answers: Vec<u64>,
    pub feeds: usize,
    /// The memories lent to records in order, each with the end of the bytes it was lent to.
    pub pieces: Vec<(usize, usize)>,
    pub made_anew: bool,
    pub broken: bool,
    /// Whether a record came in three feeds or more.
    pub split: bool,
    /// The memory lent when the record at hand began.
    pub begun_with: usize,
    /// Whether a record was begun with another memory than it ended with.
    pub changed_within: bool,
    /// Whether the first memory alone would have given other answers.
    pub hangs_on_memory: bool,
    /// Whether the state at the start is one that no hart can hold.
    pub unheld: bool,
}

impl Fed {
    pub fn new(start: Kept) -> Fed {
        Fed {
            end: start,
            answers: Vec::new(),
            feeds: 0,
            pieces: Vec::new(),
            made_anew: false,
            broken: false,
            split: false,
            begun_with: 0,
            changed_within: false,
            hangs_on_memory: false,
            unheld: false,
        }
    }

    fn is_cut_off(&self) -> bool {
        !self.end.carried().is_empty()
    }
}

pub const TRACES: [Class<Fed>; 12] = [
    fed("whole", 10, |fed| !fed.end.is_stopped() && !fed.is_cut_off()),
    fed("cut off", 10, Fed::is_cut_off),
    fed("broken", 10, |fed| fed.broken),
    fed("with no answer", 20, |fed| fed.answers.is_empty()),
    fed("with 40 answers or more", 60, |fed| fed.answers.len() >= 160),
    fed("by one feed", 10, |fed| fed.feeds == 1),
    fed("by ten or more", 10, |fed| fed.feeds >= 10),
    fed("with a record in three or more", 5, |fed| fed.split),
    fed("lent several memories", 10, |fed| fed.pieces.len() > 1),
    fed("with one changed inside a record", 10, |fed| fed.changed_within),
    fed("answered by which is lent when", 40, |fed| fed.hangs_on_memory),
    fed("from a state that no hart can hold", 20, |fed| fed.unheld),
];

const fn fed(name: &'static str, one_in: u64, holds: fn(&Fed) -> bool) -> Class<Fed> {
    Class { name, one_in, holds }
}
