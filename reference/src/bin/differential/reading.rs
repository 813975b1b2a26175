//! What a query reads of its map, written apart from the model's query, so that the
//! counts do not lean on that.

use reference::capi::Question;
use reference::protection::leaves_memory;
use reference::{Map, NONE};

use crate::lent::Lent;

/// The range read for a byte: its number and its owner.
type Read = Option<(usize, u64)>;

/// What is read for each byte of an access; nothing past memory.
pub struct Reading {
    bytes: Vec<Read>,
    granted: bool,
}

impl Reading {
    pub fn of(lent: &Lent, question: Question, granted: bool) -> Reading {
        let Question { address, size, .. } = question;
        let map = Map::from_words(&lent.map);
        let inside = if leaves_memory(address, size) { 0 } else { size };
        let bytes = (0..inside).map(|offset| read(&map, address + offset)).collect();
        Reading { bytes, granted }
    }

    pub fn is_empty(&self) -> bool {
        self.bytes.is_empty()
    }

    pub fn granted(&self) -> bool {
        self.granted
    }

    /// Whether a byte is in no range.
    pub fn has_gap(&self) -> bool {
        self.bytes.contains(&None)
    }

    pub fn is_refused(&self) -> bool {
        self.bytes.iter().any(|byte| !readable(byte))
    }

    pub fn is_refused_at_once(&self) -> bool {
        self.bytes.first().is_some_and(|byte| !readable(byte))
    }

    pub fn is_refused_later(&self) -> bool {
        self.is_refused() && !self.is_refused_at_once()
    }

    /// The owners of all bytes that are in a range.
    pub fn owners(&self) -> impl Iterator<Item = u64> {
        self.bytes.iter().flatten().map(|&(_, owner)| owner)
    }

    /// Whether bytes that can be read have several owners.
    pub fn owners_differ(&self) -> bool {
        let mut good = self.owners().filter(|&owner| owner <= NONE);
        good.next().is_some_and(|first| good.any(|owner| owner != first))
    }

    pub fn lowest(&self) -> Option<u64> {
        self.owners().min()
    }

    pub fn first(&self) -> Option<u64> {
        self.owners().next()
    }

    fn is_of_one_owner(&self) -> bool {
        !self.bytes.is_empty()
            && !self.is_refused()
            && self.owners().all(|owner| Some(owner) == self.lowest())
    }

    pub fn is_partial(&self) -> bool {
        !self.bytes.is_empty() && !self.is_refused() && !self.is_of_one_owner()
    }

    pub fn is_none(&self) -> bool {
        self.is_of_one_owner() && self.lowest() == Some(NONE)
    }

    /// Whether several ranges with one owner are read.
    pub fn is_joined(&self) -> bool {
        self.is_of_one_owner() && self.numbers().any(|number| Some(number) != self.numbers().next())
    }

    pub fn has_lower_inside(&self) -> bool {
        self.numbers().min() < self.numbers().next()
    }

    fn numbers(&self) -> impl Iterator<Item = usize> {
        self.bytes.iter().flatten().map(|&(number, _)| number)
    }
}

fn read(map: &Map, byte: u64) -> Read {
    let ranges = map.listed().iter().enumerate();
    let mut holding = ranges.filter(|(_, range)| (range.first..=range.last).contains(&byte));
    holding.next().map(|(number, range)| (number, range.owner))
}

fn readable(byte: &Read) -> bool {
    byte.is_some_and(|(_, owner)| owner <= NONE)
}
