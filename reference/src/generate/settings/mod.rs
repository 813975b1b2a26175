//! Settings of all sixteen entries: some make as many ranges as such entries can,
//! others show why they make fewer. Each has the number of its ranges, counted by
//! hand. They are all listed, none drawn.

mod apart;
mod nested;
mod tor;

use std::array;

use crate::hart::Hart;

pub struct Setting {
    /// The A field and pmpaddr of each entry.
    pub entries: [(u8, u64); 16],
    /// How many ranges the map has.
    pub ranges: u64,
}

impl Setting {
    fn new(ranges: u64, entry: impl FnMut(usize) -> (u8, u64)) -> Setting {
        Setting { entries: array::from_fn(entry), ranges }
    }

    /// The hart with these entries; their rights and locks stay as they are.
    pub fn put(&self, hart: &Hart) -> Hart {
        let mut hart = *hart;
        for (entry, &(matching, pmpaddr)) in self.entries.iter().enumerate() {
            hart.pmpcfg[entry] = hart.pmpcfg[entry] & !(3 << 3) | matching << 3;
            hart.pmpaddr[entry] = pmpaddr;
        }
        hart
    }
}

pub fn settings() -> Vec<Setting> {
    let mut settings = apart::settings();
    settings.extend(nested::settings());
    settings.extend(tor::settings());
    settings
}

/// For each entry its place among sixteen, in memory or in a nest.
type Order = [u64; 16];
/// The pmpaddr of an entry by its place.
type Pmpaddr = fn(u64) -> u64;

/// Rising, falling and mixed, each in every rotation.
fn orders() -> impl Iterator<Item = Order> {
    [1, 15, 7].into_iter().flat_map(|stride| (0..16).map(move |turn| turned(stride, turn)))
}

fn turned(stride: u64, turn: u64) -> Order {
    array::from_fn(|entry| (stride * entry as u64 + turn) % 16)
}
