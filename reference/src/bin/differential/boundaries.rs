//! Settings that make as many ranges as sixteen entries can: their maps, judged by
//! request [7], and accesses at every boundary.

use std::fmt::{self, Display, Formatter};

use reference::boundaries::{ends, inner_boundaries};
use reference::capi::Question;
use reference::csr::number;
use reference::generate::Setting;
use reference::protection::LOCK;
use reference::random::Random;
use reference::{Form, Hart, MACHINE, Map, Mode, RANGES, generate, mask};

use crate::accesses::compare_access;
use crate::compare::step_both;
use crate::lent::Lent;
use crate::report::{Difference, Stage};
use crate::sizes::Sizes;
use crate::texts::compare_restore;

/// How many maps of a walk have 33 ranges: two for each such setting. Of the
/// entries that are apart, 4 kinds in 48 orders; of the nests, 2 kinds in the one
/// order that hides nothing; of the pairs, the 8 rising orders that begin with a
/// whole pair; and one hull, that which is the highest entry.
const FULL_MAPS: u64 = 2 * (4 * 48 + 2 + 8 + 1);

const WRITE: u64 = 1;

/// How many maps were judged, and how many of them had 33 ranges.
#[derive(Default)]
pub struct Judged {
    maps: u64,
    full: u64,
}

impl Judged {
    /// Judges the product's own map by the request.
    fn judge(&mut self, lent: &Lent) -> Result<(), String> {
        let map = Map::from_words(&lent.map);
        ends(&Hart::from_words(&lent.hart), &map)
            .map_err(|wrong| format!("{}{wrong}", lent.text()))?;
        self.maps += 1;
        self.full += u64::from(map.count == RANGES as u64);
        Ok(())
    }
}

impl Display for Judged {
    fn fmt(&self, formatter: &mut Formatter) -> fmt::Result {
        write!(formatter, "{} maps ({} with {RANGES} ranges)", self.maps, self.full)
    }
}

/// Every setting, each from a state in M that is random in all else. Its map is
/// left once by a step and once by a text read back. Gives how many maps had 33
/// ranges, which must be as many as counted by hand.
pub fn walk(sizes: &Sizes) -> Result<Judged, Difference> {
    let mut judged = Judged::default();
    let settings = generate::settings();
    let cases = sizes.walks * settings.len() as u64;
    Stage::new("boundaries", sizes, cases).run(|random, case| {
        let hart = with_setting(random, &settings[case as usize % settings.len()]);
        judged.judge(&write_last(random, &hart)?)?;
        let form = random.pick(&Form::ALL);
        let text = form.text(&hart.to_words());
        let (_, restored) = compare_restore(form, &text, &Lent::random(random))?;
        judged.judge(&restored)?;
        compare_boundaries(random, &restored)
    })?;
    let expected = sizes.walks * FULL_MAPS;
    if sizes.only.is_none() && judged.full != expected {
        return Err(Difference(format!(
            "boundaries\nthe walks do not fill maps as they must: {} maps have {RANGES} ranges, \
             and {expected} must",
            judged.full
        )));
    }
    Ok(judged)
}

fn with_setting(random: &mut Random, setting: &Setting) -> Hart {
    let hart = generate::narrowed(&generate::finest(random));
    setting.put(&Hart { mode: MACHINE, ..hart })
}

/// Writes one of the protection registers last, from a map of any kind. No entry
/// is locked.
fn write_last(random: &mut Random, hart: &Hart) -> Result<Lent, String> {
    let hart = Hart { pmpcfg: hart.pmpcfg.map(|byte| byte & !LOCK), ..*hart };
    let (start, number, value) = before_write(&hart, random.index(18));
    let map = generate::map(random, &start).to_words();
    step_both(&Lent::new(start.to_words(), map), [WRITE, number, value])
}

/// The hart before the write, its number and its value. All bits of a pmpaddr
/// differ, or the A fields of all entries, so that the map must be compiled.
fn before_write(hart: &Hart, register: usize) -> (Hart, u64, u64) {
    let mut start = *hart;
    if register < 16 {
        start.pmpaddr[register] ^= mask::PMPADDR;
        return (start, number::PMPADDR0 + register as u64, hart.pmpaddr[register]);
    }
    let lowest = 8 * (register - 16);
    for byte in &mut start.pmpcfg[lowest..lowest + 8] {
        *byte ^= 3 << 3;
    }
    let number = if lowest == 0 { number::PMPCFG0 } else { number::PMPCFG2 };
    (start, number, hart.configuration_register(lowest))
}

/// At each boundary the byte before it, the byte at it, and 8 bytes across it.
fn compare_boundaries(random: &mut Random, lent: &Lent) -> Result<(), String> {
    for boundary in inner_boundaries(&Map::from_words(&lent.map)) {
        for (before, size) in [(1, 1), (0, 1), (4, 8)] {
            let mode = random.pick(&Mode::ALL).number();
            let (kind, address) = (random.below(3), boundary.wrapping_sub(before));
            compare_access(lent, Question { mode, kind, address, size })?;
        }
    }
    Ok(())
}
