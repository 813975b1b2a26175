//! Addresses of accesses: close to borders, mostly.

use super::grain::is_coarse;
use crate::hart::Hart;
use crate::map::Map;
use crate::protection::MEMORY;
use crate::random::Random;

pub fn address(random: &mut Random, hart: &Hart, map: &Map) -> u64 {
    let entry = random.index(16);
    let border = match random.below(10) {
        0 => return random.below(160),
        1 => return random.word(),
        2 => return random.below(MEMORY),
        3 => MEMORY,
        4 => 0,
        5 => 4u64.wrapping_mul(pmpaddr(random, hart, entry)),
        6 => {
            let pmpaddr = pmpaddr(random, hart, entry);
            napot_border(random, pmpaddr)
        }
        _ => range_border(random, map),
    };
    border.wrapping_add(random.below(19)).wrapping_sub(9)
}

/// An address from which most accesses lie across an end of a range of the map.
pub fn near_range(random: &mut Random, map: &Map) -> u64 {
    range_border(random, map).wrapping_add(2).wrapping_sub(random.below(10))
}

/// As stored or, with a coarser grain, at times as it is read.
fn pmpaddr(random: &mut Random, hart: &Hart, entry: usize) -> u64 {
    if is_coarse(hart) && random.once_in(2) {
        return hart.read_pmpaddr(entry);
    }
    hart.pmpaddr[entry]
}

fn napot_border(random: &mut Random, pmpaddr: u64) -> u64 {
    let ones = pmpaddr.trailing_ones().min(54);
    let first = pmpaddr & !((1 << ones) - 1);
    let size = random.below(2) << (ones + 1);
    first.wrapping_add(size).wrapping_mul(4)
}

fn range_border(random: &mut Random, map: &Map) -> u64 {
    let listed = map.listed();
    if listed.is_empty() {
        return 0;
    }
    let range = random.pick(listed);
    random.pick(&[range.first, range.last])
}
