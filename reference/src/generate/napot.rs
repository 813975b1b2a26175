//! The shapes of a NAPOT address register. They are all listed, none drawn.

use crate::holdable::mask;

/// Every pmpaddr of up to 54 trailing ones, the zero above them, and above that
/// nothing, a single one at any place, or ones alone.
pub fn napot_registers() -> Vec<u64> {
    (0..=54).flat_map(with_trailing_ones).collect()
}

fn with_trailing_ones(count: u32) -> Vec<u64> {
    let ones = (1 << count) - 1;
    let above = mask::PMPADDR & !(ones << 1 | 1);
    let single = (0..54).map(|place| above & 1 << place);
    let mut registers: Vec<u64> = single.chain([0, above]).map(|bits| bits | ones).collect();
    registers.sort_unstable();
    registers.dedup();
    registers
}
