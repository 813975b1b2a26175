//! What the first form of a text has no room for, judged apart from the model.

use reference::Hart;
use reference::status::SUM;

#[derive(Clone, Copy)]
pub enum Wide {
    Satp,
    Sum,
    Medeleg,
    Grain,
}

/// Whether a hart holds this and nothing else that the first form has no room for.
pub fn is_alone(hart: &Hart, wide: Wide) -> bool {
    let held =
        [hart.satp != 0, hart.mstatus & SUM != 0, hart.medeleg & !0x3FF != 0, hart.grain != 0];
    held[wide as usize] && held.into_iter().filter(|&held| held).count() == 1
}
