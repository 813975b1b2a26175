//! Accesses, asked of the map and of the registers: one, or those at the ends of an entry.

use reference::capi::Question;
use reference::sv39::satp;
use reference::{Access, Hart, MACHINE, STEP_WORDS, SUPERVISOR, Step, USER, status};

use crate::compare::compare_step;
use crate::lent::Lent;
use crate::queries::compare_query;

/// The kinds of access in a query are in the order of the steps from this one on.
const FETCH_STEP: u64 = 14;

/// Kinds of access, as in a query.
const FETCH: u64 = 0;
const LOAD: u64 = 1;
const STORE: u64 = 2;

/// The accesses to try at each border, by mode and kind. Their answers hang on
/// it, the entry being locked and readable alone: M may fetch and store only
/// outside, S and U may load only inside, and M may load on both sides, but not
/// across.
const BORDER_ACCESSES: [(u64, u64); 5] =
    [(MACHINE, FETCH), (MACHINE, LOAD), (MACHINE, STORE), (SUPERVISOR, LOAD), (USER, LOAD)];

/// What a step 14 to 16 asks for: the effective mode, the kind, the address and the size.
pub fn asked(hart: &Hart, words: [u64; STEP_WORDS]) -> Option<(u64, Access, u64, u64)> {
    match Step::from_words(words[0], words[1], words[2])? {
        Step::Fetch => Some((hart.mode, Access::Fetch, hart.pc, 4)),
        Step::Load { address, size } => Some((hart.effective_mode(), Access::Load, address, size)),
        Step::Store { address, size } => {
            Some((hart.effective_mode(), Access::Store, address, size))
        }
        _ => None,
    }
}

/// One access judged by the map and by a step. MPP is the mode, so that MPRV may
/// be either; a fetch is of the four bytes that hold the address. Addresses are not
/// translated.
pub fn compare_access(lent: &Lent, question: Question) -> Result<(), String> {
    compare_query(lent, question)?;
    let Question { mode, kind, address, size } = question;
    let hart = Hart::from_words(&lent.hart);
    let mstatus = status::with_mpp(hart.mstatus, mode);
    let hart = Hart { mode, mstatus, pc: address & !3, satp: hart.satp & satp::PPN, ..hart };
    let lent = Lent::new(hart.to_words(), lent.map);
    compare_step(&lent, [FETCH_STEP + kind, address, size]).map(drop)
}

/// The bytes on both sides of each border, and 8 bytes across it. What lies past
/// an end of memory is asked too.
pub fn compare_borders(lent: &Lent, borders: [u64; 2]) -> Result<(), String> {
    for border in borders {
        for (before, size) in [(1, 1), (0, 1), (4, 8)] {
            for (mode, kind) in BORDER_ACCESSES {
                let address = border.wrapping_sub(before);
                compare_access(lent, Question { mode, kind, address, size })?;
            }
        }
    }
    Ok(())
}
