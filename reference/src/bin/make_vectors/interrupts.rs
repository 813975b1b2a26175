//! Interrupts: what is takeable, and which of several is taken.

use reference::csr::number::MSTATUS;
use reference::status::{MPIE, SIE};
use reference::{MACHINE, SUPERVISOR, USER};

use crate::steps::{ECALL, LINES, READ, TAKE, WFI, WRITE};
use crate::traps::enter;
use crate::vector::Vector;

pub fn vectors() -> Vec<Vector> {
    vec![interrupts(), mixed_delegation()]
}

/// Vectored entry to M and, over the end of the addresses, to S; all enabled.
fn all_enabled() -> Vec<[u64; 3]> {
    vec![[WRITE, 0x305, 0x8000_0001], [WRITE, 0x105, u64::MAX - 2], [WRITE, 0x304, u64::MAX]]
}

/// From M into a mode, with this delegation, mstatus, and pending by lines and
/// by software. The return takes MIE from MPIE.
fn arrange(mideleg: u64, mode: u64, mstatus: u64, pending: (u64, u64)) -> Vec<[u64; 3]> {
    let (lines, software) = pending;
    let mut steps = vec![[WRITE, 0x303, mideleg], [WRITE, MSTATUS, mstatus]];
    steps.extend([[WRITE, 0x344, software], [LINES, lines, 0]]);
    steps.extend(enter(mode));
    steps
}

/// Interrupts of all lines, of one that can be delegated, and of software
/// alone, in every mode, under no, all and one delegation, and with each of the
/// global enables. The ECALLs, not delegated, lead back to M.
fn interrupts() -> Vector {
    let mut steps = all_enabled();
    for mideleg in [0, 0x222, 0x020] {
        for mode in [USER, SUPERVISOR, MACHINE] {
            for enables in [0, MPIE | SIE] {
                for pending in [(0xA88, 0x222), (0x200, 0), (0, 0x22), (0, 0)] {
                    steps.extend(arrange(mideleg, mode, enables, pending));
                    steps.extend([[TAKE, 0, 0], [TAKE, 0, 0], [WFI, 0, 0], [READ, 0x144, 0]]);
                    steps.extend([[ECALL, 0, 0], [ECALL, 0, 0], [READ, 0x142, 0]]);
                }
            }
        }
    }
    Vector::of_steps("interrupts", None, &steps)
}

/// Several interrupts at once, some delegated and some not: those bound for M
/// come first (request [2] of document 02, whose own case is the first here).
/// scause and mcause tell which was taken; reading mcause below M is illegal,
/// which leads back to M.
fn mixed_delegation() -> Vector {
    let mut steps = all_enabled();
    for mideleg in [0x200, 0x202, 0x220, 0x002, 0x020, 0x022] {
        for (mode, enables) in [(SUPERVISOR, SIE), (SUPERVISOR, 0), (USER, 0), (MACHINE, MPIE)] {
            for pending in [(0x200, 0x20), (0, 0x222), (0x200, 0x22), (0, 0x22), (0x80, 0x222)] {
                steps.extend(arrange(mideleg, mode, enables, pending));
                steps.extend([[TAKE, 0, 0], [READ, 0x142, 0], [READ, 0x342, 0]]);
                steps.extend([[READ, 0x341, 0], [READ, MSTATUS, 0]]);
            }
        }
    }
    Vector::of_steps("interrupts-mixed-delegation", None, &steps)
}
