//! What a hart can hold.

use crate::form::Form;
use crate::grain::COARSEST;
use crate::hart::{Hart, MACHINE, SUPERVISOR, USER};
use crate::status;
use crate::sv39::satp;

/// The writable bits of each register; all other bits have one value only.
pub mod mask {
    pub const MSTATUS: u64 = 0x7E_19AA;
    pub const SSTATUS: u64 = 0xC_0122;
    pub const MEDELEG: u64 = 0xB3FF;
    pub const MIDELEG: u64 = 0x222;
    pub const MIE: u64 = 0xAAA;
    pub const SOFTWARE_INTERRUPTS: u64 = 0x222;
    pub const LINES: u64 = 0xA88;
    pub const COUNTERS: u64 = 0x5;
    pub const CAUSE: u64 = 0x8000_0000_0000_003F;
    pub const EPC: u64 = !3;
    pub const PMPCFG: u8 = 0x9F;
    pub const PMPADDR: u64 = (1 << 54) - 1;
    /// MODE 0 or 8, and PPN.
    pub const SATP: u64 = 1 << 63 | ((1 << 44) - 1);

    /// What the first form of a text has room for.
    pub mod first_form {
        pub const MSTATUS: u64 = 0x7A_19AA;
        pub const MEDELEG: u64 = 0x3FF;
    }
}

impl Hart {
    /// Whether a hart can be in this state.
    pub fn can_hold(&self) -> bool {
        matches!(self.mode, USER | SUPERVISOR | MACHINE)
            && self.can_hold_addresses()
            && can_hold_mstatus(self.mstatus)
            && self.can_hold_interrupts()
            && self.can_hold_counters()
            && within(self.medeleg, mask::MEDELEG)
            && within(self.mcause, mask::CAUSE)
            && within(self.scause, mask::CAUSE)
            && within(self.satp, mask::SATP)
            && self.can_hold_protection()
    }

    /// Whether a text of this form can hold what this hart does.
    pub fn has_text(&self, form: Form) -> bool {
        form == Form::Second
            || self.satp == 0
                && self.grain == 0
                && within(self.mstatus, status::FIXED | mask::first_form::MSTATUS)
                && within(self.medeleg, mask::first_form::MEDELEG)
    }

    fn can_hold_addresses(&self) -> bool {
        within(self.pc, mask::EPC)
            && within(self.mepc, mask::EPC)
            && within(self.sepc, mask::EPC)
            && can_hold_tvec(self.mtvec)
            && can_hold_tvec(self.stvec)
    }

    fn can_hold_interrupts(&self) -> bool {
        within(self.mideleg, mask::MIDELEG)
            && within(self.mie, mask::MIE)
            && within(self.mip, mask::SOFTWARE_INTERRUPTS)
            && within(self.lines, mask::LINES)
    }

    fn can_hold_counters(&self) -> bool {
        within(self.mcounteren, mask::COUNTERS)
            && within(self.scounteren, mask::COUNTERS)
            && within(self.mcountinhibit, mask::COUNTERS)
    }

    fn can_hold_protection(&self) -> bool {
        self.grain <= COARSEST
            && self.pmpcfg.iter().all(|&byte| can_hold_pmpcfg(byte) && !self.bars(byte))
            && self.pmpaddr.iter().all(|&word| within(word, mask::PMPADDR))
    }
}

/// Whether `word` has no bit outside `mask`.
pub fn within(word: u64, mask: u64) -> bool {
    word & !mask == 0
}

pub fn can_hold_tvec(tvec: u64) -> bool {
    matches!(tvec & 3, 0 | 1)
}

/// Whether a written MODE is one that satp can have.
pub fn can_hold_satp_mode(value: u64) -> bool {
    matches!(value >> satp::MODE_SHIFT, satp::BARE | satp::SV39)
}

fn can_hold_mstatus(mstatus: u64) -> bool {
    mstatus & !mask::MSTATUS == status::FIXED && status::mpp(mstatus) != 2
}

fn can_hold_pmpcfg(byte: u8) -> bool {
    byte & !mask::PMPCFG == 0 && byte & 3 != 2
}
