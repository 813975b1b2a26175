//! What a write leaves in a CSR: the bits a hart can hold, and no others.

use super::number::*;
use crate::hart::Hart;
use crate::holdable::{can_hold_satp_mode, can_hold_tvec, mask};
use crate::status;

/// The supervisor software interrupt, the one pending bit S may write.
const SSIP: u64 = 1 << 1;

impl Hart {
    /// Writes a CSR that is present and writable; those not named keep what
    /// they have. Says whether a protection register differs afterwards.
    pub(super) fn write_csr(&mut self, number: u64, value: u64) -> bool {
        match number {
            SSTATUS..=SATP => self.write_supervisor_csr(number, value),
            PMPCFG0 => return self.write_pmpcfg(0, value),
            PMPCFG2 => return self.write_pmpcfg(8, value),
            PMPADDR0..=PMPADDR15 => {
                return self.write_pmpaddr((number - PMPADDR0) as usize, value);
            }
            MCYCLE => self.mcycle = value,
            MINSTRET => self.minstret = value,
            _ => self.write_machine_csr(number, value),
        }
        false
    }

    fn write_supervisor_csr(&mut self, number: u64, value: u64) {
        match number {
            SSTATUS => self.mstatus = replace(self.mstatus, mask::SSTATUS, value),
            SIE => self.mie = replace(self.mie, self.mideleg, value),
            STVEC => write_tvec(&mut self.stvec, value),
            SCOUNTEREN => self.scounteren = value & mask::COUNTERS,
            SSCRATCH => self.sscratch = value,
            SEPC => self.sepc = value & mask::EPC,
            SCAUSE => self.scause = value & mask::CAUSE,
            STVAL => self.stval = value,
            SIP => self.mip = replace(self.mip, SSIP & self.mideleg, value),
            SATP if can_hold_satp_mode(value) => self.satp = value & mask::SATP,
            _ => {}
        }
    }

    fn write_machine_csr(&mut self, number: u64, value: u64) {
        match number {
            MSTATUS => self.write_mstatus(value),
            MEDELEG => self.medeleg = value & mask::MEDELEG,
            MIDELEG => self.mideleg = value & mask::MIDELEG,
            MIE => self.mie = value & mask::MIE,
            MTVEC => write_tvec(&mut self.mtvec, value),
            MCOUNTEREN => self.mcounteren = value & mask::COUNTERS,
            MCOUNTINHIBIT => self.mcountinhibit = value & mask::COUNTERS,
            MSCRATCH => self.mscratch = value,
            MEPC => self.mepc = value & mask::EPC,
            MCAUSE => self.mcause = value & mask::CAUSE,
            MTVAL => self.mtval = value,
            MIP => self.mip = value & mask::SOFTWARE_INTERRUPTS,
            _ => {}
        }
    }

    /// MPP keeps its old field where 2 would come to stand there.
    fn write_mstatus(&mut self, value: u64) {
        let mpp = match status::mpp(value) {
            2 => status::mpp(self.mstatus),
            written => written,
        };
        self.mstatus = status::with_mpp(status::FIXED | value & mask::MSTATUS, mpp);
    }
}

/// `old` with the bits of `mask` taken from `value`.
fn replace(old: u64, mask: u64, value: u64) -> u64 {
    old & !mask | value & mask
}

/// A MODE that cannot be held makes the whole write void.
fn write_tvec(tvec: &mut u64, value: u64) {
    if can_hold_tvec(value) {
        *tvec = value;
    }
}
