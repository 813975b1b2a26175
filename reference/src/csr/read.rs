//! What a CSR shows.

use super::number::*;
use crate::hart::Hart;
use crate::holdable::mask;
use crate::status;

/// RV64 with A, I, M, S and U.
const MISA_VALUE: u64 = 0x8000_0000_0014_1101;

impl Hart {
    /// The interrupts pending: software bits or lines.
    pub(crate) fn pending(&self) -> u64 {
        self.mip | self.lines
    }

    /// The value shown by a CSR that is present; those not named read 0.
    pub(super) fn read_csr(&self, number: u64) -> u64 {
        match number {
            SSTATUS..=SATP => self.read_supervisor_csr(number),
            PMPCFG0 => self.configuration_register(0),
            PMPCFG2 => self.configuration_register(8),
            PMPADDR0..=PMPADDR15 => self.read_pmpaddr((number - PMPADDR0) as usize),
            MCYCLE | CYCLE => self.mcycle,
            MINSTRET | INSTRET => self.minstret,
            _ => self.read_machine_csr(number),
        }
    }

    fn read_supervisor_csr(&self, number: u64) -> u64 {
        match number {
            SSTATUS => self.mstatus & mask::SSTATUS | status::UXL,
            SIE => self.mie & self.mideleg,
            STVEC => self.stvec,
            SCOUNTEREN => self.scounteren,
            SSCRATCH => self.sscratch,
            SEPC => self.sepc,
            SCAUSE => self.scause,
            STVAL => self.stval,
            SIP => self.pending() & self.mideleg,
            SATP => self.satp,
            _ => 0,
        }
    }

    fn read_machine_csr(&self, number: u64) -> u64 {
        match number {
            MSTATUS => self.mstatus,
            MISA => MISA_VALUE,
            MEDELEG => self.medeleg,
            MIDELEG => self.mideleg,
            MIE => self.mie,
            MTVEC => self.mtvec,
            MCOUNTEREN => self.mcounteren,
            MCOUNTINHIBIT => self.mcountinhibit,
            MSCRATCH => self.mscratch,
            MEPC => self.mepc,
            MCAUSE => self.mcause,
            MTVAL => self.mtval,
            MIP => self.pending(),
            _ => 0,
        }
    }
}
