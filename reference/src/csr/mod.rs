//! Control and status registers.

mod access;
mod locks;
mod read;
mod write;

pub use access::{Judge, Rule, lowest_mode, present, read_only};

use crate::answer::{Answer, Refusal};
use crate::hart::Hart;
use crate::map::Map;

/// Numbers of the registers that hold something.
pub mod number {
    pub const SSTATUS: u64 = 0x100;
    pub const SIE: u64 = 0x104;
    pub const STVEC: u64 = 0x105;
    pub const SCOUNTEREN: u64 = 0x106;
    pub const SSCRATCH: u64 = 0x140;
    pub const SEPC: u64 = 0x141;
    pub const SCAUSE: u64 = 0x142;
    pub const STVAL: u64 = 0x143;
    pub const SIP: u64 = 0x144;
    pub const SATP: u64 = 0x180;
    pub const MSTATUS: u64 = 0x300;
    pub const MISA: u64 = 0x301;
    pub const MEDELEG: u64 = 0x302;
    pub const MIDELEG: u64 = 0x303;
    pub const MIE: u64 = 0x304;
    pub const MTVEC: u64 = 0x305;
    pub const MCOUNTEREN: u64 = 0x306;
    pub const MCOUNTINHIBIT: u64 = 0x320;
    pub const MSCRATCH: u64 = 0x340;
    pub const MEPC: u64 = 0x341;
    pub const MCAUSE: u64 = 0x342;
    pub const MTVAL: u64 = 0x343;
    pub const MIP: u64 = 0x344;
    pub const PMPCFG0: u64 = 0x3A0;
    pub const PMPCFG2: u64 = 0x3A2;
    pub const PMPADDR0: u64 = 0x3B0;
    pub const PMPADDR15: u64 = 0x3BF;
    pub const MCYCLE: u64 = 0xB00;
    pub const MINSTRET: u64 = 0xB02;
    pub const CYCLE: u64 = 0xC00;
    pub const INSTRET: u64 = 0xC02;
}

/// The greatest CSR number there is.
pub const LAST_NUMBER: u64 = 4095;

/// How a CSR step writes.
#[derive(Clone, Copy, PartialEq, Eq, Debug)]
pub enum Operation {
    Write,
    Set,
    Clear,
}

impl Operation {
    fn apply(self, start: u64, operand: u64) -> u64 {
        match self {
            Operation::Write => operand,
            Operation::Set => start | operand,
            Operation::Clear => start & !operand,
        }
    }
}

impl Hart {
    /// Reads a CSR without a write attempt.
    pub(crate) fn csr_read_step<J: Judge>(&mut self, number: u64) -> Answer {
        if number > LAST_NUMBER {
            return Answer::Refused(Refusal::Argument);
        }
        if !J::is_legal(self, number, false) {
            return self.illegal_instruction();
        }
        let value = self.read_csr(number);
        self.step_over();
        Answer::Value(value)
    }

    /// Writes, sets or clears a CSR. The map is compiled anew exactly if a
    /// protection register differs afterwards.
    pub(crate) fn csr_write_step<J: Judge>(
        &mut self,
        map: &mut Map,
        number: u64,
        operation: Operation,
        operand: u64,
    ) -> Answer {
        if number > LAST_NUMBER {
            return Answer::Refused(Refusal::Argument);
        }
        if !J::is_legal(self, number, true) {
            return self.illegal_instruction();
        }
        let old = self.read_csr(number);
        let start = if number == number::MIP { self.mip } else { old };
        if self.write_csr(number, operation.apply(start, operand)) {
            *map = self.compile();
        }
        self.step_over();
        Answer::Value(old)
    }
}
