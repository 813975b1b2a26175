//! Entry of traps.

use crate::answer::{Answer, Cause, Entry};
use crate::hart::{Hart, MACHINE, Mode};
use crate::status;

const INSTRUCTION_ADDRESS_MISALIGNED: u64 = 0;
const ILLEGAL_INSTRUCTION: u64 = 2;
const BREAKPOINT: u64 = 3;
/// The exception of ECALL from U; that from S is 9, and from M 11.
const ENVIRONMENT_CALL: u64 = 8;

impl Hart {
    /// Raises an exception that comes from no access: no entry decided.
    pub(crate) fn exception(&mut self, code: u64, value: u64) -> Answer {
        self.trap(code, value, None)
    }

    /// Raises the fault of an access, with the entry that decided.
    pub(crate) fn access_fault(&mut self, code: u64, address: u64, entry: Entry) -> Answer {
        self.trap(code, address, entry)
    }

    /// An exception goes to S if delegated, but never out of M.
    fn trap(&mut self, code: u64, value: u64, entry: Entry) -> Answer {
        let delegated = self.mode != MACHINE && self.medeleg >> code & 1 == 1;
        let destination = if delegated { Mode::Supervisor } else { Mode::Machine };
        let cause = Cause::Exception(code);
        self.enter(cause, value, destination);
        Answer::Trapped { cause, destination, entry }
    }

    pub(crate) fn illegal_instruction(&mut self) -> Answer {
        self.exception(ILLEGAL_INSTRUCTION, 0)
    }

    pub(crate) fn ecall(&mut self) -> Answer {
        self.exception(ENVIRONMENT_CALL + self.mode, 0)
    }

    pub(crate) fn ebreak(&mut self) -> Answer {
        self.exception(BREAKPOINT, 0)
    }

    pub(crate) fn misaligned_target(&mut self, target: u64) -> Answer {
        self.exception(INSTRUCTION_ADDRESS_MISALIGNED, target)
    }

    pub(crate) fn enter(&mut self, cause: Cause, value: u64, destination: Mode) {
        match destination {
            Mode::Supervisor => self.enter_supervisor(cause, value),
            _ => self.enter_machine(cause, value),
        }
    }

    fn enter_machine(&mut self, cause: Cause, value: u64) {
        self.mepc = self.pc;
        self.mcause = cause.word();
        self.mtval = value;
        let enabled = self.mstatus & status::MIE != 0;
        self.mstatus = status::with(self.mstatus, status::MPIE, enabled);
        self.mstatus = status::with(self.mstatus, status::MIE, false);
        self.mstatus = status::with_mpp(self.mstatus, self.mode);
        self.mode = MACHINE;
        self.pc = handler(self.mtvec, cause);
    }

    /// Only U and S come here, so the one bit of SPP holds the old mode.
    fn enter_supervisor(&mut self, cause: Cause, value: u64) {
        self.sepc = self.pc;
        self.scause = cause.word();
        self.stval = value;
        let enabled = self.mstatus & status::SIE != 0;
        self.mstatus = status::with(self.mstatus, status::SPIE, enabled);
        self.mstatus = status::with(self.mstatus, status::SIE, false);
        let from_supervisor = self.mode == Mode::Supervisor.number();
        self.mstatus = status::with(self.mstatus, status::SPP, from_supervisor);
        self.mode = Mode::Supervisor.number();
        self.pc = handler(self.stvec, cause);
    }
}

/// Where a trap goes: only interrupts are vectored.
fn handler(tvec: u64, cause: Cause) -> u64 {
    let base = tvec & !3;
    match cause {
        Cause::Interrupt(code) if tvec & 3 == 1 => base.wrapping_add(4 * code),
        _ => base,
    }
}
