//! Returns from traps.

use crate::answer::Answer;
use crate::hart::{Hart, MACHINE, SUPERVISOR, USER};
use crate::status;

impl Hart {
    /// Whether an instruction of S that the bit `trap` of mstatus takes away
    /// is legal: M is free of the bit.
    pub(crate) fn may_execute_in_supervisor(&self, trap: u64) -> bool {
        self.mode == MACHINE || self.mode == SUPERVISOR && self.mstatus & trap == 0
    }

    pub(crate) fn mret(&mut self) -> Answer {
        if self.mode != MACHINE {
            return self.illegal_instruction();
        }
        let mpp = status::mpp(self.mstatus);
        let enabled = self.mstatus & status::MPIE != 0;
        self.mstatus = status::with(self.mstatus, status::MIE, enabled);
        self.mstatus = status::with(self.mstatus, status::MPIE, true);
        self.mstatus = status::with_mpp(self.mstatus, USER);
        if mpp != MACHINE {
            self.mstatus = status::with(self.mstatus, status::MPRV, false);
        }
        self.mode = mpp;
        self.pc = self.mepc;
        Answer::Done
    }

    pub(crate) fn sret(&mut self) -> Answer {
        if !self.may_execute_in_supervisor(status::TSR) {
            return self.illegal_instruction();
        }
        let to_supervisor = self.mstatus & status::SPP != 0;
        let enabled = self.mstatus & status::SPIE != 0;
        self.mstatus = status::with(self.mstatus, status::SIE, enabled);
        self.mstatus = status::with(self.mstatus, status::SPIE, true);
        self.mstatus = status::with(self.mstatus, status::SPP | status::MPRV, false);
        self.mode = if to_supervisor { SUPERVISOR } else { USER };
        self.pc = self.sepc;
        Answer::Done
    }
}
