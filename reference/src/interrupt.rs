//! Taking interrupts, and waiting for them.

use crate::answer::{Answer, Cause};
use crate::hart::{Hart, MACHINE, Mode, SUPERVISOR, USER};
use crate::status;

/// The order in which interrupts bound for one mode are taken.
const PRIORITY: [u64; 6] = [11, 3, 7, 9, 1, 5];

impl Hart {
    /// Takes the next interrupt, if one is takeable.
    pub(crate) fn take_interrupt(&mut self) -> Answer {
        match self.next_interrupt() {
            Some(code) => {
                let destination = self.interrupt_destination(code);
                self.enter(Cause::Interrupt(code), 0, destination);
                Answer::Decision(true)
            }
            None => Answer::Decision(false),
        }
    }

    /// The interrupt to take: the first takeable one bound for M, and where there
    /// is none, the first bound for S (request [2] of document 02).
    pub fn next_interrupt(&self) -> Option<u64> {
        self.first_takeable(Mode::Machine).or_else(|| self.first_takeable(Mode::Supervisor))
    }

    fn first_takeable(&self, destination: Mode) -> Option<u64> {
        let bound = |code: &u64| self.interrupt_destination(*code) == destination;
        PRIORITY.into_iter().filter(bound).find(|&code| self.takeable(code))
    }

    /// Goes on without a stall, and says whether an enabled interrupt pends,
    /// whatever its delegation and the global enables.
    pub(crate) fn wfi(&mut self) -> Answer {
        if !self.may_execute_in_supervisor(status::TW) {
            return self.illegal_instruction();
        }
        self.step_over();
        Answer::Decision(self.pending() & self.mie != 0)
    }

    /// Whether the interrupt pends, is enabled, and may interrupt the mode the
    /// hart is in.
    pub fn takeable(&self, code: u64) -> bool {
        let enabled = self.pending() & self.mie;
        enabled >> code & 1 == 1
            && match self.interrupt_destination(code) {
                Mode::Supervisor => self.supervisor_interrupts_enabled(),
                _ => self.machine_interrupts_enabled(),
            }
    }

    fn interrupt_destination(&self, code: u64) -> Mode {
        if self.mideleg >> code & 1 == 1 { Mode::Supervisor } else { Mode::Machine }
    }

    fn machine_interrupts_enabled(&self) -> bool {
        self.mode < MACHINE || self.mstatus & status::MIE != 0
    }

    fn supervisor_interrupts_enabled(&self) -> bool {
        self.mode == USER || self.mode == SUPERVISOR && self.mstatus & status::SIE != 0
    }
}
