//! One step of a hart.

use crate::answer::{Answer, Refusal};
use crate::csr::{Judge, Rule};
use crate::grain::make;
use crate::hart::Hart;
use crate::holdable::{mask, within};
use crate::map::Map;
use crate::memory::Memory;
use crate::protection::Access;
use crate::step::Step;

/// The greatest cause that a raise may have.
const LAST_RAISED_CAUSE: u64 = 7;
const CYCLE_INHIBIT: u64 = 1 << 0;
const INSTRET_INHIBIT: u64 = 1 << 2;

/// Does one step in place, with words lent for page tables. A refusal changes neither
/// hart nor map.
pub fn step(hart: &mut Hart, map: &mut Map, memory: Memory, step: Step) -> Answer {
    step_judged_by::<Rule>(hart, map, memory, step)
}

/// The same, with another way to judge CSR accesses in place of the rule.
pub fn step_judged_by<J: Judge>(
    hart: &mut Hart,
    map: &mut Map,
    memory: Memory,
    step: Step,
) -> Answer {
    if step != Step::Reset && !hart.can_hold() {
        return Answer::Refused(Refusal::State);
    }
    hart.execute::<J>(map, memory, step)
}

impl Hart {
    fn execute<J: Judge>(&mut self, map: &mut Map, memory: Memory, step: Step) -> Answer {
        match step {
            Step::Reset => self.restart(map),
            Step::CsrWrite { number, operation, operand } => {
                self.csr_write_step::<J>(map, number, operation, operand)
            }
            Step::CsrRead { number } => self.csr_read_step::<J>(number),
            Step::Raise { cause, value } => self.raise(cause, value),
            Step::Lines { lines } => self.replace_lines(lines),
            Step::TakeInterrupt => self.take_interrupt(),
            Step::Mret => self.mret(),
            Step::Sret => self.sret(),
            Step::Wfi => self.wfi(),
            Step::Ecall => self.ecall(),
            Step::Ebreak => self.ebreak(),
            Step::Advance { target } => self.advance(target),
            Step::Fetch => self.fetch(memory),
            Step::Load { address, size } => self.data_access(memory, Access::Load, address, size),
            Step::Store { address, size } => self.data_access(memory, Access::Store, address, size),
            Step::Elapsed { cycles, retired } => self.elapse(cycles, retired),
        }
    }

    /// As if made anew, with the grain it has.
    fn restart(&mut self, map: &mut Map) -> Answer {
        (*self, *map) = make(self.grain);
        Answer::Done
    }

    fn raise(&mut self, cause: u64, value: u64) -> Answer {
        if cause > LAST_RAISED_CAUSE {
            return Answer::Refused(Refusal::Argument);
        }
        self.exception(cause, value)
    }

    fn replace_lines(&mut self, lines: u64) -> Answer {
        if !within(lines, mask::LINES) {
            return Answer::Refused(Refusal::Argument);
        }
        self.lines = lines;
        Answer::Done
    }

    fn advance(&mut self, target: u64) -> Answer {
        if !target.is_multiple_of(4) {
            return self.misaligned_target(target);
        }
        self.pc = target;
        Answer::Done
    }

    fn elapse(&mut self, cycles: u64, retired: u64) -> Answer {
        if self.mcountinhibit & CYCLE_INHIBIT == 0 {
            self.mcycle = self.mcycle.wrapping_add(cycles);
        }
        if self.mcountinhibit & INSTRET_INHIBIT == 0 {
            self.minstret = self.minstret.wrapping_add(retired);
        }
        Answer::Done
    }

    /// Moves pc past a completed instruction.
    pub(crate) fn step_over(&mut self) {
        self.pc = self.pc.wrapping_add(4);
    }
}
