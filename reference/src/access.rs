//! Steps 14 to 16: accesses to physical addresses or, under Sv39, to virtual ones.

use crate::answer::{Answer, Entry, Refusal, Ruling};
use crate::hart::Hart;
use crate::memory::Memory;
use crate::protection::Access;
use crate::query::lawful_size;
use crate::status;
use crate::sv39::{Fault, PAGE};

/// A fault, and the address where the part of the access begins that has it.
type Located = (Fault, u64);

impl Hart {
    pub(crate) fn fetch(&mut self, memory: Memory) -> Answer {
        if !memory.is_lawful() {
            return Answer::Refused(Refusal::Memory);
        }
        self.access(memory, self.mode, Access::Fetch, self.pc, 4)
    }

    pub(crate) fn data_access(
        &mut self,
        memory: Memory,
        access: Access,
        address: u64,
        size: u64,
    ) -> Answer {
        if !memory.is_lawful() {
            return Answer::Refused(Refusal::Memory);
        }
        if !lawful_size(size) {
            return Answer::Refused(Refusal::Size);
        }
        self.access(memory, self.effective_mode(), access, address, size)
    }

    /// The mode in which loads and stores are judged.
    pub fn effective_mode(&self) -> u64 {
        if self.mstatus & status::MPRV != 0 { status::mpp(self.mstatus) } else { self.mode }
    }

    fn access(
        &mut self,
        memory: Memory,
        mode: u64,
        access: Access,
        address: u64,
        size: u64,
    ) -> Answer {
        let judged = if self.is_translated(mode) {
            self.judge_virtual(memory, mode, access, address, size)
        } else {
            self.judge_physical(mode, access, address, size).map_err(|fault| (fault, address))
        };
        match judged {
            Ok(entry) => Answer::Granted { entry },
            Err((Fault { cause, entry }, part)) => self.access_fault(cause, part, entry),
        }
    }

    fn judge_physical(
        &self,
        mode: u64,
        access: Access,
        address: u64,
        size: u64,
    ) -> Result<Entry, Fault> {
        match self.byte_rule(mode, access, address, size) {
            Ruling::Granted { entry } => Ok(entry),
            Ruling::Fault { cause, entry } => Err(Fault { cause, entry }),
        }
    }

    /// Two accesses in order where the bytes lie in two pages of 4,096 bytes.
    fn judge_virtual(
        &self,
        memory: Memory,
        mode: u64,
        access: Access,
        address: u64,
        size: u64,
    ) -> Result<Entry, Located> {
        let first = size.min(PAGE - address % PAGE);
        let entry = self.judge_part(memory, mode, access, address, first)?;
        if first == size {
            return Ok(entry);
        }
        self.judge_part(memory, mode, access, address.wrapping_add(first), size - first)
    }

    /// The bytes of one page: the walk, then the byte rule at the physical address.
    fn judge_part(
        &self,
        memory: Memory,
        mode: u64,
        access: Access,
        address: u64,
        size: u64,
    ) -> Result<Entry, Located> {
        self.walk(memory, mode, access, address)
            .and_then(|physical| self.judge_physical(mode, access, physical, size))
            .map_err(|fault| (fault, address))
    }
}
