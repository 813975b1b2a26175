//! The eighteen steps.

use crate::csr::Operation;

#[derive(Clone, Copy, PartialEq, Eq, Debug)]
pub enum Step {
    Reset,
    /// Always a write attempt, even with operand 0.
    CsrWrite {
        number: u64,
        operation: Operation,
        operand: u64,
    },
    CsrRead {
        number: u64,
    },
    Raise {
        cause: u64,
        value: u64,
    },
    Lines {
        lines: u64,
    },
    TakeInterrupt,
    Mret,
    Sret,
    Wfi,
    Ecall,
    Ebreak,
    Advance {
        target: u64,
    },
    Fetch,
    Load {
        address: u64,
        size: u64,
    },
    Store {
        address: u64,
        size: u64,
    },
    Elapsed {
        cycles: u64,
        retired: u64,
    },
}

/// The greatest number of a step.
pub const LAST_STEP: u64 = 17;
/// Number of words of a step: its number and its arguments.
pub const STEP_WORDS: usize = 3;

impl Step {
    /// The step of this number, if there is one; arguments it does not name
    /// are ignored.
    pub fn from_words(step: u64, a: u64, b: u64) -> Option<Step> {
        let csr = |operation| Step::CsrWrite { number: a, operation, operand: b };
        Some(match step {
            0 => Step::Reset,
            1 => csr(Operation::Write),
            2 => csr(Operation::Set),
            3 => csr(Operation::Clear),
            4 => Step::CsrRead { number: a },
            5 => Step::Raise { cause: a, value: b },
            6 => Step::Lines { lines: a },
            7 => Step::TakeInterrupt,
            8 => Step::Mret,
            9 => Step::Sret,
            10 => Step::Wfi,
            11 => Step::Ecall,
            12 => Step::Ebreak,
            13 => Step::Advance { target: a },
            14 => Step::Fetch,
            15 => Step::Load { address: a, size: b },
            16 => Step::Store { address: a, size: b },
            17 => Step::Elapsed { cycles: a, retired: b },
            _ => return None,
        })
    }

    /// Whether the step is one that the byte rule judges.
    pub fn is_access(self) -> bool {
        matches!(self, Step::Fetch | Step::Load { .. } | Step::Store { .. })
    }

    /// The number of the step and its arguments, those not named being 0.
    pub fn to_words(self) -> [u64; STEP_WORDS] {
        match self {
            Step::Reset => [0, 0, 0],
            Step::CsrWrite { number, operation, operand } => {
                [operation_number(operation), number, operand]
            }
            Step::CsrRead { number } => [4, number, 0],
            Step::Raise { cause, value } => [5, cause, value],
            Step::Lines { lines } => [6, lines, 0],
            Step::TakeInterrupt => [7, 0, 0],
            Step::Mret => [8, 0, 0],
            Step::Sret => [9, 0, 0],
            Step::Wfi => [10, 0, 0],
            Step::Ecall => [11, 0, 0],
            Step::Ebreak => [12, 0, 0],
            Step::Advance { target } => [13, target, 0],
            Step::Fetch => [14, 0, 0],
            Step::Load { address, size } => [15, address, size],
            Step::Store { address, size } => [16, address, size],
            Step::Elapsed { cycles, retired } => [17, cycles, retired],
        }
    }
}

fn operation_number(operation: Operation) -> u64 {
    match operation {
        Operation::Write => 1,
        Operation::Set => 2,
        Operation::Clear => 3,
    }
}
