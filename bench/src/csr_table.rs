//! CSR accesses judged by a table, as a plain Rust program would have it: the
//! reference's own judgement is the rule, for clarity.

use reference::csr::number::{CYCLE, SATP};
use reference::csr::{Judge, Rule, lowest_mode, present, read_only};
use reference::{Hart, MACHINE, Mode, SUPERVISOR, USER, status};

const NUMBERS: usize = 4096;
/// The bits of a number's entry: present, the lowest mode, read-only.
const PRESENT: u8 = 1;
const LOWEST_MODE_SHIFT: u32 = 1;
const READ_ONLY: u8 = 8;

/// How many numbers from CYCLE on are those of counters.
const COUNTERS: u64 = 32;

/// What does not depend on the state, for each number; 0 where no register is present.
static TABLE: [u8; NUMBERS] = table();

const fn table() -> [u8; NUMBERS] {
    let mut table = [0; NUMBERS];
    let mut number = 0;
    while number < NUMBERS {
        table[number] = entry(number as u64);
        number += 1;
    }
    table
}

const fn entry(number: u64) -> u8 {
    if !present(number) {
        return 0;
    }
    let lowest = (lowest_mode(number) as u8) << LOWEST_MODE_SHIFT;
    PRESENT | lowest | if read_only(number) { READ_ONLY } else { 0 }
}

pub struct Table;

impl Judge for Table {
    #[inline]
    fn is_legal(hart: &Hart, number: u64, write_attempt: bool) -> bool {
        let entry = TABLE[number as usize];
        entry != 0
            && hart.mode >= u64::from(entry >> LOWEST_MODE_SHIFT & 3)
            && !(write_attempt && entry & READ_ONLY != 0)
            && is_open(hart, number)
    }
}

/// What depends on the state, once the table has let the access through.
#[inline]
fn is_open(hart: &Hart, number: u64) -> bool {
    let counter = number.wrapping_sub(CYCLE);
    if counter < COUNTERS {
        let by_machine = hart.mcounteren >> counter & 1 != 0;
        let by_supervisor = hart.scounteren >> counter & 1 != 0;
        return hart.mode == MACHINE || by_machine && (hart.mode != USER || by_supervisor);
    }
    number != SATP || hart.mode != SUPERVISOR || hart.mstatus & status::TVM == 0
}

/// The table must agree with the rule at every number, in every mode, for reads and
/// write attempts, whatever TVM and the counter enables are.
pub fn compare() -> Result<(), String> {
    for hart in harts() {
        for number in 0..NUMBERS as u64 {
            for write in [false, true] {
                if Table::is_legal(&hart, number, write) != Rule::is_legal(&hart, number, write) {
                    return Err(format!("the table is wrong at {number:x}: {hart:x?}"));
                }
            }
        }
    }
    Ok(())
}

fn harts() -> impl Iterator<Item = Hart> {
    let modes = Mode::ALL.into_iter().map(Mode::number);
    modes.flat_map(|mode| {
        (0..32).map(move |bits: u64| Hart {
            mode,
            mstatus: status::with(Hart::reset().mstatus, status::TVM, bits & 16 != 0),
            mcounteren: bits & 1 | (bits & 2) << 1,
            scounteren: (bits & 4) >> 2 | (bits & 8) >> 1,
            ..Hart::reset()
        })
    })
}
