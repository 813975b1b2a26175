//! An independent model of the leased hart, written from the scope document
//! and its change requests alone, for comparison with the product and as its
//! speed baseline.
#![deny(unsafe_code)]

mod access;
mod answer;
pub mod boundaries;
#[cfg(feature = "capi")]
pub mod capi;
pub mod csr;
mod execute;
mod form;
pub mod generate;
mod grain;
mod hart;
mod hexadecimal;
mod holdable;
mod interrupt;
mod map;
mod memory;
mod memory_text;
pub mod protection;
mod query;
pub mod random;
mod reader;
mod record;
mod replay;
mod returns;
pub mod status;
mod step;
pub mod sv39;
mod text;
mod trap;

pub use answer::{ANSWER_WORDS, Answer, Cause, Entry, Refusal, Ruling, Verdict};
pub use execute::{step, step_judged_by};
pub use form::{Form, KEYS};
pub use grain::{COARSEST, make};
pub use hart::{HART_WORDS, Hart, MACHINE, Mode, SUPERVISOR, USER};
pub use holdable::mask;
pub use map::{MAP_WORDS, Map, NONE, RANGES, Range};
pub use memory::Memory;
pub use memory_text::{LONGEST_MEMORY_TEXT, MOST_WORDS, read_memory, write_memory};
pub use protection::Access;
pub use query::query;
pub use reader::{MOST_CARRIED, PLACE_WORDS, Reader, Reading};
pub use record::{RECORD_LENGTH, read_record, write_record};
pub use replay::{fill, replay, restore_start};
pub use step::{LAST_STEP, STEP_WORDS, Step};
pub use text::{convert, restore, save};
