//! Random states, grains, maps, steps, texts and page tables, biased to where programs go
//! wrong, the shapes of NAPOT registers, and settings that make many ranges.

mod address;
mod damage;
mod entries;
mod grain;
mod interrupts;
mod map;
mod memory;
mod napot;
mod paging;
mod settings;
mod state;
mod step;
mod text;
mod tiles;

pub use address::{address, near_range};
pub use damage::Damage;
pub use grain::grain;
pub use interrupts::mixed_delegation;
pub use map::map;
pub use memory::memory;
pub use napot::napot_registers;
pub use paging::{Paging, paging};
pub use settings::{Setting, settings};
pub use state::{damaged, finest, holdable, narrowed, textless};
pub use step::{csr_operand, size, step};
pub use text::{Text, text};
pub use tiles::tiles;
