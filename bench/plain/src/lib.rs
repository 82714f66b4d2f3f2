//! Workload files and the job table, in plain Rust and the standard library.
//!
//! This is an implementation of the documents `FORMAT.md`, `RULES.md` and
//! `REFUSALS.md` alone, written without sight of the verified code, so that
//! agreement between the two says something.
//!
//! - [`read()`] and [`write()`] take a workload file apart and put it together.
//! - [`Workload`] holds what was read, with the bit masks that a step needs.
//! - [`Table`] runs up to sixteen jobs over the values of a [`Kind`] of item.
//! - [`yard()`] is the program `yard`, from bytes to bytes.

#![forbid(unsafe_code)]
#![warn(missing_docs)]

mod bits;
mod kinds;
mod reading;
mod sets;
mod table;
mod workload;
mod writing;
mod yard;

pub use kinds::{Kind, Slot, SlotValue, Tally};
pub use reading::{read, Fault, NoteSpan};
pub use table::{Answer, Call, Refusal, Table, Told, PLACES, STORE_LIMIT};
pub use workload::{JobType, State, Workload};
pub use writing::write;
pub use yard::yard;

/// The most items that a workload may have.
pub const MAX_ITEMS: usize = 64;
/// The most job types that a workload may have.
pub const MAX_TYPES: usize = 8;
/// The most states that a job type may have.
pub const MAX_STATES: usize = 32;
/// The most arcs that a state may have.
pub const MAX_ARCS: usize = 4;
/// The most bytes that a note may have.
pub const MAX_NOTE: usize = 1_000;
