//! The Rust original, as the judge: `recover_forward_intersection` and interpolation.rs of TOPP-THU/copp at a5fd651b9a, their text unchanged but for marked lines.
//!
//! A program includes this module by its path. One that wants the original with another hypot, or without the count, includes the files by its own parent
//! module, which then has to supply `hypot`, `asked` and `completed`.

use std::cell::Cell;

pub mod completed;
pub mod interpolation;
mod nearest;
pub mod topp2_ra;

pub use nearest::hypot;

thread_local! {
    static ASKED: Cell<u64> = const { Cell::new(0) };
}

/// Told by the original at each certificate it asks.
fn asked() {
    ASKED.with(|count| count.set(count.get() + 1));
}

/// The answer of a recovery, with the number of certificates asked. Document 01: "Candidates tried (added by the port) counts certificates asked".
pub fn with_tried<T>(recovery: impl FnOnce() -> T) -> (T, u64) {
    ASKED.with(|count| count.set(0));
    let answer = recovery();
    (answer, ASKED.with(Cell::get))
}
