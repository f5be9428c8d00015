//! Malikoza tells a hot knife on a robot how fast it may go, and where it is when.
//!
//! This is a safe face of libmalikoza.a, whose every answer is proved to be the one that a short definition names.
//! Nothing traps and nothing hangs: what cannot be answered is refused, by a [`Refusal`] with its number.
//!
//! | function | answers |
//! |---|---|
//! | [`recover`] | the squared speed at a station that its cap and its rows allow, certified |
//! | [`Walk`] | the same from station to station, each step from the speed that the one before it committed |
//! | [`a_to_b`] | accelerations, from stations and squared speeds |
//! | [`s_to_t`] | the time at each station |
//! | [`t_to_s_list`], [`t_to_s_grid`] | where the knife is at given times, or on an even grid of times |
//! | [`CutFile`] | what a cut file holds: stations, squared speeds, times, an even grid, samples |
//! | [`sqrt`], [`fma`], [`hypot`] | the nearest double, ties to even |
//! | [`next_down`], [`minimum`], [`maximum`], [`absolute`], [`whole_part`] | as they are named |
//!
//! Stations `s` rise along the path; `a` are squared speeds, one for each station; `t` are times. The conversions write
//! the front of a slice that they are lent, and nothing at all where they refuse; [`owned`] has the same ones with a
//! list of their own. A NaN of any pattern reads as NaN, and every NaN answered is 7FF8000000000000. The rules in full,
//! with worked figures, are in docs/RULES.md.
//!
//! The conversions read and write the slices where they stand. No call needs more than 40 KiB of stack:
//! include/malikoza.h lists how much each entry needs.
//!
//! ```
//! let s = [0.0, 1.0, 3.0];
//! let a = [0.0, 4.0, 4.0];
//! let t = malikoza::owned::s_to_t(&s, &a, 10.0)?;
//! assert_eq!(t, [10.0, 11.0, 12.0]);
//! let (stations, _) = malikoza::owned::t_to_s_grid(&s, &a, &t, 10.0, 0.5, true)?;
//! assert_eq!(stations, [0.0, 0.25, 1.0, 2.0, 3.0]);
//! # Ok::<(), malikoza::Refusal>(())
//! ```

#![warn(missing_docs)]

#[cfg(target_endian = "big")]
compile_error!("the library takes doubles low byte first, and this crate lends it slices of f64 as they stand");

mod conversions;
mod cut_file;
#[cfg(test)]
mod documents;
mod entries;
mod leaves;
pub mod owned;
mod recovery;
mod refusal;
#[cfg(test)]
mod tests;
mod walk;

pub use conversions::{a_to_b, s_to_t, t_to_s_grid, t_to_s_list, Counts};
pub use cut_file::{CutFile, Doubles, Grid};
pub use leaves::{absolute, fma, hypot, maximum, minimum, next_down, sqrt, whole_part};
pub use recovery::{recover, Recovered, Request, Station};
pub use refusal::Refusal;
pub use walk::{Tolerances, Walk};

/// The most rows that a recovery takes.
pub const MAX_ROWS: usize = 256;
/// The most stations that a conversion takes or a walk has; of a conversion 2 are the fewest.
pub const MAX_STATIONS: usize = 4096;
/// The most samples that a conversion takes, the final station of a grid not counted.
pub const MAX_SAMPLES: usize = 65536;
/// The most bytes that a cut file has.
pub const MAX_FILE: usize = 65536;
