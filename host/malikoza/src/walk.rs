//! A walk along a strap.

use crate::entries::{self, list};
use crate::recovery::{Recovered, Station, Written};
use crate::refusal::{self, Refusal};

/// The tolerances of a walk, the same for each of its steps.
#[derive(Clone, Copy, Debug, PartialEq)]
pub struct Tolerances {
    /// By how much a row may be exceeded.
    pub feas_tol: f64,
    /// By how much the last speed may lie outside the last station's bounds.
    pub a_cmp_abs_tol: f64,
    /// The same as a part of the larger of the two that are compared; the larger allowance counts.
    pub a_cmp_rel_tol: f64,
}

/// A forward walk along a strap: recovery from station to station, each step from the speed that the one before it
/// committed.
///
/// A step that is refused leaves the walk as it was, and may be tried again with other rows. A copy is a walk of its
/// own. Two walks are equal if they are so bit for bit.
///
/// ```
/// use malikoza::{Recovered, Refusal, Station, Tolerances, Walk};
///
/// let tolerances = Tolerances { feas_tol: 0.0, a_cmp_abs_tol: 0.0, a_cmp_rel_tol: 0.0 };
/// let station = |cap| Station { lower: 0.0, upper: 4.0, cap };
/// let mut walk = Walk::start(tolerances, 1.0, station(9.0));
///
/// // No rows: the cap, 3.
/// let found = walk.step(station(3.0), &[])?;
/// assert_eq!(found, Recovered { speed: 3.0, worst_normalized: 0.0, worst_raw: 0.0, tried: 1 });
/// assert_eq!((walk.speed(), walk.count()), (3.0, 2));
///
/// // A row that asks for 5 at least, where 4 is the most.
/// let before = walk;
/// assert_eq!(walk.step(station(4.0), &[[-1.0, 0.0, -5.0]]), Err(Refusal::ProjectionEmpty));
/// assert_eq!(walk, before);
///
/// // The same step again, with a row that asks for 2 at most.
/// let found = walk.step(station(4.0), &[[1.0, 0.0, 2.0]])?;
/// assert_eq!(found, Recovered { speed: 2.0, worst_normalized: 0.0, worst_raw: 0.0, tried: 2 });
/// assert_eq!((walk.speed(), walk.count()), (2.0, 3));
/// assert_eq!(walk.station(), station(4.0));
/// # Ok::<(), Refusal>(())
/// ```
#[derive(Clone, Copy, Debug, PartialEq, Eq)]
#[repr(C)]
pub struct Walk {
    /// Patterns of the three tolerances, the last committed speed, the last station's lower, upper and cap; the count.
    words: [u64; 8],
}

impl Walk {
    /// A walk that stands at its first station with this squared speed.
    ///
    /// Nothing is tested here: the first step tests all of it, the start speed as `a_prev`.
    #[must_use]
    pub fn start(tolerances: Tolerances, start_speed: f64, station: Station) -> Walk {
        let mut walk = Walk { words: [0; 8] };
        // SAFETY: what is written is a walk of our own.
        unsafe {
            entries::malikoza_walk_start(
                tolerances.feas_tol.to_bits(),
                tolerances.a_cmp_abs_tol.to_bits(),
                tolerances.a_cmp_rel_tol.to_bits(),
                start_speed.to_bits(),
                station.lower.to_bits(),
                station.upper.to_bits(),
                station.cap.to_bits(),
                &raw mut walk,
            );
        }
        walk
    }

    /// Goes on to a station, with the squared speed there that its cap and its rows allow, certified.
    ///
    /// Answers as [`recover`](crate::recover) does if `a_prev` is the last committed speed, `prev` the last station,
    /// `curr` this one, and the tolerances the walk's.
    ///
    /// # Errors
    ///
    /// Refusal 61 where the walk has [`MAX_STATIONS`](crate::MAX_STATIONS) already, whatever else is wrong; then 1 to
    /// 9, of several that hold the first in that order. The walk is then as it was. An interval's end that is infinite
    /// is no fault of the station that a step comes to, but the next step refuses it with 2.
    pub fn step(&mut self, station: Station, rows: &[[f64; 3]]) -> Result<Recovered, Refusal> {
        let (rows, rows_len) = list(rows.as_flattened());
        let mut written = Written::default();
        let Written { speed, worst_normalized, worst_raw, tried } = &mut written;
        // SAFETY: the rows' pointer and length are one slice's; the walk and the four numbers are lent for this call
        // alone.
        refusal::none(unsafe {
            entries::malikoza_walk_step(
                self,
                station.lower.to_bits(),
                station.upper.to_bits(),
                station.cap.to_bits(),
                rows,
                rows_len,
                speed,
                worst_normalized,
                worst_raw,
                tried,
            )
        })?;
        Ok(written.recovered())
    }

    /// The squared speed that was committed last.
    #[must_use]
    pub fn speed(&self) -> f64 {
        f64::from_bits(self.words[3])
    }

    /// The station at which that is.
    #[must_use]
    pub fn station(&self) -> Station {
        let [.., lower, upper, cap, _] = self.words.map(f64::from_bits);
        Station { lower, upper, cap }
    }

    /// How many stations there are so far, the start counted as 1.
    #[must_use]
    #[allow(clippy::cast_possible_truncation)] // it is at most MAX_STATIONS
    pub fn count(&self) -> usize {
        self.words[7] as usize
    }
}
