//! What the original leans on and is not in the text given. Each item is completed by document 01; its rule is quoted.

/// Completed by document 01: the conversions only tell an error from an answer; which number a refusal has is the caller's to know.
#[derive(Debug)]
pub enum CoppError {
    #[allow(dead_code)] // the texts are for a reader of the error
    InvalidInput(String, String),
}

/// Completed by document 01, from its use in `t_to_s_topp2`: an even grid (t0, dt, final asked for) or a sample list.
pub enum InterpolationMode<'a> {
    UniformTimeGrid(f64, f64, bool),
    NonUniformTimeGrid(&'a [f64]),
}

/// Completed by document 01, the request's "three tolerances, feas_tol, a_cmp_abs_tol, a_cmp_rel_tol". The fields' names are reach_set2.rs's, whose fourth, for
/// log messages, is left behind.
pub struct ReachSet2Options {
    pub lp_feas_tol: f64,
    pub a_cmp_abs_tol: f64,
    pub a_cmp_rel_tol: f64,
}

/// Completed by document 01: the outcomes of the tolerant comparison.
pub enum ApproxOrdering {
    Less,
    Equal,
    Greater,
}

/// Completed by document 01: "equal if x = y, or if |x - y| is at most the maximum of abs and rel × max(|x|, |y|), each operation rounded; else greater or less
/// as they compare".
pub fn approx_order(x: f64, y: f64, abs: f64, rel: f64) -> ApproxOrdering {
    if x == y || (x - y).abs() <= abs.max(rel * x.abs().max(y.abs())) {
        ApproxOrdering::Equal
    } else if x > y {
        ApproxOrdering::Greater
    } else {
        ApproxOrdering::Less
    }
}

fn accept_if(fits: bool, function: &str, fault: impl FnOnce() -> String) -> Result<(), CoppError> {
    if fits {
        Ok(())
    } else {
        Err(CoppError::InvalidInput(function.into(), fault()))
    }
}

/// Completed by document 01, refusal 11: "fewer than 2 stations".
pub fn check_input_len_at_least(function: &str, name: &str, len: usize, least: usize) -> Result<(), CoppError> {
    accept_if(len >= least, function, || format!("{name} = {len} must be at least {least}"))
}

/// Completed by document 01, refusals 12 and 20: "a of another length"; "time list: other length".
pub fn check_input_len_equal(function: &str, name: &str, len: usize, other: &str, wanted: usize) -> Result<(), CoppError> {
    accept_if(len == wanted, function, || format!("{name} = {len} must equal {other} = {wanted}"))
}

/// Completed by document 01, refusal 25: "sample list: empty".
pub fn check_input_not_empty(function: &str, name: &str, len: usize) -> Result<(), CoppError> {
    accept_if(len > 0, function, || format!("{name} must not be empty"))
}

/// Completed by document 01, refusals 16 and 23: "t0 not finite"; "dt not finite".
pub fn check_input_not_nan_infinite(function: &str, name: &str, value: f64) -> Result<(), CoppError> {
    accept_if(value.is_finite(), function, || format!("`{name}` = {value} must be finite"))
}

/// Completed by document 01, refusals 13, 14, 21 and 26: "s, a with an entry not finite"; "not finite" of a time list and of a sample list.
pub fn check_input_slice_not_nan_infinite(function: &str, name: &str, list: &[f64]) -> Result<(), CoppError> {
    accept_if(list.iter().all(|x| x.is_finite()), function, || format!("`{name}` must be finite"))
}

/// Completed by document 01, refusal 17: "an a below zero (minus zero is not)".
pub fn check_input_slice_non_negative(function: &str, name: &str, list: &[f64]) -> Result<(), CoppError> {
    accept_if(!list.iter().any(|x| *x < 0.0), function, || format!("`{name}` must not be negative"))
}

/// Completed by document 01, refusals 15, 22 and 27: "not strictly increasing".
pub fn check_input_strictly_increasing(function: &str, name: &str, list: &[f64]) -> Result<(), CoppError> {
    accept_if(list.windows(2).all(|pair| pair[0] < pair[1]), function, || format!("`{name}` must strictly increase"))
}

/// Completed by document 01, "`izip!` become indexed loops": as many triples as the shortest of three iterators has items, in their order.
macro_rules! izip {
    ($x:expr, $y:expr, $z:expr) => {
        $x.zip($y).zip($z).map(|((x, y), z)| (x, y, z))
    };
}
pub(crate) use izip;

/// Completed for a Rust older than 1.86, whose `f64` has no stable `next_down`; a newer one takes its own. Document 01: "Next down: the next smaller double;
/// both zeros go to -2^-1074; minus infinity and NaN stay."
#[allow(dead_code)]
pub trait NextDown {
    fn next_down(self) -> f64;
}

impl NextDown for f64 {
    fn next_down(self) -> f64 {
        let pattern = self.to_bits();
        if self.is_nan() || self == f64::NEG_INFINITY {
            self
        } else if self == 0.0 {
            f64::from_bits(0x8000_0000_0000_0001)
        } else if self > 0.0 {
            f64::from_bits(pattern - 1)
        } else {
            f64::from_bits(pattern + 1)
        }
    }
}
