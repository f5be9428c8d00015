//! What is measured on: one profile, its samples, and rows for a recovery that searches and for one whose cap passes.

pub const STATIONS: usize = 4096;
pub const SAMPLES: usize = 65_536;
pub const ROWS: usize = 256;

/// Stations a millimetre apart, a little uneven, with squared speeds that rise and fall.
fn profile(stations: usize) -> (Vec<f64>, Vec<f64>) {
    let s = (0..stations).map(|k| k as f64 + 0.125 * (k % 3) as f64).collect();
    let a = (0..stations).map(|k| 3.0 + ((k * 37) % 101) as f64 / 40.0).collect();
    (s, a)
}

/// Times at which the profile is at its stations.
fn times(s: &[f64], a: &[f64]) -> Vec<f64> {
    let mut t = vec![0.0];
    for k in 1..s.len() {
        t.push(t[k - 1] + 2.0 * (s[k] - s[k - 1]) / (a[k - 1].sqrt() + a[k].sqrt()));
    }
    t
}

/// Samples spread over all times.
fn samples(t: &[f64], count: usize) -> Vec<f64> {
    let step = t[t.len() - 1] / count as f64;
    (0..count).map(|i| i as f64 * step).collect()
}

/// The grid's step for so many samples.
fn step(t: &[f64], count: usize) -> f64 {
    t[t.len() - 1] / (count as f64 + 0.5)
}

/// The inputs of the conversions: stations, squared speeds, times, samples, the step of a grid of as many samples, and room for the output.
pub struct Given {
    pub s: Vec<f64>,
    pub a: Vec<f64>,
    pub t: Vec<f64>,
    pub samples: Vec<f64>,
    pub step: f64,
    pub out: Vec<f64>,
}

impl Given {
    pub fn new(stations: usize, count: usize) -> Given {
        let (s, a) = profile(stations);
        let t = times(&s, &a);
        let (samples, step) = (samples(&t, count), step(&t, count));
        Given { s, a, t, samples, step, out: vec![0.0; count.max(stations) + 1] }
    }
}

/// Rows that every speed up to the cap of 3 meets.
pub fn passing(rows: usize) -> Vec<(f64, f64, f64)> {
    (0..rows).map(|k| (1.0 + (k % 7) as f64 / 8.0, -0.25 - (k % 5) as f64 / 16.0, 9.0 + (k % 3) as f64)).collect()
}

/// The same, with a last row that the projected end and its neighbours fail by a rounding: the middle passes, and the halvings go on to 59 candidates.
pub fn searching(rows: usize) -> Vec<(f64, f64, f64)> {
    let mut list = passing(rows - 1);
    list.push((0.003, 957_000.0, 957_000.001854));
    list
}

/// The rows one after the other, as the library takes them.
pub fn flat(rows: &[(f64, f64, f64)]) -> Vec<f64> {
    rows.iter().flat_map(|(c, p, r)| [*c, *p, *r]).collect()
}
