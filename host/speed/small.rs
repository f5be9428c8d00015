//! Small calls: the nanoseconds that one call of an entry takes where the work in it is little, so that what every call pays shows.
//!
//! Of the library only. To compare two builds of it, build this program with each and run the two by turns, some times over.

use crate::inputs::{self, Given};
use crate::library;
use std::time::Instant;

const STATIONS: usize = 2;
const SAMPLES: usize = 7;
const ROWS: usize = 4;

/// How many calls are timed together, and how often.
const CALLS: u32 = 20_000;
const TIMES: usize = 20;

/// For one call, by the least of the times.
fn nanoseconds(mut call: impl FnMut()) -> f64 {
    let mut once = || {
        let start = Instant::now();
        for _ in 0..CALLS {
            call();
        }
        start.elapsed().as_secs_f64() * 1e9 / f64::from(CALLS)
    };
    (0..TIMES).map(|_| once()).fold(f64::INFINITY, f64::min)
}

fn line(name: &str, call: impl FnMut()) {
    println!("{name:<50} {:>9.1}", nanoseconds(call));
}

fn conversion(name: &str, call: fn(&mut Given)) {
    let mut given = Given::new(STATIONS, SAMPLES);
    line(name, || call(&mut given));
}

fn recovery(name: &str, rows: usize) {
    let flat = inputs::flat(&inputs::passing(rows));
    line(name, || assert_eq!(library::recover(&flat), 1));
}

/// Cut files, by their bytes: the stations of one without any, and the samples of one of 65,536 bytes with lists of 0, 0, 16 and 8,174 doubles.
fn files() {
    let short = [1, 1, 0];
    let mut full = vec![0; 65_536];
    full[..10].copy_from_slice(&[1, 1, 0, 2, 1, 0, 3, 129, 1, 16]);
    full[138..144].copy_from_slice(&[5, 242, 254, 3, 238, 63]);
    line("cut file of one section", || assert_eq!(library::section(&short, 1), 1));
    line("cut file of 65,536 bytes, the last of 4 sections", || assert_eq!(library::section(&full, 5), 65_394));
}

pub fn table() {
    println!("{:<50} {:>9}", "small calls", "ns a call");
    conversion("a to b, 2 stations", library::a_to_b);
    conversion("s to t, 2 stations", library::s_to_t);
    conversion("list, 2 stations, 7 samples", library::list);
    conversion("grid, 2 stations, 7 samples and the final", library::grid);
    recovery("recovery with no row", 0);
    recovery("recovery with 4 rows, whose cap passes", ROWS);
    files();
    println!("The least of {TIMES} times of {CALLS} calls each; it depends on the machine and its load.");
}
