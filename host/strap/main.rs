//! Walks a strap and times it, says where the knife is at each tenth of a second, and finds the speed for a corner:
//! `host/run strap`. The program `strap_c` is the same in C, and prints the same. docs/RULES.md works some of its
//! figures out by hand.

use malikoza::{minimum, owned, sqrt, Refusal, Station, Tolerances, Walk};

/// Where the cut file has stations, in mm along the strap.
const STATIONS: [f64; 12] = [0.0, 5.0, 12.5, 25.0, 42.5, 60.0, 72.5, 80.0, 87.5, 100.0, 117.5, 137.5];

/// The caps there in mm/s: low where the cut begins, and in a corner at 80 mm.
const CAPS: [f64; 12] = [20.0, 20.0, 80.0, 80.0, 80.0, 80.0, 80.0, 20.0, 80.0, 80.0, 80.0, 80.0];

/// By how much the squared speed changes at most on the way to station i: by 80 mm/s each second, up or down.
fn change(i: usize) -> f64 {
    2.0 * 80.0 * (STATIONS[i] - STATIONS[i - 1])
}

/// The stations, from the last one backward: `upper` is the most from which the knife can still brake for what follows.
fn stations() -> [Station; 12] {
    let mut stations = CAPS.map(|cap| Station { lower: 0.0, upper: cap * cap, cap: cap * cap });
    for i in (1..stations.len()).rev() {
        stations[i - 1].upper = minimum(stations[i - 1].upper, stations[i].upper + change(i));
    }
    stations
}

/// A walk that begins at a station with this squared speed, and whose rows may be exceeded by `feas_tol`.
fn start(feas_tol: f64, speed: f64, station: Station) -> Walk {
    Walk::start(Tolerances { feas_tol, a_cmp_abs_tol: 1e-9, a_cmp_rel_tol: 1e-9 }, speed, station)
}

/// The squared speeds, from the first station forward: it starts from rest, and goes as fast as it may. The two rows
/// say of the speed x at a station that neither x - `a_prev` nor `a_prev` - x is above the greatest change.
fn speeds() -> Result<[f64; 12], Refusal> {
    let stations = stations();
    let mut a = [0.0; 12];
    // No row may be exceeded: by 1e-9, say, the strap would end a hair before 3 s, and the grid have one time fewer.
    let mut walk = start(0.0, a[0], stations[0]);
    for i in 1..stations.len() {
        let rows = [[1.0, -1.0, change(i)], [-1.0, 1.0, change(i)]];
        a[i] = walk.step(stations[i], &rows)?.speed;
    }
    Ok(a)
}

fn print_times(a: &[f64], t: &[f64]) {
    println!("The strap, station by station:\n");
    println!("   at mm    mm/s   after s");
    for i in 0..STATIONS.len() {
        println!("{:8.1}{:8.1}{:10.2}", STATIONS[i], sqrt(a[i]), t[i]);
    }
}

fn print_places(a: &[f64], t: &[f64]) -> Result<(), Refusal> {
    let step = 0.1;
    let (places, counts) = owned::t_to_s_grid(&STATIONS, a, t, t[0], step, true)?;
    println!("\nWhere the knife is at each tenth of a second, the strap's end last:\n");
    println!(" after s     at mm");
    for (i, place) in places[..counts.inside].iter().enumerate() {
        println!("{:8.1}{place:10.2}", t[0] + i as f64 * step);
    }
    println!("{:8.1}{:10.2}", t[t.len() - 1], places[counts.written - 1]);
    Ok(())
}

/// The station before a corner; and the corner, 7.5 mm on, whose cap is 30 mm/s.
const BEFORE: Station = Station { lower: 0.0, upper: 6400.0, cap: 6400.0 };
const CORNER: Station = Station { lower: 0.0, upper: 6400.0, cap: 30.0 * 30.0 };

/// What the number of candidates tried tells.
fn found_by(tried: u64) -> &'static str {
    match tried {
        1 => "the cap meets every row",
        2 => "the cap does not meet every row, but the most that the rows leave does",
        3..=6 => "neither the cap nor the most that the rows leave meets every row, but a double just below does",
        _ => "found by halving",
    }
}

/// The walk here is a copy: each try begins before the corner.
fn print_corner(mut walk: Walk, most: f64) {
    let rows = [
        ([-1.0, 0.0, -(20.0 * 20.0)], "at least 20 mm/s, or the web melts to a bead"),
        ([1.0, 0.0, most * most], "at most what the arm allows, or it shakes"),
        ([-1.0, 1.0, 2.0 * 80.0 * 7.5], "it brakes by at most 80 mm/s each second, over 7.5 mm"),
    ];
    println!("\nThe arm allows {most} mm/s:\n");
    println!(" coef_curr coef_prev       rhs");
    for ([coef_curr, coef_prev, rhs], why) in rows {
        println!("{coef_curr:10}{coef_prev:10}{rhs:10}   {why}");
    }
    match walk.step(CORNER, &rows.map(|(row, _)| row)) {
        Ok(found) => println!(
            "\n  take it at {:.2} mm/s: {} (speeds tried: {})",
            sqrt(found.speed),
            found_by(found.tried),
            found.tried
        ),
        Err(refusal) => println!("\n  no speed, {refusal}"),
    }
}

fn print_corners() {
    println!("\nThe knife comes at 40 mm/s, a squared speed of 1600, to a corner whose cap is 30 mm/s, squared 900.");
    println!("Each row says of the squared speed x in the corner: coef_curr * x + coef_prev * 1600 is at most rhs.");
    let walk = start(1e-9, 40.0 * 40.0, BEFORE);
    print_corner(walk, 35.0);
    print_corner(walk, 25.0);
    print_corner(walk, 15.0);
}

fn main() -> Result<(), Refusal> {
    let a = speeds()?;
    let t = owned::s_to_t(&STATIONS, &a, 0.0)?;
    print_times(&a, &t);
    print_places(&a, &t)?;
    print_corners();
    Ok(())
}
