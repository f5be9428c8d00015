//! The library's speed beside the Rust original's, on the same inputs in one run.
//!
//! `host/run speed` prints two tables; with words after it, only the operations whose names hold one of them (a_to_b is "a to b"), and the second table if
//! `small` is among them. The first has for each operation the instructions for each unit of work (a station, a sample, a row and candidate, a call) of the original and of the
//! library's entry, which takes byte lists, the ratio of the entry to the original, the ratio of their times, and the entry's instructions for each unit at a
//! quarter, half and the whole of the size, which must not grow. The second has the time of small calls.
//!
//! Instructions are counted by running this program under valgrind, or under the command that COUNTER names (on Arm: qemu-x86_64 with a plugin that counts and
//! prints a line "instructions N"), each operation with one turn and with `TURNS` more: the difference is what the turns took. From a leaf's calls the loop
//! around them is taken off.
//!
//! The C library clears and copies long arrays with one repeated instruction, which valgrind counts once for every byte. The run under the counter tells it to
//! use vector stores at every length (`PLAIN`), for both sides alike: a store is then counted once, as every other instruction is.

#![allow(unstable_name_collisions)] // next_down is stable from Rust 1.86 on

mod inputs;
mod library;
mod original;
mod sides;
mod small;

use sides::{Side, Work};
use std::process::Command;
use std::time::Instant;

/// How often an operation is repeated under the counter.
const TURNS: u64 = 4;

/// How often it is timed.
const TIMES: usize = 40;

/// Sizes as shares of the whole.
const SHARES: [u64; 3] = [4, 2, 1];

/// The first word of a run under the counter.
const COUNTED: &str = "--counted";

/// The C library's setting for a run under the counter: no length is enough for a repeated instruction.
const PLAIN: (&str, &str) =
    ("GLIBC_TUNABLES", "glibc.cpu.x86_rep_stosb_threshold=100000000:glibc.cpu.x86_rep_movsb_threshold=100000000");

/// Instructions of a run of this program with the given words.
fn counted(words: &[String]) -> u64 {
    let this = std::env::current_exe().expect("the program's own path");
    let mut command = match std::env::var("COUNTER") {
        Ok(counter) => {
            let mut parts = counter.split(' ');
            let mut command = Command::new(parts.next().expect("a command"));
            command.args(parts);
            command
        }
        Err(_) => {
            let mut command = Command::new("valgrind");
            command.args(["--tool=callgrind", "--callgrind-out-file=/dev/null", "--main-stacksize=16777216"]);
            command
        }
    };
    let output = command
        .env(PLAIN.0, PLAIN.1)
        .arg(this)
        .arg(COUNTED)
        .args(words)
        .output()
        .expect("a counter: valgrind, or the command in COUNTER");
    let told = String::from_utf8_lossy(&output.stderr).into_owned();
    let line = told.lines().find(|line| line.contains("Collected") || line.starts_with("instructions"));
    line.and_then(|line| line.rsplit(' ').next())
        .and_then(|n| n.parse().ok())
        .unwrap_or_else(|| panic!("no count in: {told}"))
}

fn words(work: &Work, side: Side, share: u64, turns: u64) -> Vec<String> {
    vec![work.name.into(), side.name().into(), share.to_string(), turns.to_string()]
}

/// Instructions for each unit of work.
fn instructions(work: &Work, side: Side, share: u64) -> f64 {
    let more = counted(&words(work, side, share, 1 + TURNS)) - counted(&words(work, side, share, 1));
    let each = more as f64 / (TURNS * work.units(share)) as f64;
    if work.unit == "call" {
        each - instructions(&Work::LOOP, side, share)
    } else {
        each
    }
}

/// The least of several times, in seconds.
fn time(work: &Work, side: Side) -> f64 {
    let once = || {
        let start = Instant::now();
        work.turn(side, 1);
        start.elapsed().as_secs_f64()
    };
    (0..TIMES).map(|_| once()).fold(f64::INFINITY, f64::min)
}

fn line(work: &Work) {
    let theirs = instructions(work, Side::Original, 1);
    let ours: Vec<f64> = SHARES.iter().map(|share| instructions(work, Side::Library, *share)).collect();
    let times = if std::env::var("COUNTER").is_ok() {
        String::from("-")
    } else {
        format!("{:.2}", time(work, Side::Library) / time(work, Side::Original))
    };
    println!(
        "{:<50} {theirs:>9.1} {:>9.1} {:>6.2} {times:>6}   {:>9.1} {:>9.1} {:>9.1}",
        format!("{}, for each {}", work.name, work.unit),
        ours[2],
        ours[2] / theirs,
        ours[0],
        ours[1],
        ours[2]
    );
}

/// One operation on one side, so many times: what the counter runs.
fn run(words: &[String]) {
    let work =
        Work::ALL.iter().chain([&Work::LOOP]).find(|work| work.name == words[0]).expect("the name of an operation");
    let share = words[2].parse().expect("a share");
    for _ in 0..words[3].parse().expect("a number of turns") {
        work.turn(Side::named(&words[1]), share);
    }
}

fn table(chosen: &[&Work]) {
    println!(
        "{:<50} {:>9} {:>9} {:>6} {:>6}   library at a quarter, half, whole",
        "instructions", "original", "library", "ratio", "time"
    );
    for work in chosen {
        line(work);
    }
    println!("The time is the library's by the original's, each the least of {TIMES}; it depends on the machine and its load.");
}

fn main() {
    let words: Vec<String> = std::env::args().skip(1).collect();
    if words.first().is_some_and(|word| word == COUNTED) {
        return run(&words[1..]);
    }
    let asked = |work: &&Work| words.is_empty() || words.iter().any(|word| work.name.contains(&word.replace('_', " ")));
    let chosen: Vec<&Work> = Work::ALL.iter().filter(asked).collect();
    if !chosen.is_empty() {
        table(&chosen);
    }
    if words.is_empty() || words.iter().any(|word| word == "small") {
        small::table();
    }
}
