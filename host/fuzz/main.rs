//! Cut files by libFuzzer, which sees the ways that each file takes through the rules and keeps what takes a new one.
//!
//! `host/run fuzz [minutes=N]` has each file read by the rules of document 02 and by the library's C entry, asked for the kinds 0 to 6 and one more. It begins
//! with a handful of files that it makes, and with what it kept before in target/host/fuzz_files. At its end it prints how many files were read; at a crash or a
//! difference it stops, and leaves the input in target/host.
//!
//! An input's first byte is that one more kind, and stands for a large one if it is above 7; the rest is the file.

#![allow(dead_code)] // the modules of the differential run hold more than is used here

#[path = "../differential/case.rs"]
mod case;
#[path = "../differential/file_rules.rs"]
mod file_rules;
#[path = "../differential/files.rs"]
mod files;
#[path = "../differential/random.rs"]
mod random;
#[path = "../differential/slips.rs"]
mod slips;

use case::{Answer, Case, LENT};
use files::Section;
use random::Random;
use slips::Slip;
use std::ffi::{c_char, c_int, CString};
use std::sync::atomic::{AtomicU64, Ordering};

/// What is kept from run to run; a crash or a difference goes beside it.
const KEPT: &str = "target/host/fuzz_files";
const FOUND: &str = "target/host/fuzz_found_";

#[link(name = "malikoza", kind = "static")]
extern "C" {
    fn malikoza_cut_file_section(file: *const u8, file_len: usize, kind: u64, start: *mut u64, length: *mut u64)
        -> u64;
}

type Input = extern "C" fn(*const u8, usize) -> c_int;

extern "C" {
    /// libFuzzer: calls back with one input after the other, and at the end leaves the program.
    fn LLVMFuzzerRunDriver(argc: *mut c_int, argv: *mut *mut *mut c_char, callback: Input) -> c_int;
    fn atexit(callback: extern "C" fn()) -> c_int;
}

static READ: AtomicU64 = AtomicU64::new(0);

fn library(case: &Case) -> Answer {
    let file = &case.lists[0];
    let mut lent = LENT;
    let [start, length, ..] = &mut lent;
    // SAFETY: the pointer stands with the length of the bytes behind it, and the two numbers are two different ones.
    let number = unsafe { malikoza_cut_file_section(file.as_ptr(), file.len(), case.numbers[0], start, length) };
    Answer { number, lent, ..Answer::refused(0, case) }
}

/// Asks a file for a kind. A difference is libFuzzer's to keep.
fn compare(case: &Case) {
    let (ours, wanted) = (library(case), file_rules::asked(case, Slip::None));
    if ours != wanted {
        eprintln!("DIFFERS: {}\n  library: {}\n  rules: {}", case.described(), told(&ours), told(&wanted));
        std::process::abort();
    }
}

fn told(answer: &Answer) -> String {
    format!("number {}, start {}, length {}", answer.number, answer.lent[0], answer.lent[1])
}

extern "C" fn input(bytes: *const u8, len: usize) -> c_int {
    // SAFETY: libFuzzer lends so many bytes for the time of the call; there may be no pointer where there are none.
    let bytes = if len == 0 { &[] } else { unsafe { std::slice::from_raw_parts(bytes, len) } };
    let Some((first, file)) = bytes.split_first() else { return 0 };
    let kind = if *first < 8 { u64::from(*first) } else { u64::from_be_bytes([*first; 8]) };
    let mut case = files::asking(kind, file.to_vec());
    compare(&case);
    for kind in 0..=6 {
        case.numbers[0] = kind;
        compare(&case);
    }
    READ.fetch_add(1, Ordering::Relaxed);
    0
}

extern "C" fn tell_at_the_end() {
    println!("{} files read by the rules and by the library: no crash, no difference", READ.load(Ordering::Relaxed));
}

/// Files to begin with: the empty one, each kind alone, all of them, lists at their limit and one beyond it, as many samples as there can be, and 65,536 bytes.
fn first_files() -> Vec<Vec<u8>> {
    let mut random = Random::new(0, 0, 0);
    let mut section = |kind, count| Section::new(kind, count, &mut random);
    let mut files = vec![vec![]];
    files.extend((1..=5).map(|kind| section(kind, 1).bytes()));
    files.push((1..=5).flat_map(|kind| section(kind, kind).bytes()).collect());
    files.extend([(2, 4096), (2, 4097), (5, 8191)].map(|(kind, count)| section(kind, count).bytes()));
    files.push(files::file(&files::full(&mut random)));
    files
}

fn minutes() -> u64 {
    let word = std::env::args().nth(1).unwrap_or("minutes=10".to_string());
    word.strip_prefix("minutes=").and_then(|n| n.parse().ok()).expect("minutes=N")
}

fn main() {
    std::fs::create_dir_all(KEPT).expect(KEPT);
    for (i, file) in first_files().into_iter().enumerate() {
        std::fs::write(format!("{KEPT}/first_{i}"), [vec![i as u8], file].concat()).expect(KEPT);
    }
    let (longest, minutes) = (1 + file_rules::FILE + 1, minutes());
    eprintln!("{minutes} minutes");
    let arguments = [
        "fuzz".to_string(),
        // without an end, if there were no second
        format!("-max_total_time={}", (60 * minutes).max(1)),
        format!("-max_len={longest}"),
        format!("-artifact_prefix={FOUND}"),
        "-verbosity=0".to_string(),
        KEPT.to_string(),
    ];
    let arguments = arguments.map(|argument| CString::new(argument).expect("no zero byte").into_raw());
    let mut pointers = [&arguments[..], &[std::ptr::null_mut()]].concat();
    let (mut argc, mut argv) = (arguments.len() as c_int, pointers.as_mut_ptr());
    // SAFETY: the arguments are as many as is said, end with a null pointer, and stay until the program ends.
    unsafe {
        atexit(tell_at_the_end);
        LLVMFuzzerRunDriver(&mut argc, &mut argv, input);
    }
}
