//! The kinds of which each has its share: refusal numbers, and ways of answering.

use crate::case::{Answer, Case, Entry};
use crate::judge::has_left_the_domain;
use crate::recovery_rules::Way;
use crate::walk_rules::Walk;

/// The refusal numbers of each entry, in the order of document 01, and for a step and a file of 02; without 40, which takes a file of 65,537 bytes.
pub fn numbers(entry: Entry) -> &'static [u64] {
    match entry {
        Entry::Recover => &[10, 1, 2, 3, 4, 5, 6, 7, 8, 9],
        Entry::AToB => &[10, 11, 12, 13, 14, 15, 29],
        Entry::SToT => &[10, 11, 12, 13, 14, 15, 16, 17, 18, 29, 19],
        Entry::TToSList => &[10, 11, 12, 13, 14, 15, 17, 18, 20, 21, 22, 25, 28, 26, 27, 29],
        Entry::TToSGrid => &[10, 11, 12, 13, 14, 15, 17, 18, 20, 21, 22, 16, 23, 24, 28, 29],
        Entry::WalkStep => &[10, 61, 1, 2, 3, 4, 5, 6, 7, 8, 9],
        Entry::CutFileSection => &[41, 43, 42, 44, 45, 46],
        _ => &[],
    }
}

/// The ways of answering of each entry.
pub fn ways(entry: Entry) -> &'static [&'static str] {
    match entry {
        Entry::Recover | Entry::WalkStep => {
            &["cap", "neighbour 0", "neighbour 1", "neighbour 2", "neighbour 3", "neighbour 4", "middle", "halvings"]
        }
        Entry::AToB => &["all finite", "not all finite"],
        Entry::SToT => &["times"],
        Entry::TToSList => &[
            "before",
            "inside",
            "past",
            "before and inside",
            "before and past",
            "inside and past",
            "before, inside and past",
        ],
        Entry::TToSGrid => &[
            "samples, no final asked",
            "samples and final",
            "samples, final after NaN",
            "samples, final not due",
            "no samples, no final asked",
            "final alone",
            "no samples, final not due",
        ],
        Entry::WalkStart => &["patterns as given", "a NaN made plain"],
        Entry::CutFileSection => &["stations", "squared speeds", "times", "grid", "samples"],
        Entry::Sqrt | Entry::Hypot => &["special", "common", "hard"],
        _ => &["special", "common"],
    }
}

/// The kind of a case that is no leaf: its refusal number, or its way of answering.
pub fn kind(case: &Case, answer: &Answer, way: Option<Way>) -> String {
    if answer.number > 0 {
        return answer.number.to_string();
    }
    let [before, inside, past, written] = answer.lent;
    match case.entry {
        Entry::Recover | Entry::WalkStep => match way.expect("an answer is found in some way") {
            Way::Cap => "cap".to_string(),
            Way::Neighbour(steps) => format!("neighbour {steps}"),
            Way::Middle => "middle".to_string(),
            Way::Halvings => "halvings".to_string(),
        },
        Entry::AToB => {
            let entries = case.lists[0].len() / 8 - 1;
            let finite = (0..entries).all(|i| f64::from_bits(answer.pattern_at(i)).is_finite());
            if finite { "all finite" } else { "not all finite" }.to_string()
        }
        Entry::SToT => "times".to_string(),
        Entry::WalkStart => {
            let as_given = Walk::read(&answer.out).0[..7] == case.numbers;
            if as_given { "patterns as given" } else { "a NaN made plain" }.to_string()
        }
        Entry::CutFileSection => ways(case.entry)[case.numbers[0] as usize - 1].to_string(),
        Entry::TToSList => times(before, inside, past).to_string(),
        _ if has_left_the_domain(case, answer) => "samples, final after NaN".to_string(),
        _ => grid(case.with_final(), before + inside + past, written).to_string(),
    }
}

fn times(before: u64, inside: u64, past: u64) -> &'static str {
    match (before > 0, inside > 0, past > 0) {
        (true, true, true) => "before, inside and past",
        (true, true, false) => "before and inside",
        (true, false, true) => "before and past",
        (false, true, true) => "inside and past",
        (true, false, false) => "before",
        (false, true, false) => "inside",
        _ => "past",
    }
}

fn grid(asked: bool, samples: u64, written: u64) -> &'static str {
    match (samples > 0, asked, written > samples) {
        (true, false, _) => "samples, no final asked",
        (true, true, true) => "samples and final",
        (true, true, false) => "samples, final not due",
        (false, false, _) => "no samples, no final asked",
        (false, true, true) => "final alone",
        (false, true, false) => "no samples, final not due",
    }
}
