//! Walks, call by call: each step goes on from the eight words that the call before it left behind.

use crate::case::{Answer, Case, Entry};
use crate::fixed::REQUEST;
use crate::judge;
use crate::kept::{size, Kept};
use crate::kinds;
use crate::random::{self, Random};
use crate::recovery_rules::Way;
use crate::requests::Draft;
use crate::slips::Slip;
use crate::walk_rules::{Walk, STATIONS};
use crate::walks::{self, Course};

/// The stations of the first whole walks; those after them have as many as the last one.
const LENGTHS: [u64; 7] = [12, 8, 6, 5, 4, 4, 3];
/// There are so many whole walks at least, and as many as fit into so many bytes.
const WALKS: usize = 40;
const ROOM: usize = 61_000;
/// What a step of a whole walk takes at most, one with another: about two rows.
const STEP: usize = 345;
/// The refusals in a whole walk at most.
const REFUSALS: u64 = 2;
/// So many walks are drawn for each that is kept.
const CHOICE: usize = 100;
/// So many starts are refused by the first step with each of their numbers.
const BAD_STARTS: usize = 3;

/// A call of a walk with what it must leave behind.
struct Call {
    case: Case,
    answer: Answer,
    way: Option<Way>,
}

impl Call {
    fn new(case: Case) -> Call {
        let (answer, way) = judge::expected(&case, Slip::None);
        Call { case, answer, way }
    }

    fn kind(&self) -> String {
        kinds::kind(&self.case, &self.answer, self.way)
    }
}

/// A walk from its start, with as many steps as its course has.
fn drawn(mut course: Course, random: &mut Random) -> Vec<Call> {
    let mut calls = vec![Call::new(walks::start(random))];
    while let Some(step) = course.next(&calls[calls.len() - 1].answer, random) {
        calls.push(Call::new(step));
    }
    calls
}

fn bytes(calls: &[Call]) -> usize {
    calls.iter().map(|call| size(&call.case)).sum()
}

/// Whether a walk comes to so many stations, with few rows.
fn fits(calls: &[Call], stations: u64) -> bool {
    let last = Walk::read(&calls[calls.len() - 1].answer.out);
    last.count() == stations && bytes(&calls[1..]) <= STEP * (calls.len() - 1)
}

/// How rare the kinds of a walk's steps are so far, one with another.
fn rarity(calls: &[Call], kept: &Kept) -> f64 {
    let steps = &calls[1..];
    let counts = steps.iter().map(|call| kept.count(Entry::WalkStep, &call.kind()));
    counts.map(|count| 1.0 / (1 + count) as f64).sum::<f64>() / steps.len() as f64
}

/// Of some walks of so many stations the one whose steps are rarest.
fn whole(stations: u64, kept: &Kept, random: &mut Random) -> Vec<Call> {
    let walks = std::iter::repeat_with(|| drawn(Course::new(stations - 1, REFUSALS), random));
    let choice = walks.filter(|calls| fits(calls, stations)).take(CHOICE);
    choice.max_by(|one, other| rarity(one, kept).total_cmp(&rarity(other, kept))).expect("a choice")
}

/// Document 01's own request, with its row.
fn good() -> Case {
    Draft { numbers: REQUEST, rows: vec![[1.0, 0.0, 2.0]] }.case()
}

/// A start that the first step refuses with a number, though its station and rows are good.
fn bad_start(number: u64, random: &mut Random) -> [Call; 2] {
    loop {
        let start = Call::new(walks::start(random));
        let step = Call::new(Walk::read(&start.answer.out).step_to(&good()));
        if step.answer.number == number {
            return [start, step];
        }
    }
}

/// Steps from walks of so many stations: beside the limit, at it and past it, and from a count that no start gives. At the limit also with rows or ends that a
/// shorter walk refuses, and with a byte left over.
fn at_the_limit() -> Vec<Case> {
    let good = good();
    let counts = [0, STATIONS - 2, STATIONS - 1, STATIONS, STATIONS + 1, u64::MAX];
    let mut cases: Vec<Case> = counts.iter().map(|count| Walk::up_to(&good, *count).step_to(&good)).collect();
    for len in [8, 23] {
        let mut other = good.clone();
        other.lists[0].truncate(len);
        cases.push(Walk::up_to(&good, STATIONS).step_to(&other));
    }
    let mut nowhere = good.clone();
    nowhere.numbers[4..7].fill(random::NAN);
    cases.push(Walk::up_to(&good, STATIONS).step_to(&nowhere));
    cases
}

/// A NaN of another pattern than 7FF8000000000000 in a start, and in the state of a step, where a refusal leaves it.
fn odd_patterns() -> Vec<Case> {
    let mut cases = Vec::new();
    for (place, odd) in [(0, 0xfff8_0000_0000_0000), (3, 0x7ff0_0000_0000_0001), (6, !0)] {
        let mut walk = Walk::up_to(&good(), 1);
        walk.0[place] = odd;
        cases.extend([walk.as_start(), walk.step_to(&good())]);
    }
    cases
}

fn keep_calls(kept: &mut Kept, calls: &[Call]) {
    for call in calls {
        kept.whatever_its_length(&call.case);
    }
}

fn keep_whole_walks(kept: &mut Kept, random: &mut Random) {
    let (mut walks, mut left) = (0, ROOM);
    loop {
        let calls = whole(LENGTHS[walks.min(LENGTHS.len() - 1)], kept, random);
        if bytes(&calls) > left {
            break;
        }
        keep_calls(kept, &calls);
        (walks, left) = (walks + 1, left - bytes(&calls));
    }
    assert!(walks >= WALKS, "there is room for {walks} whole walks only");
    println!("{walks} whole walks");
}

/// Keeps what whole walks have too seldom, and whole walks.
pub fn keep(kept: &mut Kept, random: &mut Random) {
    for case in at_the_limit().iter().chain(&odd_patterns()) {
        kept.whatever_its_length(case);
    }
    for number in [2, 3].repeat(BAD_STARTS) {
        keep_calls(kept, &bad_start(number, random));
    }
    keep_whole_walks(kept, random);
}
