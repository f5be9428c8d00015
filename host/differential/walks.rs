//! Walks: a start, mostly a good one, and stations that go on from the walk as it stands. A step that is refused is mostly tried again.

use crate::case::{Answer, Case};
use crate::random::{Random, INFINITY, SIGN};
use crate::requests::{self, Draft};
use crate::walk_rules::{station, Walk, STATIONS};

/// How a walk goes on.
pub struct Course {
    /// The stations to come.
    stations: u64,
    /// The refusals after which it still goes on.
    refusals: u64,
    /// The station last tried.
    station: [u64; 3],
}

/// A walk and its first call: mostly its start; else a step of one that is taken up on its way.
pub fn walk(random: &mut Random) -> (Course, Case) {
    let stations = if random.one_in(400) { 100 + random.below(300) } else { 1 + random.below(12) };
    let mut course = Course::new(stations, stations / 4 + random.below(4));
    if !random.one_in(8) {
        return (course, start(random));
    }
    let first = taken_up(random);
    course.station = station(&first);
    (course, first)
}

/// A start, mostly good: any NaN among its numbers may have any pattern.
pub fn start(random: &mut Random) -> Case {
    let mut start = Walk::up_to(&requests::before_a_walk(random), 1).as_start();
    if random.one_in(32) {
        start.numbers[random.place(7)] = nan(random);
    }
    start
}

fn nan(random: &mut Random) -> u64 {
    (random.next() & SIGN) | INFINITY | 1 << random.below(52) | random.next() >> (12 + random.below(52))
}

/// A step from any state, mostly near the most stations: any recovery request is such a step.
fn taken_up(random: &mut Random) -> Case {
    let request = requests::case(random);
    let count = match random.below(8) {
        0 => random.next(),
        1 => random.below(STATIONS),
        _ => STATIONS - 4 + random.below(5),
    };
    let mut walk = Walk::up_to(&request, count);
    if random.one_in(16) {
        walk.0[random.place(7)] = nan(random);
    }
    walk.step_to(&request)
}

impl Course {
    pub fn new(stations: u64, refusals: u64) -> Course {
        Course { stations, refusals, station: [0; 3] }
    }

    /// The next step after what the last call left behind: to another station, or with other rows to the same one if it was refused for its rows.
    pub fn next(&mut self, after: &Answer, random: &mut Random) -> Option<Case> {
        let left = if after.number == 0 { &mut self.stations } else { &mut self.refusals };
        *left = left.checked_sub(1)?;
        // 3 is the fault of the walk as it stands, and so 2 may be: what comes next is then refused as well
        if matches!(after.number, 2 | 3) && random.one_in(2) {
            return None;
        }
        let walk = Walk::read(&after.out);
        let mut draft = Draft { numbers: walk.request(self.station), rows: vec![] };
        if let 0 | 2..=4 = after.number {
            requests::follow(&mut draft, random);
        }
        let step = walk.step_to(&requests::with_rows(draft, random));
        self.station = station(&step);
        Some(step)
    }
}
