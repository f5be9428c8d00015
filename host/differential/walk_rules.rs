//! The walk, straight from document 02's request "Walk a whole strap".

use crate::case::{pattern, Answer, Case, Entry, LENT};
use crate::recovery_rules::{recovery, Way};
use crate::slips::Slip;

/// "It counts stations, the start as 1, 4,096 at most."
pub const STATIONS: u64 = 4096;
/// "61, walk full"
const FULL: u64 = 61;

const SPEED: usize = 3;
const CAP: usize = 6;
const COUNT: usize = 7;
/// The length of the eight words in bytes.
const ROOM: usize = 64;

/// The state between two calls: the patterns of the three tolerances, of the last committed speed, and of the last station's lower, upper and cap; then the count
/// of stations.
pub struct Walk(pub [u64; 8]);

impl Walk {
    pub fn read(bytes: &[u8]) -> Walk {
        Walk(std::array::from_fn(|i| u64::from_le_bytes(bytes[8 * i..8 * i + 8].try_into().unwrap())))
    }

    pub fn bytes(&self) -> Vec<u8> {
        self.0.iter().flat_map(|word| word.to_le_bytes()).collect()
    }

    pub fn count(&self) -> u64 {
        self.0[COUNT]
    }

    /// The walk of so many stations that a recovery request goes on from.
    pub fn up_to(request: &Case, count: u64) -> Walk {
        let n = &request.numbers;
        Walk([n[7], n[8], n[9], n[0], n[1], n[2], n[3], count])
    }

    /// The ten numbers of the recovery request for the next station: "with the last committed speed as `a_prev`".
    pub fn request(&self, [lower, upper, cap]: [u64; 3]) -> [f64; 10] {
        let [feas_tol, abs_tol, rel_tol, speed, last_lower, last_upper, last_cap, _] = self.0;
        [speed, last_lower, last_upper, last_cap, lower, upper, cap, feas_tol, abs_tol, rel_tol].map(f64::from_bits)
    }

    /// The call that starts this walk, but for its count.
    pub fn as_start(&self) -> Case {
        Case { entry: Entry::WalkStart, numbers: self.0[..COUNT].to_vec(), lists: vec![], room: ROOM }
    }

    /// The call that takes this walk to the current station of a recovery request, with its rows.
    pub fn step_to(&self, request: &Case) -> Case {
        let lists = vec![request.lists[0].clone(), self.bytes()];
        Case { entry: Entry::WalkStep, numbers: request.numbers[4..7].to_vec(), lists, room: ROOM }
    }

    /// The walk, gone on to a station with a speed.
    fn moved(mut self, speed: u64, station: [u64; 3], slip: Slip) -> Walk {
        let kept_cap = self.0[CAP];
        self.0[SPEED] = speed;
        self.0[SPEED + 1..COUNT].copy_from_slice(&station);
        if slip == Slip::OldCap {
            self.0[CAP] = kept_cap;
        }
        if slip != Slip::CountKept {
            self.0[COUNT] += 1;
        }
        self
    }
}

/// A step's station: lower, upper and cap.
pub fn station(step: &Case) -> [u64; 3] {
    [step.numbers[0], step.numbers[1], step.numbers[2]]
}

/// "it starts from the tolerances, a start speed and the first station's interval and cap"; the start counts as 1.
pub fn start(case: &Case) -> Answer {
    let mut walk = Walk([1; 8]);
    for (word, number) in walk.0.iter_mut().zip(&case.numbers) {
        *word = pattern(f64::from_bits(*number));
    }
    Answer { number: 0, lent: LENT, out: walk.bytes(), strayed: false }
}

/// "each step .. answers as recovery does"; "a refused step returns the state unchanged"
pub fn step(case: &Case, slip: Slip) -> (Answer, Option<Way>) {
    let walk = Walk::read(&case.lists[1]);
    let (mut answer, way) = recovery(case, slip);
    // "61, walk full, before 1"
    if walk.count() >= STATIONS && !(slip == Slip::FullAfterRows && answer.number == 1) {
        return (Answer::refused(FULL, case), None);
    }
    if answer.number == 0 {
        answer.out = walk.moved(answer.lent[0], station(case), slip).bytes();
    } else if slip == Slip::MovedByRefusal {
        let speed = walk.0[SPEED];
        answer.out = walk.moved(speed, station(case), slip).bytes();
    }
    (answer, way)
}
