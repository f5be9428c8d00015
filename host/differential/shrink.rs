//! The smallest input that still differs, as far as plain steps lead.

use crate::case::{Case, Entry};
use std::time::{Duration, Instant};

/// Shrinking ends soon, whatever the input.
const PATIENCE: Duration = Duration::from_secs(10);

/// So short is a file of which each run of bytes is tried.
const EACH_RUN: usize = 256;

struct Shrinker<F> {
    differs: F,
    began: Instant,
}

/// Makes a case smaller while it differs: fewer stations, samples, rows and bytes of a file, less output, plainer numbers.
pub fn smallest(case: &Case, differs: impl Fn(&Case) -> bool) -> Case {
    let shrinker = Shrinker { differs, began: Instant::now() };
    let mut best = case.clone();
    while let Some(smaller) = shrinker.step(&best) {
        best = smaller;
    }
    best
}

impl<F: Fn(&Case) -> bool> Shrinker<F> {
    fn is_patient(&self) -> bool {
        self.began.elapsed() < PATIENCE
    }

    fn still_differs(&self, case: &Case) -> bool {
        self.is_patient() && (self.differs)(case)
    }

    /// The first plain step after which the case still differs. Each one lessens the bytes, or keeps them and lessens the weight of a number.
    fn step(&self, case: &Case) -> Option<Case> {
        let shorter = self.shorter(case);
        if case.entry == Entry::CutFileSection {
            let of_lower_kind = shorter.or_else(|| self.of_a_lower_kind(case));
            return of_lower_kind.or_else(|| self.with_zeros(case)).or_else(|| self.with_a_lower_byte(case));
        }
        shorter.or_else(|| self.with_less_room(case)).or_else(|| self.plainer(case))
    }

    /// Fewer stations, samples, rows or bytes of a file: halves, quarters and so on left out; of a short file each run of bytes, and so each section.
    fn shorter(&self, case: &Case) -> Option<Case> {
        for group in groups(case) {
            let n = group.lists.iter().map(|i| case.lists[*i].len()).max()?.div_ceil(group.width);
            let each_run = case.entry == Entry::CutFileSection && n <= EACH_RUN;
            let mut size = n;
            while size > 0 {
                let step = if each_run { 1 } else { size };
                for from in (0..n).step_by(step).take_while(|_| self.is_patient()) {
                    let smaller = group.without(case, from, size);
                    if self.still_differs(&smaller) {
                        return Some(smaller);
                    }
                }
                size = if each_run { size - 1 } else { size / 2 };
            }
        }
        None
    }

    /// Less output, for a grid also with its step doubled or its first half left out.
    fn with_less_room(&self, case: &Case) -> Option<Case> {
        // a walk has eight words, whatever else is left out
        if Entry::WALK.contains(&case.entry) {
            return None;
        }
        for room in
            [0, case.room / 16 * 8, case.room / 16 * 8 + 8, case.room.saturating_sub(8), case.room.saturating_sub(1)]
        {
            let smaller = Case { room, ..case.clone() };
            let candidates = if case.entry == Entry::TToSGrid {
                vec![coarser(&smaller), later(&smaller), smaller]
            } else {
                vec![smaller]
            };
            if let Some(found) = candidates.into_iter().filter(|c| c.room < case.room).find(|c| self.still_differs(c)) {
                return Some(found);
            }
        }
        None
    }

    /// A plainer number in the place of one, everywhere it stands or at one place only.
    fn plainer(&self, case: &Case) -> Option<Case> {
        for at in (0..places(case)).take_while(|_| self.is_patient()) {
            let here = pattern_at(case, at);
            for p in plainer(here) {
                let mut everywhere = case.clone();
                for other in (0..places(case)).filter(|other| pattern_at(case, *other) == here) {
                    set_pattern_at(&mut everywhere, other, p);
                }
                let mut once = case.clone();
                set_pattern_at(&mut once, at, p);
                if let Some(found) = [everywhere, once].into_iter().find(|c| self.still_differs(c)) {
                    return Some(found);
                }
            }
        }
        None
    }

    /// A file asked for a lower kind.
    fn of_a_lower_kind(&self, case: &Case) -> Option<Case> {
        let kinds = lower(case.numbers[0]).into_iter();
        kinds.map(|kind| Case { numbers: vec![kind], ..case.clone() }).find(|c| self.still_differs(c))
    }

    /// A part of a file set to 0: all of it, halves, quarters and so on.
    fn with_zeros(&self, case: &Case) -> Option<Case> {
        let n = case.lists[0].len();
        let mut size = n;
        while size > 0 {
            for from in (0..n).step_by(size).take_while(|_| self.is_patient()) {
                let mut smaller = case.clone();
                smaller.lists[0][from..n.min(from + size)].fill(0);
                if smaller.lists != case.lists && self.still_differs(&smaller) {
                    return Some(smaller);
                }
            }
            size /= 2;
        }
        None
    }

    /// A file with a lower byte in the place of one.
    fn with_a_lower_byte(&self, case: &Case) -> Option<Case> {
        for at in (0..case.lists[0].len()).take_while(|_| self.is_patient()) {
            for byte in lower(case.lists[0][at].into()) {
                let mut smaller = case.clone();
                smaller.lists[0][at] = byte as u8;
                if self.still_differs(&smaller) {
                    return Some(smaller);
                }
            }
        }
        None
    }
}

/// Numbers to put in the place of a greater one.
fn lower(n: u64) -> Vec<u64> {
    let mut list = vec![0, n / 2, n.saturating_sub(1)];
    list.retain(|lower| *lower < n);
    list
}

fn coarser(grid: &Case) -> Case {
    let mut coarser = grid.clone();
    coarser.numbers[1] = (2.0 * grid.number(1)).to_bits();
    coarser
}

fn later(grid: &Case) -> Case {
    let mut later = grid.clone();
    if let Some(last) = grid.doubles(2).last() {
        later.numbers[0] = (0.5 * grid.number(0) + 0.5 * last).to_bits();
    }
    later
}

/// How many numbers and whole doubles of lists a case has.
fn places(case: &Case) -> usize {
    case.numbers.len() + case.lists.iter().map(|list| list.len() / 8).sum::<usize>()
}

/// The list of a place that is not among the numbers, and the byte it starts at.
fn byte_place(case: &Case, at: usize) -> (usize, usize) {
    let mut left = at - case.numbers.len();
    for (i, list) in case.lists.iter().enumerate() {
        if left < list.len() / 8 {
            return (i, 8 * left);
        }
        left -= list.len() / 8;
    }
    unreachable!("place {at} of {}", places(case))
}

fn pattern_at(case: &Case, at: usize) -> u64 {
    if at < case.numbers.len() {
        return case.numbers[at];
    }
    let (list, byte) = byte_place(case, at);
    u64::from_le_bytes(case.lists[list][byte..byte + 8].try_into().unwrap())
}

fn set_pattern_at(case: &mut Case, at: usize, pattern: u64) {
    if at < case.numbers.len() {
        case.numbers[at] = pattern;
        return;
    }
    let (list, byte) = byte_place(case, at);
    case.lists[list][byte..byte + 8].copy_from_slice(&pattern.to_le_bytes());
}

/// Lists that lose entries at the same places, how many bytes one entry has, and whether the output loses as many.
struct Group {
    lists: Vec<usize>,
    width: usize,
    with_room: bool,
}

fn groups(case: &Case) -> Vec<Group> {
    let alone = |i: usize, width| Group { lists: vec![i], width, with_room: false };
    match case.entry {
        Entry::Recover | Entry::WalkStep => vec![alone(0, 24), alone(0, 8), alone(0, 1)],
        Entry::TToSList => {
            let stations = Group { lists: vec![0, 1, 2], width: 8, with_room: false };
            let samples = Group { lists: vec![3], width: 8, with_room: true };
            vec![stations, samples, alone(0, 8), alone(1, 8), alone(2, 8), alone(3, 8)]
        }
        Entry::TToSGrid => {
            let stations = Group { lists: vec![0, 1, 2], width: 8, with_room: false };
            vec![stations, alone(0, 8), alone(1, 8), alone(2, 8)]
        }
        Entry::AToB | Entry::SToT => {
            vec![Group { lists: vec![0, 1], width: 8, with_room: true }, alone(0, 8), alone(1, 8)]
        }
        Entry::CutFileSection => vec![alone(0, 1)],
        _ => vec![],
    }
}

impl Group {
    fn without(&self, case: &Case, from: usize, size: usize) -> Case {
        let mut smaller = case.clone();
        for i in &self.lists {
            let list = &mut smaller.lists[*i];
            let (start, end) = ((from * self.width).min(list.len()), ((from + size) * self.width).min(list.len()));
            list.drain(start..end);
        }
        if self.with_room {
            smaller.room = smaller.room.saturating_sub(size * self.width);
        }
        smaller
    }
}

/// How far a pattern is from a plain number: the plainest weigh least, then those with short significands.
fn weight(pattern: u64) -> u32 {
    match plain().iter().position(|p| *p == pattern) {
        Some(place) => place as u32,
        None => 100 - pattern.trailing_zeros(),
    }
}

fn plain() -> [u64; 8] {
    [0.0, 1.0, 2.0, 3.0, 4.0, 0.5, -1.0, f64::INFINITY].map(f64::to_bits)
}

/// Plainer patterns to put in the place of one.
fn plainer(pattern: u64) -> Vec<u64> {
    let shorter = [48, 40, 32, 24, 16, 8, 4, 2, 1].map(|bits| pattern >> bits << bits);
    let one_shorter = pattern & pattern.wrapping_sub(1);
    let mut list: Vec<u64> = plain().into_iter().chain(shorter).chain([one_shorter]).collect();
    list.retain(|p| weight(*p) < weight(pattern));
    list
}
