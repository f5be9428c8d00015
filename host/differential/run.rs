//! Goes through the plan of a run, in one or more threads.

use crate::case::{Answer, Case, Entry};
use crate::files;
use crate::fixed;
use crate::judge::{self, Compared};
use crate::leaves;
use crate::profiles;
use crate::progress::{End, Progress};
use crate::random::Random;
use crate::requests;
use crate::shrink;
use crate::slips::Slip;
use crate::tally::Tally;
use crate::walks;
use std::sync::atomic::Ordering;
use std::time::Instant;

/// A run stops after so many differences.
const ENOUGH: u64 = 3;

/// As much stack as a program's first thread has.
const STACK: usize = 8 << 20;

#[derive(Clone)]
pub struct Plan {
    pub seconds: f64,
    /// Exact counts of leaf calls, recoveries, conversions, walks, roots, lengths and files, in place of a time.
    pub counts: Option<[u64; PARTS.len()]>,
    pub fixed: bool,
    pub seed: u64,
    pub threads: u64,
    pub slip: Slip,
    /// Whether each slip is to be tried in its turn.
    pub each_slip: bool,
    /// Whether differences are only counted.
    pub quiet: bool,
}

impl Default for Plan {
    fn default() -> Plan {
        Plan {
            seconds: 600.0,
            counts: None,
            fixed: true,
            seed: 20_261_115,
            threads: 1,
            slip: Slip::None,
            each_slip: false,
            quiet: false,
        }
    }
}

/// One of the parts of what is generated: leaf calls, recoveries, conversions, whole walks, roots, lengths, files.
struct Part {
    /// The cases of one block, all from one generator.
    block: u64,
    /// Its share of a run's time.
    share: f64,
    /// Nanoseconds that a case took on one machine: what a run by counts is expected to take, and how far it has come.
    cost: u64,
}

const PARTS: [Part; 7] = [
    Part { block: 8000, share: 0.1, cost: 1_300 },
    Part { block: 1000, share: 0.25, cost: 4_000 },
    Part { block: 400, share: 0.3, cost: 10_000 },
    Part { block: 100, share: 0.2, cost: 8 * STEP_COST },
    Part { block: 8000, share: 0.05, cost: 1_300 },
    Part { block: 8000, share: 0.05, cost: 1_300 },
    Part { block: 4000, share: 0.05, cost: 3_000 },
];

/// A walk has about eight calls.
const STEP_COST: u64 = 5_000;

/// Nanoseconds that the inputs which are the same in every run took there.
const FIXED_COST: u64 = 3_700_000_000;

/// What a call of an entry that is no leaf is expected to take.
fn cost(entry: Entry) -> u64 {
    match entry {
        Entry::Recover => PARTS[1].cost,
        Entry::WalkStart | Entry::WalkStep => STEP_COST,
        Entry::CutFileSection => PARTS[6].cost,
        _ => PARTS[2].cost,
    }
}

/// When the run ends.
fn end(plan: &Plan) -> End {
    let Some(counts) = plan.counts else { return End::Time(plan.seconds) };
    let generated: u64 = counts.iter().zip(&PARTS).map(|(count, part)| count * part.cost).sum();
    End::Work(generated + if plan.fixed { FIXED_COST } else { 0 }, plan.threads)
}

pub fn run(plan: &Plan) -> Tally {
    let progress = Progress::new(end(plan));
    let mut total = Tally::default();
    std::thread::scope(|scope| {
        let start = |thread| {
            let worker = Worker { plan, thread, progress: &progress, tally: Tally::default(), began: Instant::now() };
            std::thread::Builder::new().stack_size(STACK).spawn_scoped(scope, move || worker.work()).expect("a thread")
        };
        let workers: Vec<_> = (0..plan.threads).map(start).collect();
        if !plan.quiet {
            progress.tell_until(|| workers.iter().all(|worker| worker.is_finished()));
        }
        for worker in workers {
            total.add(&worker.join().expect("a worker that ends"));
        }
    });
    total
}

struct Worker<'a> {
    plan: &'a Plan,
    thread: u64,
    progress: &'a Progress,
    tally: Tally,
    began: Instant,
}

impl Worker<'_> {
    fn enough_found(&self) -> bool {
        self.progress.differ.load(Ordering::Relaxed) >= ENOUGH
    }

    fn work(mut self) -> Tally {
        if self.plan.fixed {
            self.fixed();
        }
        match self.plan.counts {
            Some(counts) => self.counted(counts),
            None => self.timed(),
        }
        self.tally
    }

    /// This thread's part of what is numbered 0, 1, 2 ..
    fn is_mine(&self, number: u64) -> bool {
        number % self.plan.threads == self.thread
    }

    /// What every run tries.
    fn fixed(&mut self) {
        for leaf in Entry::LEAVES {
            let mut i = self.thread;
            while let (false, Some(patterns)) = (self.enough_found(), fixed::short_leaf(leaf, i)) {
                self.compare_leaf(leaf, patterns);
                i += self.plan.threads;
            }
        }
        for (i, case) in fixed::limits().iter().enumerate() {
            if self.is_mine(i as u64) && !self.enough_found() {
                self.compare(case);
            }
        }
        if self.is_mine(0) {
            let mut once_full = fixed::once_full().into_iter();
            self.walk(&fixed::start_of_the_longest_walk(), |after| {
                fixed::step_of_the_longest_walk(after, &mut once_full)
            });
        }
        for make in fixed::SHORT {
            let mut i = self.thread;
            while let (false, Some(case)) = (self.enough_found(), fixed::short(make, i)) {
                self.compare(&case);
                i += self.plan.threads;
            }
        }
    }

    fn counted(&mut self, counts: [u64; PARTS.len()]) {
        for (part, count) in counts.into_iter().enumerate() {
            let size = PARTS[part].block;
            let mut block = self.thread;
            while block * size < count {
                self.block(part, block, size.min(count - block * size));
                block += self.plan.threads;
            }
        }
    }

    /// Blocks in turn until the time is up, always of the part that is furthest behind its share.
    fn timed(&mut self) {
        let mut spent = [0.0; PARTS.len()];
        let mut blocks = [self.thread; PARTS.len()];
        while self.began.elapsed().as_secs_f64() < self.plan.seconds && !self.enough_found() {
            let behind = |part: &usize| spent[*part] / PARTS[*part].share;
            let part = (0..PARTS.len()).min_by(|p, q| behind(p).total_cmp(&behind(q))).expect("some parts");
            let start = Instant::now();
            self.block(part, blocks[part], PARTS[part].block);
            spent[part] += start.elapsed().as_secs_f64();
            blocks[part] += self.plan.threads;
        }
    }

    /// The cases of one block: they follow from the seed, the part and the block's number.
    fn block(&mut self, part: usize, block: u64, count: u64) {
        let mut random = Random::new(self.plan.seed, part as u64, block);
        for i in 0..count {
            if self.enough_found() {
                return;
            }
            match part {
                0 => {
                    let leaf = Entry::LEAVES[(i % 8) as usize];
                    self.compare_leaf(leaf, leaves::patterns(leaf, &mut random));
                }
                1 => _ = self.compare(&requests::case(&mut random)),
                2 => _ = self.compare(&profiles::case(&mut random)),
                3 => {
                    let (mut course, first) = walks::walk(&mut random);
                    self.walk(&first, |after| course.next(after, &mut random));
                }
                4 => self.compare_leaf(Entry::Sqrt, leaves::for_the_root(&mut random)),
                5 => self.compare_leaf(Entry::Hypot, leaves::for_a_length(&mut random)),
                _ => _ = self.compare(&files::case(&mut random)),
            }
        }
    }

    fn compare_leaf(&mut self, leaf: Entry, patterns: [u64; 3]) {
        self.tally.leaf(leaf);
        self.progress.add(PARTS[0].cost);
        if !leaves::is_right(leaf, patterns, self.plan.slip) {
            self.report(&leaves::case(leaf, patterns));
        }
    }

    fn compare(&mut self, case: &Case) -> Compared {
        self.compare_apart(case, case)
    }

    fn compare_apart(&mut self, case: &Case, ruled: &Case) -> Compared {
        let compared = judge::compared_apart(case, ruled, self.plan.slip);
        self.tally.call(case.entry, &compared);
        self.progress.add(cost(case.entry));
        if compared.difference.is_some() {
            self.report(case);
        }
        compared
    }

    /// A whole walk. `next` makes a step of what the call before it must leave behind: from that the rules go on, the library from the eight words that it left.
    fn walk(&mut self, first: &Case, mut next: impl FnMut(&Answer) -> Option<Case>) {
        self.tally.walks += 1;
        let mut compared = self.compare(first);
        while let (None, false) = (compared.difference, self.enough_found()) {
            let Some(ruled) = next(&compared.wanted) else { return };
            self.tally.tried_again += u64::from(compared.wanted.number > 0);
            let case = Case { lists: vec![ruled.lists[0].clone(), compared.ours.out], ..ruled.clone() };
            compared = self.compare_apart(&case, &ruled);
        }
    }

    /// Counts a difference, and prints the smallest case that shrinking leads to.
    fn report(&mut self, case: &Case) {
        self.tally.differ += 1;
        let found_before = self.progress.differ.fetch_add(1, Ordering::Relaxed);
        if found_before >= ENOUGH || self.plan.quiet {
            return;
        }
        let slip = self.plan.slip;
        let smallest = shrink::smallest(case, |case| judge::differs(case, slip));
        println!("DIFFERS: {}\n{}", smallest.described(), judge::sides(&smallest, slip));
    }
}
