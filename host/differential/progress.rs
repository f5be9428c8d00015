//! How far a run has come, told on standard error: on a terminal in a line that is written over each second, else in a
//! line each minute.

use std::io::{stderr, IsTerminal, Write};
use std::sync::atomic::{AtomicU64, Ordering};
use std::time::{Duration, Instant};

pub struct Progress {
    began: Instant,
    /// When the run ends.
    end: End,
    /// What the work that is done was expected to take, in nanoseconds of one thread.
    done: AtomicU64,
    compared: AtomicU64,
    pub differ: AtomicU64,
}

pub enum End {
    /// After so many seconds.
    Time(f64),
    /// When all is done: nanoseconds expected of one thread, and how many threads there are.
    Work(u64, u64),
}

fn clock(seconds: f64) -> String {
    let whole = seconds as u64;
    format!("{}:{:02}", whole / 60, whole % 60)
}

impl Progress {
    pub fn new(end: End) -> Progress {
        let [done, compared, differ] = [0, 0, 0].map(AtomicU64::new);
        Progress { began: Instant::now(), end, done, compared, differ }
    }

    /// One more is compared, which was expected to take so long.
    pub fn add(&self, cost: u64) {
        self.done.fetch_add(cost, Ordering::Relaxed);
        self.compared.fetch_add(1, Ordering::Relaxed);
    }

    /// How many minutes the run takes in all: by its time; else by what is expected, and then by the share that is done.
    fn whole(&self, elapsed: f64) -> String {
        let done = self.done.load(Ordering::Relaxed) as f64;
        match self.end {
            End::Time(seconds) => clock(seconds),
            End::Work(work, threads) if done == 0.0 => format!("about {}", clock(work as f64 / 1e9 / threads as f64)),
            End::Work(work, _) => format!("about {}", clock(elapsed * (work as f64 / done).max(1.0))),
        }
    }

    fn line(&self) -> String {
        let elapsed = self.began.elapsed().as_secs_f64();
        let [compared, differ] = [&self.compared, &self.differ].map(|count| count.load(Ordering::Relaxed));
        let whole = self.whole(elapsed);
        format!("{} of {whole} minutes, {compared} compared, {differ} differ", clock(elapsed))
    }

    pub fn tell_until(&self, over: impl Fn() -> bool) {
        let terminal = stderr().is_terminal();
        let (each, end) = if terminal { (1.0, "\r") } else { (60.0, "\n") };
        let mut next = 0.0;
        while !over() {
            if self.began.elapsed().as_secs_f64() >= next {
                next += each;
                // where nobody reads it, nothing is lost
                let _ = write!(stderr(), "{}{end}", self.line());
            }
            std::thread::sleep(Duration::from_millis(50));
        }
        if terminal {
            eprintln!("{}", self.line());
        }
    }
}
