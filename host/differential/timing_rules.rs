//! Stations, speeds and times, straight from document 01's section of that name.

use crate::case::{Answer, Case, Entry};
use crate::slips::Slip;

/// "2 to 4,096 of each"
const STATIONS: usize = 4096;
/// Refusal 28: "more than 65,536 samples".
const SAMPLES: usize = 65_536;

fn refuse(number: u64, when: bool) -> Result<(), u64> {
    if when {
        Err(number)
    } else {
        Ok(())
    }
}

fn all_finite(list: &[f64]) -> bool {
    list.iter().all(|x| x.is_finite())
}

fn strictly_increasing(list: &[f64]) -> bool {
    list.windows(2).all(|pair| pair[0] < pair[1])
}

/// 11 to 15.
fn check_profile(s: &[f64], a: &[f64]) -> Result<(), u64> {
    refuse(11, s.len() < 2 || s.len() > STATIONS)?;
    refuse(12, a.len() != s.len())?;
    refuse(13, !all_finite(s))?;
    refuse(14, !all_finite(a))?;
    refuse(15, !strictly_increasing(s))
}

/// 17: "an a below zero (minus zero is not)"; 18: "two neighbouring a both zero".
fn check_speeds(a: &[f64]) -> Result<(), u64> {
    refuse(17, a.iter().any(|x| *x < 0.0))?;
    refuse(18, a.windows(2).any(|pair| pair[0] == 0.0 && pair[1] == 0.0))
}

/// 20 to 22.
fn check_times(t: &[f64], stations: usize) -> Result<(), u64> {
    refuse(20, t.len() != stations)?;
    refuse(21, !all_finite(t))?;
    refuse(22, !strictly_increasing(t))
}

/// 29: "output shorter than needed".
fn check_room(needed: usize, case: &Case) -> Result<(), u64> {
    refuse(29, case.room / 8 < needed)
}

/// "0.5·(a1 - a0)/(s1 - s0) per pair"
fn a_to_b(case: &Case) -> Result<Answer, u64> {
    let (s, a) = (case.doubles(0), case.doubles(1));
    check_profile(&s, &a)?;
    check_room(s.len() - 1, case)?;
    let b: Vec<f64> = (1..s.len()).map(|i| 0.5 * (a[i] - a[i - 1]) / (s[i] - s[i - 1])).collect();
    Ok(Answer::wrote(crate::case::LENT, &b, case))
}

/// "starting at t0, add 2·(s1 - s0)/(root a0 + root a1) per pair"
fn s_to_t(case: &Case, slip: Slip) -> Result<Answer, u64> {
    let (s, a, t0) = (case.doubles(0), case.doubles(1), case.number(0));
    check_profile(&s, &a)?;
    refuse(16, !t0.is_finite())?;
    check_speeds(&a)?;
    check_room(s.len(), case)?;
    let mut t = vec![t0];
    for i in 1..s.len() {
        t.push(t[i - 1] + 2.0 * (s[i] - s[i - 1]) / (a[i - 1].sqrt() + a[i].sqrt()));
    }
    let mut answer = Answer::wrote(crate::case::LENT, &t, case);
    if !all_finite(&t) {
        refuse(19, slip != Slip::EarlyTimes)?;
        answer.number = 19;
    }
    Ok(answer)
}

struct Profile {
    s: Vec<f64>,
    a: Vec<f64>,
    t: Vec<f64>,
}

impl Profile {
    /// The three lists, if they pass 11 to 15, 17, 18 and 20 to 22.
    fn checked(case: &Case) -> Result<Profile, u64> {
        let (s, a, t) = (case.doubles(0), case.doubles(1), case.doubles(2));
        check_profile(&s, &a)?;
        check_speeds(&a)?;
        check_times(&t, s.len())?;
        Ok(Profile { s, a, t })
    }

    fn last_station(&self) -> f64 {
        self.s[self.s.len() - 1]
    }

    fn last_time(&self) -> f64 {
        self.t[self.t.len() - 1]
    }

    /// The station within the interval that ends at station i: "s0 + dt·fma(c1, 0.25·dt, root a0), c1 = (a1 - a0)/(s1 - s0)".
    fn station(&self, i: usize, x: f64, slip: Slip) -> f64 {
        let dt = x - self.t[i - 1];
        let c1 = (self.a[i] - self.a[i - 1]) / (self.s[i] - self.s[i - 1]);
        let root = self.a[i - 1].sqrt();
        let sum = if slip == Slip::TwoRoundings { c1 * (0.25 * dt) + root } else { c1.mul_add(0.25 * dt, root) };
        self.s[i - 1] + dt * sum
    }

    /// "a time below the first gives NaN; else the first interval whose end time is not below it ..; past the last time NaN", with the counts of times before,
    /// inside and past, and the entries written.
    fn sampled(&self, times: impl Iterator<Item = f64>, slip: Slip) -> (Vec<f64>, [u64; 4]) {
        let [mut before, mut inside, mut past] = [0, 0, 0];
        let entries: Vec<f64> = times
            .map(|x| {
                if x < self.t[0] {
                    before += 1;
                    return f64::NAN;
                }
                let ends_below = |end: &f64| if slip == Slip::OpenEnd { *end <= x } else { *end < x };
                let interval = 1 + self.t[1..].partition_point(ends_below);
                if interval == self.t.len() {
                    past += 1;
                    return f64::NAN;
                }
                inside += 1;
                self.station(interval, x, slip)
            })
            .collect();
        let written = entries.len() as u64;
        (entries, [before, inside, past, written])
    }
}

fn t_to_s_list(case: &Case, slip: Slip) -> Result<Answer, u64> {
    let profile = Profile::checked(case)?;
    let samples = case.doubles(3);
    refuse(25, samples.is_empty())?;
    refuse(28, samples.len() > SAMPLES)?;
    refuse(26, !all_finite(&samples))?;
    refuse(27, !strictly_increasing(&samples))?;
    check_room(samples.len(), case)?;
    let (entries, counts) = profile.sampled(samples.into_iter(), slip);
    Ok(Answer::wrote(counts, &entries, case))
}

/// "n = whole part of (last time - t0)/dt, 0 if below 1; plus infinity is refused with 28, as is n over 65,536"
fn grid_size(last_time: f64, t0: f64, dt: f64) -> Result<usize, u64> {
    let whole = ((last_time - t0) / dt).floor();
    refuse(28, whole > SAMPLES as f64)?;
    Ok(if whole < 1.0 { 0 } else { whole as usize })
}

fn t_to_s_grid(case: &Case, slip: Slip) -> Result<Answer, u64> {
    let profile = Profile::checked(case)?;
    let (t0, dt, with_final) = (case.number(0), case.number(1), case.with_final());
    refuse(16, !t0.is_finite())?;
    refuse(23, !dt.is_finite())?;
    refuse(24, dt <= 0.0)?;
    let n = grid_size(profile.last_time(), t0, dt)?;
    check_room(n + usize::from(with_final && slip != Slip::RoomWithoutFinal), case)?;
    let (mut entries, mut counts) = profile.sampled((0..n).map(|i| t0 + i as f64 * dt), slip);
    if with_final && final_is_due(&profile, &entries, t0, slip) {
        entries.push(profile.last_station());
        counts[3] += 1;
        counts[1] += u64::from(slip == Slip::FinalIsATime);
    }
    Ok(Answer::wrote(counts, &entries, case))
}

/// 02, request 3: "with the final asked for and t0 at or before the last time, the last station is added unless the last entry is already at or past it; NaN
/// counts as not there"
fn final_is_due(profile: &Profile, entries: &[f64], t0: f64, slip: Slip) -> bool {
    let end = profile.last_station();
    let is_there = match entries.last() {
        None => false,
        Some(entry) if entry.is_nan() => slip == Slip::NanIsThere,
        Some(entry) => *entry > end || *entry == end && slip != Slip::FinalTwice,
    };
    (t0 <= profile.last_time() || slip == Slip::LateFinal) && !is_there
}

/// What a conversion must leave behind.
pub fn conversion(case: &Case, slip: Slip) -> Answer {
    let answer = match case.entry {
        Entry::AToB => a_to_b(case),
        Entry::SToT => s_to_t(case, slip),
        Entry::TToSList => t_to_s_list(case, slip),
        Entry::TToSGrid => t_to_s_grid(case, slip),
        other => unreachable!("{other:?} is no conversion"),
    };
    answer.unwrap_or_else(|number| Answer::refused(number, case))
}
