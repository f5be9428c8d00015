//! Conversions: profiles with structure, from any patterns, and good ones damaged in each way that a refusal names.

use crate::case::{bytes, Case, Entry};
use crate::original::interpolation::s_to_t_topp2;
use crate::random::{stepped, Random};

/// A conversion before its lists are made bytes.
#[derive(Clone)]
pub struct Draft {
    pub entry: Entry,
    pub s: Vec<f64>,
    pub a: Vec<f64>,
    pub t: Vec<f64>,
    pub samples: Vec<f64>,
    pub t0: f64,
    pub dt: f64,
    pub with_final: u8,
    /// The doubles that the output has room for beyond what is needed.
    pub spare: i64,
}

impl Draft {
    /// An entry's call on three lists. The rest stands for nothing until it is set.
    pub fn new(entry: Entry, s: Vec<f64>, a: Vec<f64>, t: Vec<f64>) -> Draft {
        Draft { entry, s, a, t, samples: vec![], t0: 0.0, dt: 1.0, with_final: 0, spare: 0 }
    }

    /// "Needed room: n for s to t, n-1 for a to b, one per sample, one more if the final is asked for." For a grid far too long, a little.
    fn needed(&self) -> i64 {
        match self.entry {
            Entry::AToB => self.s.len() as i64 - 1,
            Entry::SToT => self.s.len() as i64,
            Entry::TToSList => self.samples.len() as i64,
            _ => {
                let n = ((self.t.last().unwrap_or(&0.0) - self.t0) / self.dt).floor();
                i64::from(self.with_final > 0) + if n < 70_000.0 { n.max(0.0) as i64 } else { 4 }
            }
        }
    }

    pub fn case(&self) -> Case {
        let (s, a, t) = (bytes(&self.s), bytes(&self.a), bytes(&self.t));
        let (numbers, lists) = match self.entry {
            Entry::AToB => (vec![], vec![s, a]),
            Entry::SToT => (vec![self.t0.to_bits()], vec![s, a]),
            Entry::TToSList => (vec![], vec![s, a, t, bytes(&self.samples)]),
            _ => (vec![self.t0.to_bits(), self.dt.to_bits(), u64::from(self.with_final)], vec![s, a, t]),
        };
        Case { entry: self.entry, numbers, lists, room: 8 * (self.needed() + self.spare).max(0) as usize }
    }
}

/// The next conversion to be tried.
pub fn case(random: &mut Random) -> Case {
    let entry = random.choose(&Entry::CONVERSIONS);
    let mut draft = good(entry, random);
    let mut ragged = false;
    if random.one_in(3) {
        for _ in 0..random.choose(&[1, 1, 2, 3]) {
            let number = 10 + random.below(20);
            ragged |= number == 10;
            damage(&mut draft, number, random);
        }
    }
    let mut case = draft.case();
    if ragged {
        leave_over(&mut case, random);
    }
    case
}

/// Some bytes that make no whole double, at the end of a list or of the output.
fn leave_over(case: &mut Case, random: &mut Random) {
    let bytes = 1 + random.place(7);
    match random.place(case.lists.len() + 1) {
        0 => case.room += bytes,
        place => {
            let list = &mut case.lists[place - 1];
            list.resize(list.len() + bytes, 0);
        }
    }
}

fn good(entry: Entry, random: &mut Random) -> Draft {
    let n = match random.below(4000) {
        0 => 4096,
        1..=20 => 500 + random.place(3500),
        21..=400 => 9 + random.place(120),
        _ => 2 + random.place(7),
    };
    let s = increasing(n, random);
    let a = speeds(n, random);
    let t = times(&s, &a, random);
    let mut draft = Draft::new(entry, s, a, t);
    draft.spare = random.choose(&[0, 0, 1, 5]);
    match entry {
        Entry::SToT => draft.t0 = start(random),
        Entry::TToSList => draft.samples = samples(&draft.t, random),
        _ => grid(&mut draft, random),
    }
    draft
}

fn start(random: &mut Random) -> f64 {
    match random.below(6) {
        0 => 0.0,
        1 => 10.0,
        2 => random.finite(),
        3 => random.signed() * random.power(40, 60),
        _ => random.signed(),
    }
}

/// A strictly increasing list: whole steps, random steps, steps of any size, neighbouring doubles, any patterns in order, or steps that overflow.
fn increasing(n: usize, random: &mut Random) -> Vec<f64> {
    let kind = random.below(12);
    let scale = if random.one_in(8) { random.power(-1074, 1000) } else { random.power(-6, 6) };
    let first = match random.below(3) {
        0 => 0.0,
        1 => random.signed() * scale,
        _ => start(random),
    };
    if kind == 0 {
        return in_order((0..n).map(|_| random.finite()).collect());
    }
    if kind == 1 {
        return in_order((0..n).map(|_| f64::MAX * random.signed()).collect());
    }
    let mut list = vec![first];
    for i in 1..n {
        let before = list[i - 1];
        let next = match kind {
            2 | 3 => before + scale,
            4 => stepped(before, 1 + random.below(3) as i64),
            5 if random.one_in(2) => stepped(before, 1 + random.below(3) as i64),
            6 => before + random.power(-60, 60),
            _ => before + random.unit() * scale,
        };
        list.push(if before < next && next.is_finite() { next } else { stepped(before, 1) });
    }
    list
}

/// The numbers in their order, none twice but at the very end of the doubles.
fn in_order(mut list: Vec<f64>) -> Vec<f64> {
    list.sort_by(f64::total_cmp);
    for i in 1..list.len() {
        if list[i] <= list[i - 1] {
            list[i] = stepped(list[i - 1], 1);
        }
    }
    list
}

/// Squared speeds, no two neighbours zero: random, with zeros between, all alike, neighbouring doubles, any size, subnormal, or any patterns.
fn speeds(n: usize, random: &mut Random) -> Vec<f64> {
    let kind = random.below(8);
    let scale = if random.one_in(8) { random.power(-1074, 1000) } else { random.power(-6, 6) };
    let mut list: Vec<f64> = Vec::with_capacity(n);
    for i in 0..n {
        let stood = i > 0 && list[i - 1] == 0.0;
        let next = match kind {
            0 | 1 if !stood && random.one_in(3) => random.choose(&[0.0, -0.0]),
            2 => scale,
            3 => stepped(scale, random.below(5) as i64),
            4 => random.power(-1074, 1023),
            5 => f64::from_bits(1 + random.below(100)),
            6 => random.finite().abs(),
            _ => random.unit() * scale,
        };
        list.push(if stood && next == 0.0 { scale } else { next });
    }
    list
}

/// The profile's own times, now and then even if rounding made two of them equal, or another increasing list: the entry takes either.
fn times(s: &[f64], a: &[f64], random: &mut Random) -> Vec<f64> {
    match s_to_t_topp2(s, a, start(random)) {
        Ok((_, t)) if t.windows(2).all(|pair| pair[0] < pair[1]) && !random.one_in(3) || random.one_in(40) => t,
        _ => increasing(s.len(), random),
    }
}

/// A time at an end of an interval, beside it, within, before the first or past the last.
fn time(t: &[f64], random: &mut Random) -> f64 {
    let place = random.place(t.len());
    let next = t[(place + 1).min(t.len() - 1)];
    match random.below(8) {
        0 | 1 => t[place],
        2 => stepped(t[place], 1),
        3 => stepped(t[place], -1),
        4 => 0.5 * t[place] + 0.5 * next,
        5 => t[0] - random.unit(),
        6 => t[t.len() - 1] + random.unit(),
        _ => t[place] + random.unit() * (next - t[place]),
    }
}

fn samples(t: &[f64], random: &mut Random) -> Vec<f64> {
    let mut list: Vec<f64> = match random.below(4000) {
        0 | 1 => many_times(t, 65_536, random),
        2..=40 => many_times(t, 100 + random.place(2000), random),
        _ => (0..1 + random.place(12))
            .map(|_| if random.one_in(20) { random.finite() } else { time(t, random) })
            .collect(),
    };
    list.retain(|x| x.is_finite());
    list.sort_by(f64::total_cmp);
    list.dedup();
    list
}

/// Times all over the profile, and some way before and past it.
fn many_times(t: &[f64], n: usize, random: &mut Random) -> Vec<f64> {
    let (first, last) = (t[0], t[t.len() - 1]);
    (0..n).map(|_| first + (1.25 * random.unit() - 0.125) * (last - first)).collect()
}

/// An even grid over the times: from before, at, or within them, by a step that gives few samples, or just beside such a step.
fn grid(draft: &mut Draft, random: &mut Random) {
    draft.with_final = random.choose(&[0, 1, 1, 1, 2, 128, 255]);
    if random.one_in(8) {
        return grid_that_repeats(draft, random);
    }
    let (first, last) = (draft.t[0], draft.t[draft.t.len() - 1]);
    draft.t0 = match random.below(6) {
        0 | 1 => first,
        2 => first - random.unit() * (last - first),
        3 => last,
        4 => time(&draft.t, random),
        _ => first + random.unit() * (last - first),
    };
    let steps = match random.below(4000) {
        0 => 65_530 + random.below(10),
        1..=40 => 100 + random.below(2000),
        _ => 1 + random.below(12),
    } as f64;
    let even = (last - draft.t0) / steps;
    draft.dt = match random.below(10) {
        0 => stepped(even, 1),
        1 => stepped(even, -1),
        2 => (last - draft.t0) / (steps + random.unit()),
        3 => f64::from_bits(random.pattern()).abs(),
        _ => even,
    };
    if draft.dt <= 0.0 {
        draft.dt = random.choose(&[1.0, 1e-3, f64::MAX]);
    }
}

/// Times some doubles apart, and a step that is a fraction of their last place: rounded times repeat.
fn grid_that_repeats(draft: &mut Draft, random: &mut Random) {
    let mut time = start(random);
    for t in &mut draft.t {
        time = stepped(time, 1 + random.below(4) as i64);
        *t = time;
    }
    let first = draft.t[0];
    draft.t0 = stepped(first, random.below(3) as i64 - 1);
    draft.dt = (stepped(first, 1) - first) * random.choose(&[0.125, 0.3, 0.5, 0.75, 1.5]);
}

/// Puts a double in one place of a list, if it has any.
fn spoil(list: &mut [f64], with: f64, random: &mut Random) {
    if !list.is_empty() {
        let place = random.place(list.len());
        list[place] = with;
    }
}

/// Makes a neighbouring pair equal, or turns it round.
fn stall(list: &mut [f64], random: &mut Random) {
    if list.len() > 1 {
        let place = random.place(list.len() - 1);
        if random.one_in(2) {
            list.swap(place, place + 1);
        } else {
            list[place + 1] = list[place];
        }
    }
}

fn another_length(list: &mut Vec<f64>, random: &mut Random) {
    match random.below(3) {
        0 => list.clear(),
        1 => _ = list.pop(),
        _ => list.push(list.last().map_or(1.0, |x| x + 1.0)),
    }
}

/// Damages a conversion so that the refusal with this number is due, if the entry has it and no earlier one is.
fn damage(draft: &mut Draft, number: u64, random: &mut Random) {
    match number {
        11 => {
            let n = if random.one_in(400) { 4097 } else { random.place(2) };
            for list in [&mut draft.s, &mut draft.a, &mut draft.t] {
                list.resize(n, 1.0);
            }
        }
        12 => another_length(&mut draft.a, random),
        13 => spoil(&mut draft.s, random.not_finite(), random),
        14 => spoil(&mut draft.a, random.not_finite(), random),
        15 => stall(&mut draft.s, random),
        16 => draft.t0 = random.not_finite(),
        17 => spoil(&mut draft.a, random.choose(&[-1.0, -5e-324, -f64::MAX]), random),
        18 => {
            let place = random.place(draft.a.len().max(1));
            for x in draft.a.iter_mut().skip(place).take(2) {
                *x = random.choose(&[0.0, -0.0]);
            }
        }
        // the last time overflows, or one before it
        19 => match draft.s.len() {
            0 | 1 => {}
            n if random.one_in(2) => draft.s[n - 1] = f64::MAX,
            _ => draft.t0 = f64::MAX,
        },
        20 => another_length(&mut draft.t, random),
        21 => spoil(&mut draft.t, random.not_finite(), random),
        22 => stall(&mut draft.t, random),
        23 => draft.dt = random.not_finite(),
        24 => draft.dt = random.choose(&[0.0, -0.0, -1.0, -5e-324]),
        25 => draft.samples.clear(),
        26 => spoil(&mut draft.samples, random.not_finite(), random),
        27 => stall(&mut draft.samples, random),
        28 if random.one_in(400) => draft.samples = (0..65_537).map(f64::from).collect(),
        28 => draft.dt = random.choose(&[5e-324, stepped(0.0, 1000), draft.dt * 1e-6]),
        29 => draft.spare = random.choose(&[-1, -1, -2, -100_000]),
        _ => {}
    }
}
