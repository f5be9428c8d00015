//! Counts of what was compared.

use crate::case::Entry;
use crate::judge::Compared;
use crate::recovery_rules::Way;
use std::collections::BTreeMap;

#[derive(Default, Clone)]
pub struct Tally {
    /// By leaf, in the order of `Entry::LEAVES`.
    leaves: [u64; 8],
    /// Of every other entry, by its number: 0 for an answer, else a refusal's, which go up to 61.
    numbers: BTreeMap<(Entry, u64), u64>,
    /// The ways to a speed, of recoveries and of steps: cap, neighbours 0 to 4, middle, halvings.
    ways: [[u64; 8]; 2],
    /// Times before, inside and past, and finals added, by all answers of the two conversions from times.
    sampled: [u64; 4],
    /// Calls in the domain where the original is asked, and lists of rows tried again in another order and number.
    with_original: u64,
    in_another_order: u64,
    /// Finals after an entry that is NaN, by which an input has left the domain.
    left_the_domain: u64,
    /// Walks, and steps after a refused one.
    pub walks: u64,
    pub tried_again: u64,
    pub differ: u64,
}

/// A way's place among the counts.
fn place(way: Way) -> usize {
    match way {
        Way::Cap => 0,
        Way::Neighbour(steps) => 1 + steps,
        Way::Middle => 6,
        Way::Halvings => 7,
    }
}

fn add(into: &mut [u64], from: &[u64]) {
    into.iter_mut().zip(from).for_each(|(x, y)| *x += y);
}

impl Tally {
    pub fn leaf(&mut self, entry: Entry) {
        self.leaves[entry as usize] += 1;
    }

    pub fn call(&mut self, entry: Entry, compared: &Compared) {
        let number = compared.wanted.number;
        *self.numbers.entry((entry, number)).or_default() += 1;
        self.with_original += u64::from(compared.with_original);
        self.in_another_order += u64::from(compared.in_another_order);
        self.left_the_domain += u64::from(compared.left_the_domain);
        if let Some(way) = compared.way {
            self.ways[usize::from(entry == Entry::WalkStep)][place(way)] += 1;
        }
        if let (0, Entry::TToSList | Entry::TToSGrid) = (number, entry) {
            let [before, inside, past, written] = compared.wanted.lent;
            // a final is an entry but no time
            let finals = written.saturating_sub(before + inside + past);
            add(&mut self.sampled, &[before, inside, past, finals]);
        }
    }

    pub fn add(&mut self, other: &Tally) {
        add(&mut self.leaves, &other.leaves);
        for (of, count) in &other.numbers {
            *self.numbers.entry(*of).or_default() += count;
        }
        add(self.ways.as_flattened_mut(), other.ways.as_flattened());
        add(&mut self.sampled, &other.sampled);
        self.with_original += other.with_original;
        self.in_another_order += other.in_another_order;
        self.left_the_domain += other.left_the_domain;
        self.walks += other.walks;
        self.tried_again += other.tried_again;
        self.differ += other.differ;
    }

    pub fn compared(&self) -> u64 {
        self.leaves.iter().chain(self.numbers.values()).sum()
    }

    fn count(&self, entry: Entry, number: u64) -> u64 {
        self.numbers.get(&(entry, number)).copied().unwrap_or_default()
    }

    /// How often an entry answered, and how often it refused with each number.
    fn told(&self, entry: Entry) -> String {
        let refused = self.numbers.iter().filter(|((of, number), _)| *of == entry && *number > 0);
        let refused: Vec<String> = refused.map(|((_, number), count)| format!("{number}: {count}")).collect();
        let refused = if refused.is_empty() { String::new() } else { format!("; refused with {}", refused.join(", ")) };
        format!("{}: answered {}{refused}", short_name(entry), self.count(entry, 0))
    }

    /// The counts, and a last line "N compared, M differ".
    pub fn print(&self) {
        let leaves: Vec<String> =
            Entry::LEAVES.iter().zip(self.leaves).map(|(leaf, n)| format!("{} {n}", short_name(*leaf))).collect();
        println!("leaves: {}", leaves.join(", "));
        let others = [Entry::Recover].into_iter().chain(Entry::CONVERSIONS).chain(Entry::WALK);
        for entry in others.chain([Entry::CutFileSection]) {
            println!("{}", self.told(entry));
        }
        for (done, ways) in ["recovered", "stepped"].iter().zip(self.ways) {
            let [cap, neighbours @ .., middle, halvings] = ways;
            println!("{done} by cap {cap}, neighbours 0 to 4 {neighbours:?}, middle {middle}, halvings {halvings}");
        }
        println!("walks {}; steps tried again after a refusal {}", self.walks, self.tried_again);
        let [before, inside, past, finals] = self.sampled;
        println!("times before {before}, inside {inside}, past {past}; finals added {finals}");
        println!("finals after a NaN, by 02's rule and not the original's {}", self.left_the_domain);
        println!(
            "calls beside the original {}; rows in another order and number {}",
            self.with_original, self.in_another_order
        );
        println!("{} compared, {} differ", self.compared(), self.differ);
    }
}

fn short_name(entry: Entry) -> &'static str {
    entry.names().0.trim_start_matches("malikoza_")
}
