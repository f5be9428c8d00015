//! The cases that are kept, as bytes, and how many there are of each kind.
//!
//! A number is eight bytes, low byte first. The file is the letters "malikoza", the number of cases, and the cases. A case begins with its length in bytes and
//! the number of its entry, in the order of `Entry`.
//!
//! - A leaf's: then three operands, 0 where the leaf takes fewer, and the answer.
//! - Any other: then ten numbers, 0 where the entry takes fewer; the places where its four lists and its output end, counted from the case's beginning; the
//!   number it returns; the four lent numbers after the call. Then the bytes of the lists, empty where the entry takes fewer, and of the output after the call.
//!   A walk's eight words are an output; before a step they are its second list. The cases of a walk stand in the order of its calls. A cut file is its entry's
//!   first list, and the entry is lent the first two numbers only.

use crate::case::{Answer, Case, Entry};
use crate::judge;
use crate::kinds::{kind, numbers, ways};
use crate::leaves;
use crate::slips::Slip;
use std::collections::{BTreeMap, HashSet};

/// Of each kind so many short cases at most, and so many long ones.
const SHARE: usize = 16;
const LONG_SHARE: usize = 1;
/// A way of answering stands for more than a refusal number.
const ANSWERED_SHARE: usize = 40;
/// Of a leaf's special and of its common values so many at most.
const LEAF_SHARE: usize = 200;

/// Of a cut file's kinds so many at most, besides the edges.
const FILE_SHARE: usize = 4;

/// A case of so many bytes is short; one beyond the second length is left out.
const SHORT: usize = 600;
const LONG: usize = 2000;
/// The case of a cut file that is drawn has so many at most.
const SHORT_FILE: usize = HEAD + 64;
/// What the program has room for.
const MOST: usize = 1_638_400;

const HEAD: usize = 8 * 22;

#[derive(Default)]
pub struct Kept {
    cases: Vec<Vec<u8>>,
    seen: HashSet<Vec<u8>>,
    /// Short and long cases by entry and kind.
    counts: BTreeMap<(usize, String), [usize; 2]>,
    with_original: usize,
}

/// How many bytes a case that is no leaf takes.
pub fn size(case: &Case) -> usize {
    HEAD + case.lists.iter().map(Vec::len).sum::<usize>() + case.room
}

fn put(into: &mut Vec<u8>, words: &[u64]) {
    into.extend(words.iter().flat_map(|word| word.to_le_bytes()));
}

fn encoded(case: &Case, answer: &Answer) -> Vec<u8> {
    let mut parts: Vec<&[u8]> = case.lists.iter().map(Vec::as_slice).collect();
    parts.resize(4, &[]);
    parts.push(&answer.out);
    let ends: Vec<u64> = parts
        .iter()
        .scan(HEAD, |end, part| {
            *end += part.len();
            Some(*end as u64)
        })
        .collect();
    let mut given = case.numbers.clone();
    given.resize(10, 0);
    let mut all = Vec::new();
    put(&mut all, &[ends[4], case.entry as u64]);
    put(&mut all, &given);
    put(&mut all, &ends);
    put(&mut all, &[answer.number]);
    put(&mut all, &answer.lent);
    all.extend(parts.concat());
    all
}

impl Kept {
    /// Keeps a leaf's case if it is new and its kind has not had its share.
    pub fn leaf(&mut self, entry: Entry, kind: &str, patterns: [u64; 3]) {
        let operands = entry.names().1.len();
        let [x, y, z] = std::array::from_fn(|i| if i < operands { patterns[i] } else { 0 });
        let answer = leaves::expected(entry, [x, y, z], Slip::None);
        assert!(leaves::holds(entry, [x, y, z], answer), "{entry:?} of {x:x}, {y:x}, {z:x} is not {answer:x}");
        let mut bytes = Vec::new();
        put(&mut bytes, &[48, entry as u64, x, y, z, answer]);
        self.keep(entry, kind.to_string(), bytes, LEAF_SHARE, 0);
    }

    /// Keeps a case that was drawn if it is new, not too long, and its kind has not had its share.
    pub fn drawn(&mut self, case: &Case) {
        let size = size(case);
        if size > LONG {
            return;
        }
        let share = if size > SHORT { LONG_SHARE } else { SHARE };
        self.offered(case, share, usize::from(size > SHORT));
    }

    /// Keeps a short cut file that was drawn, likewise.
    pub fn drawn_file(&mut self, case: &Case) {
        if size(case) <= SHORT_FILE {
            self.offered(case, FILE_SHARE, 0);
        }
    }

    /// Keeps a case that a limit, an edge or a walk needs.
    pub fn whatever_its_length(&mut self, case: &Case) {
        self.offered(case, usize::MAX, 1);
    }

    fn offered(&mut self, case: &Case, share: usize, long: usize) {
        let (answer, way) = judge::expected(case, Slip::None);
        let kind = kind(case, &answer, way);
        let share = if answer.number == 0 && share == SHARE { ANSWERED_SHARE } else { share };
        if self.keep(case.entry, kind, encoded(case, &answer), share, long) {
            let agrees = judge::original_agrees(case, &answer, Slip::None);
            assert!(agrees != Some(false), "the original says otherwise of {}", case.described());
            self.with_original += usize::from(agrees.is_some());
        }
    }

    fn keep(&mut self, entry: Entry, kind: String, bytes: Vec<u8>, share: usize, long: usize) -> bool {
        let count = &mut self.counts.entry((entry as usize, kind)).or_default()[long];
        if *count >= share || self.seen.contains(&bytes) {
            return false;
        }
        *count += 1;
        self.seen.insert(bytes.clone());
        self.cases.push(bytes);
        true
    }

    pub fn count(&self, entry: Entry, kind: &str) -> usize {
        self.counts.get(&(entry as usize, kind.to_string())).map_or(0, |counts| counts[0] + counts[1])
    }

    /// How many cases there are of each kind. No kind may be without one.
    pub fn print(&self) {
        let others = [Entry::Recover].into_iter().chain(Entry::CONVERSIONS).chain(Entry::WALK);
        for entry in Entry::LEAVES.into_iter().chain(others).chain([Entry::CutFileSection]) {
            let told = |kind: &str| {
                let count = self.count(entry, kind);
                assert!(count > 0, "{entry:?} has no case of the kind {kind}");
                format!("{kind}: {count}")
            };
            let answered: Vec<String> = ways(entry).iter().map(|way| told(way)).collect();
            let refused: Vec<String> = numbers(entry).iter().map(|number| told(&number.to_string())).collect();
            let refused =
                if refused.is_empty() { String::new() } else { format!("; refused with {}", refused.join(", ")) };
            println!("{}: answered {}{refused}", entry.names().0, answered.join("; "));
        }
        println!("{} cases, {} of them beside the original", self.cases.len(), self.with_original);
    }

    pub fn file(&self) -> Vec<u8> {
        let mut file = b"malikoza".to_vec();
        put(&mut file, &[self.cases.len() as u64]);
        file.extend(self.cases.concat());
        assert!(file.len() <= MOST, "{} bytes are more than the program has room for", file.len());
        println!("{} bytes", file.len());
        file
    }
}
