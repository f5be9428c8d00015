//! Cut files: sound ones, sound ones damaged in each way that a refusal names, and any bytes.

use crate::case::{Case, Entry};
use crate::file_rules::{limit, FILE, GRID, SAMPLES};
use crate::random::Random;

/// A section before it is bytes, each number as its groups.
#[derive(Clone)]
pub struct Section {
    pub kind: Vec<u8>,
    /// Where none is given, it is the payload's own.
    pub length: Option<Vec<u8>>,
    /// A grid has none.
    pub count: Vec<u8>,
    /// The patterns, and a grid's flag.
    pub rest: Vec<u8>,
}

/// A number in groups of seven bits, low group first: as few as there can be, or more, if it is to have so many.
pub fn groups(mut n: u128, least: usize) -> Vec<u8> {
    let mut groups = Vec::new();
    while n >= 128 || groups.len() + 1 < least {
        groups.push(n as u8 | 128);
        n >>= 7;
    }
    groups.push(n as u8);
    groups
}

/// A number in its shortest form.
pub fn shortest(n: u64) -> Vec<u8> {
    groups(n.into(), 1)
}

impl Section {
    /// A sound section with so many patterns; a grid has its two whatever is said.
    pub fn new(kind: u64, count: u64, random: &mut Random) -> Section {
        let patterns = if kind == GRID { 2 } else { count };
        let mut rest: Vec<u8> = (0..patterns).flat_map(|_| random.next().to_le_bytes()).collect();
        if kind == GRID {
            rest.push(random.below(2) as u8);
        }
        let count = if kind == GRID { vec![] } else { shortest(count) };
        Section { kind: shortest(kind), length: None, count, rest }
    }

    fn payload(&self) -> usize {
        self.count.len() + self.rest.len()
    }

    pub fn bytes(&self) -> Vec<u8> {
        let length = self.length.clone().unwrap_or_else(|| shortest(self.payload() as u64));
        [&self.kind, &length, &self.count, &self.rest].map(Vec::as_slice).concat()
    }

    fn is_grid(&self) -> bool {
        self.kind == [GRID as u8]
    }
}

pub fn file(sections: &[Section]) -> Vec<u8> {
    sections.iter().flat_map(Section::bytes).collect()
}

/// Asks a file for a kind.
pub fn asking(kind: u64, file: Vec<u8>) -> Case {
    Case { entry: Entry::CutFileSection, numbers: vec![kind], lists: vec![file], room: 0 }
}

/// The next file to be tried, and the kind that it is asked for.
pub fn case(random: &mut Random) -> Case {
    let kind = match random.below(16) {
        0 => random.choose(&[0, 6, u64::MAX]),
        1 => random.next() >> random.below(64),
        _ => 1 + random.below(5),
    };
    asking(kind, any(random))
}

fn any(random: &mut Random) -> Vec<u8> {
    if random.one_in(8) {
        return loose_bytes(random);
    }
    let mut sections = if random.one_in(500) { full(random) } else { sound(random) };
    let (in_sections, in_bytes) = random.choose(&[(0, 0), (0, 0), (0, 1), (1, 0), (1, 0), (1, 0), (2, 0), (2, 2)]);
    for _ in 0..in_sections {
        damage(&mut sections, random);
    }
    let mut file = file(&sections);
    for _ in 0..in_bytes {
        disturb(&mut file, random);
    }
    file
}

/// Sections of any kinds in their order.
fn sound(random: &mut Random) -> Vec<Section> {
    let kinds = random.below(32);
    let chosen = (1..=5).filter(|kind| kinds >> (kind - 1) & 1 == 1);
    chosen.map(|kind| Section::new(kind, count(random), random)).collect()
}

/// Few patterns mostly; else so many that the length or the count takes a group more, as many as a limit says or one more, or as many as a file has room for.
fn count(random: &mut Random) -> u64 {
    match random.below(4000) {
        0..=3 => random.choose(&[4095, 4096, 4096, 4097, 4097, 8191]),
        4..=7 => random.choose(&[2046, 2047, 2048]),
        8..=99 => random.choose(&[126, 127, 128, 129]),
        100..=499 => random.choose(&[14, 15, 16, 17]),
        _ => random.below(4),
    }
}

/// How many bytes a sound section takes.
fn size(kind: u64, count: u64) -> usize {
    let payload = if kind == GRID { 17 } else { shortest(count).len() + 8 * count as usize };
    1 + shortest(payload as u64).len() + payload
}

/// A file of 65,536 bytes: the samples take what the sections before them leave. Now and then there is a pattern more.
pub fn full(random: &mut Random) -> Vec<Section> {
    const COUNTS: [u64; 10] = [0, 3, 15, 16, 100, 127, 128, 2047, 2048, 4096];
    loop {
        let kinds = random.below(16);
        let chosen = (1..=GRID).filter(|kind| kinds >> (kind - 1) & 1 == 1);
        let mut lists: Vec<(u64, u64)> = chosen.map(|kind| (kind, random.choose(&COUNTS))).collect();
        let left = FILE.saturating_sub(lists.iter().map(|(kind, count)| size(*kind, *count)).sum());
        let samples = left as u64 / 8;
        if let Some(samples) = (samples.saturating_sub(1)..=samples).find(|samples| size(SAMPLES, *samples) == left) {
            lists.push((SAMPLES, samples + u64::from(random.one_in(8))));
            return lists.into_iter().map(|(kind, count)| Section::new(kind, count, random)).collect();
        }
    }
}

/// One fault, of those that a refusal names, or just none.
fn damage(sections: &mut Vec<Section>, random: &mut Random) {
    if sections.is_empty() {
        sections.push(Section::new(1 + random.below(5), count(random), random));
    }
    let at = random.place(sections.len());
    let before = at.checked_sub(1).map_or(0, |at| u64::from(sections[at].kind[0]));
    let section = &mut sections[at];
    let over = limit(u64::from(section.kind[0])) + 1;
    match random.below(13) {
        0 => section.kind = shortest(random.below(before + 1)),
        1 => section.kind = shortest(random.choose(&[0, 0, 6, 7, 127, 128, 1 << 32 | before + 1, u64::MAX])),
        2 => section.kind = ill_written(u128::from(section.kind[0]), random),
        3 => section.length = Some(ill_written(section.payload() as u128, random)),
        4 | 5 => section.length = Some(shortest(beside(section.payload() as u64, random))),
        6 => section.count = shortest(random.choose(&[over, over, 1 << 32, u64::MAX])),
        7 => section.count = shortest(beside(section.rest.len() as u64 / 8, random)),
        8 => section.count = ill_written(section.rest.len() as u128 / 8, random),
        9 => (section.count, section.rest) = (following(1 + random.place(11), random), vec![]),
        10 => section.rest.resize((section.rest.len() + random.place(19)).saturating_sub(9), 1),
        11 => set_flag(sections, random),
        _ => rearrange(sections, at, random),
    }
}

/// A number that lies close, or differs in its high bits only.
fn beside(n: u64, random: &mut Random) -> u64 {
    match random.below(4) {
        0 => n + 1,
        1 => n.saturating_sub(1),
        2 => n.wrapping_add(1 << random.choose(&[8, 16, 32, 61, 63])),
        _ => random.next() >> random.below(64),
    }
}

/// So many groups of which each says that another follows.
fn following(groups: usize, random: &mut Random) -> Vec<u8> {
    (0..groups).map(|_| random.choose(&[128, 129, 255]) | random.below(128) as u8).collect()
}

/// A number in more groups than needed, in ten and eleven as well; at 2^64 and above; in eleven groups and none too many; without its end. Last the least and the
/// largest that take ten groups.
fn ill_written(n: u128, random: &mut Random) -> Vec<u8> {
    match random.below(7) {
        0 | 1 => groups(n, 2 + random.place(3)),
        2 => groups(n, 9 + random.place(3)),
        3 => groups(n + (1 << (64 + random.below(6))), 1),
        4 => groups(n + (1 << (70 + random.below(7))), 1),
        5 => following(1 + random.place(11), random),
        _ => shortest(random.choose(&[1 << 63, u64::MAX])),
    }
}

/// A grid with some flag, mostly one above 1.
fn set_flag(sections: &mut Vec<Section>, random: &mut Random) {
    let at = sections.iter().position(Section::is_grid).unwrap_or(sections.len());
    if at == sections.len() {
        sections.truncate(random.place(4));
        sections.push(Section::new(GRID, 0, random));
    }
    let at = at.min(sections.len() - 1);
    if let Some(flag) = sections[at].rest.last_mut() {
        *flag = random.choose(&[0, 1, 2, 3, 128, 129, 255]);
    }
}

/// An empty payload, two sections in the other order, or one twice.
fn rearrange(sections: &mut Vec<Section>, at: usize, random: &mut Random) {
    match random.below(3) {
        0 => {
            sections[at].count.clear();
            sections[at].rest.clear();
        }
        1 => {
            let other = random.place(sections.len());
            sections.swap(at, other);
        }
        _ => {
            let again = sections[at].clone();
            sections.insert(at, again);
        }
    }
}

/// Bytes changed, left out or put in, mostly where numbers are likely; or the end cut off.
fn disturb(file: &mut Vec<u8>, random: &mut Random) {
    let at = match random.below(3) {
        0 => random.place(file.len() + 1),
        1 => random.place(8).min(file.len()),
        _ => file.len() - random.place(12).min(file.len()),
    };
    match random.below(5) {
        0 => file.truncate(at),
        1 => _ = file.splice(at.., loose_bytes(random)),
        2 => file.insert(at, loose_byte(random)),
        3 if at < file.len() => _ = file.remove(at),
        _ if at < file.len() => file[at] = loose_byte(random),
        _ => file.push(loose_byte(random)),
    }
}

fn loose_byte(random: &mut Random) -> u8 {
    match random.below(8) {
        0..=4 => random.below(7) as u8,
        5 => random.choose(&[9, 17, 127, 128, 129, 255]),
        6 => 128 | random.below(128) as u8,
        _ => random.next() as u8,
    }
}

/// Any bytes: small ones, and runs of groups of which each says that another follows.
fn loose_bytes(random: &mut Random) -> Vec<u8> {
    let most = random.choose(&[4, 8, 16, 40]);
    let length = random.place(most + 1);
    let mut bytes = Vec::new();
    while bytes.len() < length {
        if random.one_in(8) {
            bytes.extend(following(1 + random.place(11), random));
        }
        bytes.push(loose_byte(random));
    }
    bytes
}
