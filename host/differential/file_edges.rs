//! Files that every run tries: at the edge of each rule, and at the limits.

use crate::case::Case;
use crate::file_rules::FILE;
use crate::files::{self, asking, groups, Section};
use crate::random::Random;

/// What may stand where a number is read: nothing; groups that are cut, or go on; too many groups for their number; ten groups, below 2^64 and not; eleven.
fn odd_numbers() -> Vec<Vec<u8>> {
    let mut forms: Vec<Vec<u8>> = [0, 1, 9, 10, 11].map(|n| vec![0x80; n]).to_vec();
    forms.push(vec![0xff; 10]);
    forms.extend([(0, 2), (1, 2), (1, 9), (1, 10), (1, 11)].map(|(n, least)| groups(n, least)));
    forms.extend([1 << 63, (1 << 64) - 1, 1 << 64, (1 << 70) - 1, 1 << 70].map(|n| groups(n, 1)));
    forms
}

/// A section without patterns, before it is bytes.
fn empty_section(kind: u8) -> Section {
    Section { kind: vec![kind], length: None, count: vec![0], rest: vec![] }
}

/// A number in each place where one is read: as a kind, as a length and as a count, each with bytes after it and at the end of the file.
fn around(number: &[u8]) -> Vec<Vec<u8>> {
    let number = number.to_vec();
    let [one, three, five] = [1, 3, 5].map(empty_section);
    let kind = Section { kind: number.clone(), ..one.clone() };
    let length = Section { length: Some(number.clone()), ..three.clone() };
    let length_at_the_end = Section { count: vec![], ..length.clone() };
    let count = Section { count: number.clone(), ..three };
    let before_a_pattern = Section { rest: vec![1; 8], ..count.clone() };
    let sections = [
        vec![kind],
        vec![length],
        vec![length_at_the_end],
        vec![count.clone()],
        vec![count, five],
        vec![before_a_pattern],
    ];
    let mut files = sections.map(|sections| files::file(&sections)).to_vec();
    files.push([one.bytes(), number].concat());
    files
}

/// Files of one list of samples, whose count or length is beside what its patterns are.
fn lists_beside() -> Vec<Vec<u8>> {
    let list = empty_section(5);
    let with = |length: u128, count: u128, rest: usize| {
        let (length, count) = (Some(groups(length, 1)), groups(count, 1));
        files::file(&[Section { length, count, rest: vec![7; rest], ..list.clone() }])
    };
    let count = |count: u128| with(groups(count, 1).len() as u128 + 8, count, 8);
    let mut files: Vec<Vec<u8>> =
        [0, 1, 2, 65_536, 65_537, (1 << 32) + 1, (1 << 61) + 1, (1 << 64) - 1].map(count).to_vec();
    files.extend([0, 1, 8, 9, 10, 265, (1 << 32) + 9, (1 << 64) - 1].map(|length| with(length, 1, 8)));
    files.extend([0, 7, 9, 16].map(|rest| with(rest as u128 + 1, 1, rest)));
    // beyond the file, and too many or ill written besides
    files.push(with(9, 65_537, 0));
    files.push(files::file(&[Section { length: Some(vec![3]), count: vec![0x80, 0], ..list }]));
    files
}

/// Files of one grid, with flags and lengths beside the right ones.
fn grids_beside() -> Vec<Vec<u8>> {
    let grid = |flag: u8, bytes: usize| {
        let rest = [vec![3; 16], vec![flag; 2]].concat()[..bytes].to_vec();
        files::file(&[Section { count: vec![], rest, ..empty_section(4) }])
    };
    let mut files = [0, 1, 2, 128, 255].map(|flag| grid(flag, 17)).to_vec();
    files.extend([0, 8, 16, 18].map(|bytes| grid(1, bytes)));
    files
}

/// Files of sections without patterns of these kinds, the last one to be found or to be at fault.
fn kinds_beside() -> Vec<Vec<u8>> {
    let kinds: [&[u8]; 12] =
        [&[0], &[6], &[127], &[1, 0], &[1, 1], &[1, 6], &[5, 0], &[5, 5], &[5, 6], &[3, 2], &[1, 2, 3, 5], &[1, 5, 5]];
    kinds.map(|kinds| files::file(&kinds.iter().map(|kind| empty_section(*kind)).collect::<Vec<_>>())).to_vec()
}

/// Short files at the edge of each rule.
pub fn edges() -> Vec<Case> {
    let mut cases = Vec::new();
    let mut random = Random::new(0, 0, 0);
    let whole: Vec<Section> = (1..=5).map(|kind| Section::new(kind, kind % 3, &mut random)).collect();
    for kind in [0, 1, 2, 3, 4, 5, 6, 1 << 32 | 1, u64::MAX] {
        cases.push(asking(kind, files::file(&whole)));
        cases.push(asking(kind, files::file(&whole[1..3])));
    }
    cases.extend([0, 1, 5].map(|kind| asking(kind, vec![])));
    // a fault after what is asked for, and after where it would stand
    let fault = vec![1, 1, 0, 3, 1, 0, 3];
    cases.extend([1, 2, 3, 4].map(|kind| asking(kind, fault.clone())));
    for number in odd_numbers() {
        cases.extend(around(&number).into_iter().map(|file| asking(1, file)));
    }
    cases.extend(lists_beside().into_iter().map(|file| asking(5, file)));
    cases.extend(grids_beside().into_iter().map(|file| asking(4, file)));
    cases.extend(kinds_beside().into_iter().map(|file| asking(5, file)));
    cases
}

/// Lists with as many patterns as their limit says and one more, and where a count or a length takes another group; files of 65,536 bytes and beside that.
pub fn limits() -> Vec<Case> {
    let mut cases = Vec::new();
    let mut random = Random::new(0, 0, 1);
    for kind in [1, 2, 3, 5] {
        for count in [15, 16, 127, 128, 2047, 2048, 4095, 4096, 4097, 8190, 8191, 8192] {
            cases.push(asking(kind, Section::new(kind, count, &mut random).bytes()));
        }
    }
    for _ in 0..16 {
        let full = files::file(&files::full(&mut random));
        for length in [FILE - 1, FILE, FILE + 1, 2 * FILE] {
            let mut file = full.clone();
            file.resize(length, 0);
            cases.extend([1, 4, 5].map(|kind| asking(kind, file.clone())));
        }
    }
    cases
}
