//! Cut files, straight from document 02's request "Read our cut files".

use crate::case::{Answer, Case, LENT};
use crate::slips::Slip;

/// "The file is at most 65,536 bytes"
pub const FILE: usize = 65_536;
/// "at most ten groups"
const GROUPS: usize = 10;
/// "A pattern is eight bytes"
const PATTERN: usize = 8;
/// "4 even grid"
pub const GRID: u64 = 4;
/// "5 samples"
pub const SAMPLES: u64 = 5;

/// "40 file too long, before all"
const TOO_LONG: u64 = 40;
/// "41 number cut, too long, 2^64 or more, or not shortest"
const ILL_NUMBER: u64 = 41;
/// "42 unknown kind"
const UNKNOWN: u64 = 42;
/// "43 kind not rising"
const NOT_RISING: u64 = 43;
/// "44 payload beyond the file"
const BEYOND: u64 = 44;
/// "45 a count over its limit (before its patterns), a flag above 1, or bytes wanting or left over"
const ILL_PAYLOAD: u64 = 45;
/// "46 kind absent"
const ABSENT: u64 = 46;

/// Where a payload lies in its file.
struct Section {
    kind: u64,
    start: usize,
    length: usize,
}

fn refuse(number: u64, when: bool) -> Result<(), u64> {
    if when {
        Err(number)
    } else {
        Ok(())
    }
}

/// "Lists keep 01's upper limits": 4,096 stations, with as many squared speeds and times, and 65,536 samples.
pub fn limit(kind: u64) -> u64 {
    if kind == SAMPLES {
        65_536
    } else {
        4096
    }
}

/// The number that some bytes begin with, and the bytes after it: "groups of seven bits, low group first, top bit set when another follows, shortest form only,
/// at most ten groups and below 2^64". Where the bytes end within it, it is refused with `cut`.
fn number(bytes: &[u8], cut: u64, slip: Slip) -> Result<(u64, &[u8]), u64> {
    let mut value: u128 = 0;
    for place in 0..GROUPS + usize::from(slip == Slip::ElevenGroups) {
        let group = *bytes.get(place).ok_or(cut)?;
        value += u128::from(group % 128) << (7 * place);
        if group < 128 {
            let is_shortest = place == 0 || group > 0;
            refuse(ILL_NUMBER, !is_shortest && slip != Slip::LongerForm)?;
            refuse(ILL_NUMBER, value >= 1 << 64 && slip != Slip::CutTo64)?;
            return Ok((value as u64, &bytes[place + 1..]));
        }
    }
    Err(ILL_NUMBER)
}

/// "Kinds strictly rise", from 1 to 5; "43 kind not rising, before 42 unknown kind". The first kind has none before it, and so nothing to rise above.
fn check_kind(kind: u64, before: Option<u64>, slip: Slip) -> Result<(), u64> {
    let before = if slip == Slip::ZeroFalls { before.or(Some(0)) } else { before };
    let is_known = (1..=5).contains(&kind);
    refuse(UNKNOWN, !is_known && slip == Slip::UnknownFirst)?;
    refuse(NOT_RISING, before.is_some_and(|before| kind <= before))?;
    refuse(UNKNOWN, !is_known)
}

/// "Kinds 1, 2, 3 and 5 hold a count and that many double patterns." 45 for "bytes wanting .. comes before 41 at the payload's end": there a count is cut.
fn check_list(payload: &[u8], limit: u64, slip: Slip) -> Result<(), u64> {
    let cut = if slip == Slip::CutCount { ILL_NUMBER } else { ILL_PAYLOAD };
    let (count, patterns) = number(payload, cut, slip)?;
    refuse(ILL_PAYLOAD, count > limit && slip != Slip::NoLimit)?;
    refuse(ILL_PAYLOAD, patterns.len() as u128 != PATTERN as u128 * u128::from(count))
}

/// "t0 pattern, dt pattern, 0 or 1 for the final"; "the final's flag is one byte"
fn check_grid(payload: &[u8], slip: Slip) -> Result<(), u64> {
    refuse(ILL_PAYLOAD, payload.len() != 2 * PATTERN + 1)?;
    refuse(ILL_PAYLOAD, payload[2 * PATTERN] > 1 && slip != Slip::AnyFlag)
}

/// "Only the payload form is judged here."
fn check_payload(kind: u64, payload: &[u8], slip: Slip) -> Result<(), u64> {
    if kind == GRID {
        check_grid(payload, slip)
    } else {
        check_list(payload, limit(kind), slip)
    }
}

/// "A file is sections: kind, payload length in bytes, payload." The sections up to the first fault are put into `read`: "first in reading order".
fn read_sections(file: &[u8], read: &mut Vec<Section>, slip: Slip) -> Result<(), u64> {
    refuse(TOO_LONG, file.len() > FILE + usize::from(slip == Slip::OneByteMore))?;
    let mut rest = file;
    while !rest.is_empty() {
        let (kind, after) = number(rest, ILL_NUMBER, slip)?;
        if slip == Slip::KindAfterLength {
            number(after, ILL_NUMBER, slip)?;
        }
        check_kind(kind, read.last().map(|section| section.kind), slip)?;
        let (length, after) = number(after, ILL_NUMBER, slip)?;
        if slip == Slip::BeyondAfterPayload && length > after.len() as u64 {
            check_payload(kind, after, slip)?;
        }
        refuse(BEYOND, length > after.len() as u64)?;
        let (payload, after) = after.split_at(length as usize);
        check_payload(kind, payload, slip)?;
        read.push(Section { kind, start: file.len() - after.len() - payload.len(), length: payload.len() });
        rest = after;
    }
    Ok(())
}

/// Whether a slip answers for what was read before the file's fault.
fn is_settled_early(kind: u64, read: &[Section], slip: Slip) -> bool {
    match slip {
        Slip::FoundFirst => read.iter().any(|section| section.kind == kind),
        Slip::AbsentFirst => {
            read.last().is_some_and(|last| last.kind > kind) && read.iter().all(|section| section.kind != kind)
        }
        _ => false,
    }
}

/// Where the payload of a kind starts within the file, and its length: "the section's own payload bytes, as a part of the file lent in"; or the refusal's number.
/// "46 kind absent, after the whole file is found sound"
fn section(file: &[u8], kind: u64, slip: Slip) -> Result<[u64; 2], u64> {
    let mut read = Vec::new();
    let sound = read_sections(file, &mut read, slip);
    if !is_settled_early(kind, &read, slip) {
        sound?;
    }
    let found = read.iter().find(|section| section.kind == kind).ok_or(ABSENT)?;
    Ok([found.start as u64 + u64::from(slip == Slip::LateStart), found.length as u64])
}

/// What asking a file for a kind must leave behind.
pub fn asked(case: &Case, slip: Slip) -> Answer {
    match section(&case.lists[0], case.numbers[0], slip) {
        Ok([start, length]) => Answer { lent: [start, length, LENT[2], LENT[3]], ..Answer::refused(0, case) },
        Err(number) => Answer::refused(number, case),
    }
}
