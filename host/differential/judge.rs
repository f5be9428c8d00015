//! What each call must leave behind, and what the original says to the same input.

use crate::case::{alike, Answer, Case, Entry, LENT};
use crate::file_rules;
use crate::leaves;
use crate::library;
#[allow(unused_imports)]
use crate::original::completed::NextDown;
use crate::original::completed::{InterpolationMode, ReachSet2Options};
use crate::original::{interpolation, topp2_ra, with_tried};
use crate::random::Random;
use crate::recovery_rules::{recovery, Request, Way};
use crate::slips::Slip;
use crate::timing_rules::conversion;
use crate::walk_rules;

/// What the rules of documents 01 and 02 say of a case that is no leaf.
pub fn expected(case: &Case, slip: Slip) -> (Answer, Option<Way>) {
    match case.entry {
        Entry::CutFileSection => (file_rules::asked(case, slip), None),
        _ if !is_in_eights(case) => (Answer::refused(10, case), None),
        Entry::Recover => recovery(case, slip),
        Entry::WalkStart => (walk_rules::start(case), None),
        Entry::WalkStep => walk_rules::step(case, slip),
        _ => (conversion(case, slip), None),
    }
}

/// 10: "a byte list, output included, of a length not divisible by eight; before all others". A file is bytes, but no list of doubles.
fn is_in_eights(case: &Case) -> bool {
    case.lists.iter().map(Vec::len).chain([case.room]).all(|len| len % 8 == 0)
}

/// "The domain of those runs is every input not refused with 1, 10, 28, 29, 11 for too many stations, or 2 for a comparison tolerance."
/// Nor does the original know a full walk (61), or a walk's start: it is called stage by stage; nor any file. Nor is it asked where an answer is no longer its
/// own.
fn is_in_the_domain(case: &Case, answer: &Answer) -> bool {
    if case.entry == Entry::CutFileSection {
        return false;
    }
    match answer.number {
        0 => case.entry != Entry::WalkStart && !has_left_the_domain(case, answer),
        1 | 10 | 28 | 29 | 61 => false,
        11 => case.lists[0].len() / 8 < 2,
        2 => !Request::of(case).refused_for_a_comparison_tolerance(),
        _ => true,
    }
}

/// 02, request 3: "inputs whose answer this changes leave the differential domain". The final is asked for, and the last entry before it is NaN: the original
/// adds none after that.
pub fn has_left_the_domain(case: &Case, answer: &Answer) -> bool {
    if case.entry != Entry::TToSGrid || answer.number > 0 || !case.with_final() {
        return false;
    }
    let [before, inside, past, _] = answer.lent;
    let samples = (before + inside + past) as usize;
    samples > 0 && f64::from_bits(answer.pattern_at(samples - 1)).is_nan()
}

/// What the original answers: its doubles, and for a recovery the count of certificates asked.
struct Original {
    doubles: Vec<f64>,
    tried: u64,
}

fn original(case: &Case, slip: Slip) -> Option<Original> {
    let mut answer = match case.entry {
        Entry::Recover | Entry::WalkStep => original_recovery(case),
        _ => original_conversion(case).map(|doubles| Original { doubles, tried: 0 }),
    };
    if let (Slip::OriginalOff, Some(first)) = (slip, answer.as_mut().and_then(|a| a.doubles.first_mut())) {
        *first = first.next_down();
    }
    answer
}

fn original_recovery(case: &Case) -> Option<Original> {
    let q = Request::of(case);
    let rows: Vec<(f64, f64, f64)> = case.doubles(0).chunks_exact(3).map(|row| (row[0], row[1], row[2])).collect();
    let options =
        ReachSet2Options { lp_feas_tol: q.feas_tol, a_cmp_abs_tol: q.a_cmp_abs_tol, a_cmp_rel_tol: q.a_cmp_rel_tol };
    let (prev, curr) = ((q.prev.lower, q.prev.upper), (q.curr.lower, q.curr.upper));
    let (answer, tried) =
        with_tried(|| topp2_ra::way_in(&rows, q.a_prev, prev, curr, q.prev.cap, q.curr.cap, &options));
    answer.map(|(speed, normalized, raw)| Original { doubles: vec![speed, normalized, raw], tried })
}

fn original_conversion(case: &Case) -> Option<Vec<f64>> {
    let (s, a) = (case.doubles(0), case.doubles(1));
    let answer = match case.entry {
        Entry::AToB => interpolation::a_to_b_topp2(&s, &a),
        Entry::SToT => interpolation::s_to_t_topp2(&s, &a, case.number(0)).map(|(_, times)| times),
        Entry::TToSList => interpolation::t_to_s_topp2(
            &s,
            &a,
            &case.doubles(2),
            InterpolationMode::NonUniformTimeGrid(&case.doubles(3)),
        ),
        _ => {
            let grid = InterpolationMode::UniformTimeGrid(case.number(0), case.number(1), case.with_final());
            interpolation::t_to_s_topp2(&s, &a, &case.doubles(2), grid)
        }
    };
    answer.ok()
}

/// Whether the library refused as the original did, or answered with its doubles and counts.
fn agrees(case: &Case, ours: &Answer, original: &Option<Original>) -> bool {
    let Some(Original { doubles, tried }) = original else {
        return ours.number != 0;
    };
    let in_output = |doubles: &[f64]| doubles.iter().enumerate().all(|(i, x)| alike(ours.pattern_at(i), *x));
    ours.number == 0
        && match case.entry {
            Entry::Recover | Entry::WalkStep => {
                doubles.iter().zip(ours.lent).all(|(x, pattern)| alike(pattern, *x)) && ours.lent[3] == *tried
            }
            Entry::AToB | Entry::SToT => in_output(doubles),
            _ => ours.lent[3] == doubles.len() as u64 && in_output(doubles),
        }
}

/// Whether the original says of a case what an answer says; none outside the domain.
pub fn original_agrees(case: &Case, answer: &Answer, slip: Slip) -> Option<bool> {
    is_in_the_domain(case, answer).then(|| agrees(case, answer, &original(case, slip)))
}

/// Which two sides differ.
#[derive(Clone, Copy, PartialEq, Eq, Debug)]
pub enum Difference {
    FromRules,
    FromOriginal,
    /// An input has left the domain, and its answer is the original's.
    FromDomain,
    InAnotherOrder,
}

/// What the rules say of a case, what the library left behind, and what was compared.
pub struct Compared {
    pub wanted: Answer,
    pub ours: Answer,
    pub way: Option<Way>,
    pub with_original: bool,
    pub left_the_domain: bool,
    pub in_another_order: bool,
    pub difference: Option<Difference>,
}

pub fn compared(case: &Case, slip: Slip) -> Compared {
    compared_apart(case, case, slip)
}

/// The library is asked one case, the rules and the original another: the same, or the same step from the walk as each side has it.
pub fn compared_apart(case: &Case, ruled: &Case, slip: Slip) -> Compared {
    let (wanted, way) = expected(ruled, slip);
    let ours = library::call(case);
    let with_original = is_in_the_domain(ruled, &wanted);
    let left_the_domain = has_left_the_domain(ruled, &wanted);
    let turned = turned(case);
    let in_another_order = turned.is_some();
    let difference = if ours != wanted {
        Some(Difference::FromRules)
    } else if original_agrees(ruled, &ours, slip) == Some(false) {
        Some(Difference::FromOriginal)
    } else if left_the_domain && agrees(ruled, &ours, &original(ruled, slip)) {
        Some(Difference::FromDomain)
    } else if turned.is_some_and(|turned| library::call(&turned) != ours) {
        Some(Difference::InAnotherOrder)
    } else {
        None
    };
    Compared { wanted, ours, way, with_original, left_the_domain, in_another_order, difference }
}

/// Whether any two sides differ, for a leaf too.
pub fn differs(case: &Case, slip: Slip) -> bool {
    if Entry::LEAVES.contains(&case.entry) {
        return leaves::difference(case, slip).is_some();
    }
    compared(case, slip).difference.is_some()
}

/// What each side says of a case.
pub fn sides(case: &Case, slip: Slip) -> String {
    if Entry::LEAVES.contains(&case.entry) {
        return leaves::difference(case, slip).unwrap_or_default();
    }
    let Compared { wanted, ours, difference, with_original, left_the_domain, .. } = compared(case, slip);
    let mut lines = vec![format!("  library: {}", told(case, &ours)), format!("  rules: {}", told(case, &wanted))];
    lines.extend(unlike_places(case, &ours, &wanted));
    if with_original || left_the_domain {
        lines.push(match original(case, slip) {
            None => "  original: refused".to_string(),
            Some(answer) => format!("  original: answered, {}", in_hex(&answer.doubles)),
        });
    }
    if let (Some(Difference::InAnotherOrder), Some(turned)) = (difference, turned(case)) {
        lines.push(format!(
            "  library with the rows {}: {}",
            in_hex(&turned.doubles(0)),
            told(case, &library::call(&turned))
        ));
    }
    lines.join("\n")
}

/// The same rows in another order and number, if there are whole rows and not too many. Demand 3: "If two lists of at most 256 whole rows hold the same rows, in
/// any order or number, recovery answers the same bits." Document 02: "Demand 3 holds for each step."
fn turned(case: &Case) -> Option<Case> {
    const ROW: usize = 24;
    const MOST: usize = 256;
    if !matches!(case.entry, Entry::Recover | Entry::WalkStep) || case.lists[0].len() % ROW != 0 {
        return None;
    }
    let rows: Vec<&[u8]> = case.lists[0].chunks_exact(ROW).collect();
    if rows.is_empty() || rows.len() > MOST {
        return None;
    }
    // the order follows from the case, so that it differs each time it is tried or never
    let mut random = Random::new(
        rows.len() as u64,
        case.numbers[0],
        case.lists[0].iter().fold(0, |sum, b| sum << 1 ^ u64::from(*b)),
    );
    let mut places: Vec<usize> = (0..rows.len()).collect();
    for _ in 0..random.place(4).min(MOST - rows.len()) {
        places.push(random.place(rows.len()));
    }
    for i in (1..places.len()).rev() {
        places.swap(i, random.place(i + 1));
    }
    let mut turned = case.clone();
    turned.lists[0] = places.iter().flat_map(|i| rows[*i]).copied().collect();
    Some(turned)
}

/// An answer in words, but for its output.
fn told(case: &Case, answer: &Answer) -> String {
    let mut text = if answer.number == 0 { "answered".to_string() } else { format!("refused with {}", answer.number) };
    for (i, name) in case.entry.names().3.iter().enumerate() {
        if answer.lent[i] != LENT[i] {
            text += &format!(", {name} {:x}", answer.lent[i]);
        }
    }
    if answer.strayed {
        text += ", wrote beside what it was lent";
    }
    text
}

/// A list shown in full would hide what matters in it.
const SHOWN: usize = 8;

/// The first places of the output that differ.
fn unlike_places(case: &Case, ours: &Answer, wanted: &Answer) -> Vec<String> {
    let before = Answer::refused(0, case);
    let at = |answer: &Answer, i| {
        if answer.pattern_at(i) == before.pattern_at(i) {
            "untouched".to_string()
        } else {
            format!("{:016x}", answer.pattern_at(i))
        }
    };
    let unlike = (0..ours.out.len() / 8).filter(|i| ours.pattern_at(*i) != wanted.pattern_at(*i));
    unlike.take(SHOWN).map(|i| format!("  output at {i}: library {}, rules {}", at(ours, i), at(wanted, i))).collect()
}

fn in_hex(doubles: &[f64]) -> String {
    let shown: Vec<String> = doubles.iter().take(SHOWN).map(|x| format!("{:016x}", x.to_bits())).collect();
    let more = if doubles.len() > SHOWN { format!(" .. ({} in all)", doubles.len()) } else { String::new() };
    shown.join(" ") + &more
}
