//! Records inputs with what each call must leave behind, for the crate `replay`.
//!
//! `host/run record FILE [seed=N]` draws inputs from the differential run's generators until each refusal number and each way of answering has its share, and
//! writes them to FILE; then come whole walks, call by call, and last cut files. An answer follows from the rules of documents 01 and 02, and in the domain the
//! original has confirmed it: but for the sign of a zero and for a NaN, which 01 fixes, each double is the original's. The library is not asked. It prints how
//! many cases of each kind there are, and fails if a kind has none.

#![allow(unstable_name_collisions)] // next_down is stable from Rust 1.86 on
#![allow(dead_code)] // the modules of the differential run hold more than is used here

#[path = "../differential/case.rs"]
mod case;
#[path = "../differential/exact.rs"]
mod exact;
#[path = "../differential/file_edges.rs"]
mod file_edges;
#[path = "../differential/file_rules.rs"]
mod file_rules;
#[path = "../differential/files.rs"]
mod files;
#[path = "../differential/fixed.rs"]
mod fixed;
#[path = "../differential/judge.rs"]
mod judge;
mod kept;
mod kinds;
#[path = "../differential/leaves.rs"]
mod leaves;
#[path = "../differential/library.rs"]
mod library;
#[path = "../original/mod.rs"]
#[rustfmt::skip] // the text as it is there
mod original;
#[path = "../differential/profiles.rs"]
mod profiles;
#[path = "../differential/random.rs"]
mod random;
#[path = "../differential/recovery_rules.rs"]
mod recovery_rules;
#[path = "../differential/requests.rs"]
mod requests;
#[path = "../differential/slips.rs"]
mod slips;
#[path = "../differential/timing_rules.rs"]
mod timing_rules;
#[path = "../differential/walk_rules.rs"]
mod walk_rules;
#[path = "../differential/walks.rs"]
mod walks;
mod whole_walks;

use case::{bytes, Case, Entry};
use kept::Kept;
use random::Random;

/// Draws from each generator: enough that each kind has its share.
const DRAWS: usize = 200_000;
const LEAF_DRAWS: usize = 1000;
/// So many hard roots, and as many lengths.
const HARD_DRAWS: usize = 32;
const SEED: u64 = 20_261_115;

fn fail(message: &str) -> ! {
    eprintln!("{message}");
    std::process::exit(2)
}

fn arguments() -> (String, u64) {
    let mut arguments = std::env::args().skip(1);
    let file = arguments.next().unwrap_or_else(|| fail("record FILE [seed=N]"));
    let seed = match arguments.next() {
        None => SEED,
        Some(word) => word.strip_prefix("seed=").and_then(|n| n.parse().ok()).unwrap_or_else(|| fail("seed=N")),
    };
    (file, seed)
}

/// A leaf's special values, all of them for one operand and some choices for two or three, and its common ones.
fn keep_leaves(kept: &mut Kept, seed: u64) {
    for leaf in Entry::LEAVES {
        let mut random = Random::new(seed, 0, leaf as u64);
        let special: Vec<[u64; 3]> = (0..).map_while(|i| fixed::short_leaf(leaf, i)).collect();
        for i in 0..special.len().min(LEAF_DRAWS) {
            let patterns = if leaf.names().1.len() == 1 { special[i] } else { random.choose(&special) };
            kept.leaf(leaf, "special", patterns);
        }
        for _ in 0..LEAF_DRAWS {
            kept.leaf(leaf, "common", leaves::patterns(leaf, &mut random));
        }
    }
}

/// Roots and lengths where a guess is hardest to test.
fn keep_roots(kept: &mut Kept, seed: u64) {
    let [mut roots, mut lengths] = [4, 5].map(|part| Random::new(seed, part, 0));
    for _ in 0..HARD_DRAWS {
        kept.leaf(Entry::Sqrt, "hard", leaves::for_the_root(&mut roots));
        kept.leaf(Entry::Hypot, "hard", leaves::for_a_length(&mut lengths));
    }
}

/// What the generators make too long or too seldom: 256 rows and 257, an unfit row on either side of an unmet one, 4,097 stations, 65,537 samples. Beside a list
/// that is refused for its length the others may be empty.
fn keep_limits(kept: &mut Kept) {
    let numbers = fixed::REQUEST;
    for rows in [256, 257] {
        for row in [[0.0, 0.0, 0.0], [1.0, 0.0, 2.0]] {
            kept.whatever_its_length(&requests::Draft { numbers, rows: vec![row; rows] }.case());
        }
    }
    // "Letting row order pick between 5 and 6"
    let (unfit, unmet) = ([f64::INFINITY, 0.0, 1.0], [0.0, 0.0, -1.0]);
    for rows in [vec![unfit, unmet], vec![unmet, unfit]] {
        kept.whatever_its_length(&requests::Draft { numbers, rows }.case());
    }
    for entry in Entry::CONVERSIONS {
        let s = (0..4097).map(f64::from).collect();
        let case = profiles::Draft::new(entry, s, vec![], vec![]).case();
        kept.whatever_its_length(&Case { room: 16, ..case });
    }
    let case = profiles::Draft::new(Entry::TToSList, vec![0.0, 1.0], vec![1.0, 1.0], vec![0.0, 1.0]).case();
    let lists = vec![case.lists[0].clone(), case.lists[1].clone(), case.lists[2].clone(), bytes(&[0.0; 65_537])];
    kept.whatever_its_length(&Case { lists, room: 16, ..case });
}

/// Files at the edge of each rule, and of those that are drawn short ones of each kind.
fn keep_files(kept: &mut Kept, seed: u64) {
    for case in file_edges::edges() {
        kept.whatever_its_length(&case);
    }
    let mut random = Random::new(seed, 6, 0);
    for _ in 0..DRAWS {
        kept.drawn_file(&files::case(&mut random));
    }
}

fn main() {
    let (file, seed) = arguments();
    let mut kept = Kept::default();
    keep_leaves(&mut kept, seed);
    keep_limits(&mut kept);
    let mut random = Random::new(seed, 1, 0);
    for _ in 0..DRAWS {
        kept.drawn(&requests::case(&mut random));
    }
    let mut random = Random::new(seed, 2, 0);
    for _ in 0..DRAWS {
        kept.drawn(&profiles::case(&mut random));
    }
    whole_walks::keep(&mut kept, &mut Random::new(seed, 3, 0));
    keep_roots(&mut kept, seed);
    keep_files(&mut kept, seed);
    println!("seed {seed}");
    kept.print();
    if let Err(error) = std::fs::write(&file, kept.file()) {
        fail(&format!("{file}: {error}"));
    }
}
