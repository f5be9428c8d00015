//! The least stack on which calls of each entry return, small calls and the largest:
//! `cargo run --release --example stack`.
//!
//! A thread that runs out of stack takes its process with it, so each try is a process of its own: this program, started
//! again with the places of a call and a size and a number of KiB. What is printed is the least thread on which the call
//! returned; of its stack the thread and its caller take a few KiB themselves, as "no call" shows. Who asks for a thread
//! of 16 KiB is given 24 here: so each try has a thread of `ABOVE` bytes more, and uses them up before the call.

use malikoza::{
    a_to_b, recover, s_to_t, t_to_s_grid, t_to_s_list, CutFile, Refusal, Request, Station, Tolerances, Walk, MAX_FILE,
    MAX_ROWS, MAX_SAMPLES, MAX_STATIONS,
};
use std::hint::black_box;
use std::process::{Command, Stdio};
use std::thread;

struct Size {
    stations: usize,
    samples: usize,
    rows: usize,
}

/// The largest of the small calls, for which the library has small arrays, and the largest of all.
const SIZES: [Size; 2] = [
    Size { stations: 256, samples: 1024, rows: 32 },
    Size { stations: MAX_STATIONS, samples: MAX_SAMPLES, rows: MAX_ROWS },
];

/// What the calls are lent.
struct Lists {
    s: Vec<f64>,
    a: Vec<f64>,
    samples: Vec<f64>,
    /// The step of a grid of as many samples.
    step: f64,
    rows: Vec<[f64; 3]>,
    out: Vec<f64>,
}

impl Lists {
    /// Stations that stand for their own times; speeds of zero, of an exact root and of none; rows that leave it to the
    /// halvings to find a speed.
    fn new(size: &Size) -> Lists {
        let count = size.samples as f64;
        Lists {
            s: (0..size.stations).map(|i| i as f64).collect(),
            a: (0..size.stations).map(|i| (i % 4).min(2) as f64).collect(),
            samples: (1..=size.samples).map(|i| (i * size.stations) as f64 / count).collect(),
            step: (size.stations - 1) as f64 / count,
            rows: vec![[4.0 / 7.0, 100.0, 71.0]; size.rows],
            out: vec![0.0; size.samples + 1],
        }
    }
}

const REQUEST: Request = Request {
    a_prev: 0.7,
    prev: Station { lower: 0.0, upper: 4.0, cap: 9.0 },
    curr: Station { lower: 0.0, upper: 4.0, cap: 3.0 },
    feas_tol: 0.0,
    a_cmp_abs_tol: 0.0,
    a_cmp_rel_tol: 0.0,
};

/// A walk whose next step, to the current station, is asked the same.
fn walk() -> Walk {
    Walk::start(Tolerances { feas_tol: 0.0, a_cmp_abs_tol: 0.0, a_cmp_rel_tol: 0.0 }, REQUEST.a_prev, REQUEST.prev)
}

/// A number in groups of seven bits, low group first.
fn groups(n: usize) -> Vec<u8> {
    let group = u8::try_from(n % 128).expect("seven bits");
    if n < 128 {
        return vec![group];
    }
    [vec![128 + group], groups(n / 128)].concat()
}

/// A cut file of so many stations.
fn file(stations: usize) -> Vec<u8> {
    let payload = [groups(stations), vec![0; 8 * stations]].concat();
    [vec![1], groups(payload.len()), payload].concat()
}

type Call = fn(&mut Lists) -> Option<Refusal>;

/// A leaf refuses nothing; its answer is kept so that the call is not left out.
fn kept(answer: f64) -> Option<Refusal> {
    black_box(answer);
    None
}

/// An answer of each entry, and refusals on the way to it: they may go deeper.
const CALLS: [(&str, Call); 31] = [
    ("no call", |_| None),
    ("sqrt", |l| kept(malikoza::sqrt(l.rows[0][0]))),
    ("fma", |l| kept(malikoza::fma(l.rows[0][0], l.rows[0][1], l.rows[0][2]))),
    ("hypot", |l| kept(malikoza::hypot(l.rows[0][0], l.rows[0][1]))),
    ("next_down", |l| kept(malikoza::next_down(l.rows[0][0]))),
    ("minimum", |l| kept(malikoza::minimum(l.rows[0][0], l.rows[0][1]))),
    ("maximum", |l| kept(malikoza::maximum(l.rows[0][0], l.rows[0][1]))),
    ("absolute", |l| kept(malikoza::absolute(l.rows[0][0]))),
    ("whole_part", |l| kept(malikoza::whole_part(l.rows[0][2]) as f64)),
    ("recover, searched", |l| recover(&REQUEST, &l.rows).map(|found| assert!(found.tried > 6)).err()),
    ("recover, cap passes", |l| {
        recover(&REQUEST, &vec![[1.0, 0.0, 9.0]; l.rows.len()]).map(|found| assert!(found.tried == 1)).err()
    }),
    ("recover, a row that no speed meets", |l| recover(&REQUEST, &[&l.rows[1..], &[[-1.0, 0.0, -5.0]]].concat()).err()),
    ("walk_start", |_| kept(walk().speed())),
    ("walk_step, searched", |l| walk().step(REQUEST.curr, &l.rows).map(|found| assert!(found.tried > 6)).err()),
    ("walk_step, cap passes", |l| {
        walk().step(REQUEST.curr, &vec![[1.0, 0.0, 9.0]; l.rows.len()]).map(|found| assert!(found.tried == 1)).err()
    }),
    ("walk_step, a row that no speed meets", |l| {
        walk().step(REQUEST.curr, &[&l.rows[1..], &[[-1.0, 0.0, -5.0]]].concat()).err()
    }),
    ("a_to_b", |l| a_to_b(&l.s, &l.a, &mut l.out).err()),
    ("a_to_b, a of another length", |l| a_to_b(&l.s, &l.a[1..], &mut l.out).err()),
    ("s_to_t", |l| s_to_t(&l.s, &l.a, 0.0, &mut l.out).err()),
    ("s_to_t, a of another length", |l| s_to_t(&l.s, &l.a[1..], 0.0, &mut l.out).err()),
    ("s_to_t, t0 not finite", |l| s_to_t(&l.s, &l.a, f64::NAN, &mut l.out).err()),
    ("t_to_s_list", |l| t_to_s_list(&l.s, &l.a, &l.s, &l.samples, &mut l.out).err()),
    ("t_to_s_list, too many samples", |l| t_to_s_list(&l.s, &l.a, &l.s, &vec![0.0; MAX_SAMPLES + 1], &mut l.out).err()),
    ("t_to_s_list, samples not rising", |l| {
        t_to_s_list(&l.s, &l.a, &l.s, &[&l.samples[1..], &[0.0]].concat(), &mut l.out).err()
    }),
    ("t_to_s_list, t of another length", |l| t_to_s_list(&l.s, &l.a, &l.s[1..], &l.samples, &mut l.out).err()),
    ("t_to_s_grid with the final", |l| t_to_s_grid(&l.s, &l.a, &l.s, 0.0, l.step, true, &mut l.out).err()),
    ("t_to_s_grid, too many times", |l| t_to_s_grid(&l.s, &l.a, &l.s, 0.0, 0.001, true, &mut l.out).err()),
    ("t_to_s_grid, t of another length", |l| t_to_s_grid(&l.s, &l.a, &l.s[1..], 0.0, l.step, true, &mut l.out).err()),
    ("cut_file_section", |l| CutFile::new(&file(l.s.len())).err()),
    ("cut_file_section, a fault at the end", |l| CutFile::new(&[file(l.s.len()), vec![128]].concat()).err()),
    ("cut_file_section, too long", |_| CutFile::new(&vec![0; MAX_FILE + 1]).err()),
];

/// Bytes of stack that are used up before a call.
const ABOVE: usize = 64 * 1024;

/// The call, made where `ABOVE` bytes and at most one step more stand between it and `top`.
#[inline(never)]
fn lower(call: Call, lists: &mut Lists, top: usize) -> Option<Refusal> {
    let step = black_box([0_u8; 128]);
    let down = top - step.as_ptr() as usize;
    let answer = if down < ABOVE { lower(call, lists, top) } else { call(lists) };
    // What is used after the call keeps its place on the stack until then.
    black_box(&step);
    answer
}

/// The call on a thread of this stack.
fn make(call: Call, size: &Size, kib: usize) -> Option<Refusal> {
    let mut lists = Lists::new(size);
    thread::scope(|scope| {
        let builder = thread::Builder::new().stack_size(ABOVE + kib * 1024);
        let started = builder.spawn_scoped(scope, || {
            let top = 0_u8;
            lower(call, &mut lists, std::ptr::from_ref(black_box(&top)) as usize)
        });
        started.expect("a thread starts").join().expect("the call returns")
    })
}

/// Whether a process that makes the call on such a thread lives to its end.
fn returns(call: usize, size: usize, kib: usize) -> bool {
    let program = std::env::current_exe().expect("this program has a name");
    let arguments = [call, size, kib].map(|number| number.to_string());
    Command::new(program).args(arguments).stderr(Stdio::null()).status().expect("this program starts").success()
}

/// By halving, in pages of 4 KiB, up to 4 MiB.
fn least(call: usize, size: usize) -> usize {
    let (mut short, mut enough) = (0, 1024);
    while enough - short > 1 {
        let middle = (short + enough) / 2;
        if returns(call, size, 4 * middle) {
            enough = middle;
        } else {
            short = middle;
        }
    }
    4 * enough
}

fn told(answer: Option<Refusal>) -> String {
    answer.map_or("answered".into(), |refusal| format!("refused with {}", refusal.number()))
}

fn main() {
    let arguments: Vec<usize> = std::env::args().skip(1).map(|number| number.parse().expect("a number")).collect();
    if let [call, size, kib] = arguments[..] {
        make(CALLS[call].1, &SIZES[size], kib);
        return;
    }
    println!("KiB: small (256 stations, 1,024 samples, 32 rows), largest (4,096 stations, 65,536 samples, 256 rows)");
    for (place, (name, call)) in CALLS.into_iter().enumerate() {
        let answers = SIZES.each_ref().map(|size| told(make(call, size, 4096)));
        assert_eq!(answers[0], answers[1], "{name}");
        println!("{:5} {:5}  {name}: {}", least(place, 0), least(place, 1), answers[0]);
    }
}
