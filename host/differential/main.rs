//! The library beside the Rust original and the rules of documents 01 and 02.
//!
//! `host/run differential [NAME=VALUE ..]` calls the library through its C entries and compares everything each call leaves behind: the refusal number, every
//! double by pattern, every count, and every byte that was written or must not have been. Whole walks go step by step: the library from the eight words it left
//! behind, the rules from their own state, and the original is called stage by stage. Cut files, which the original does not know, are read by the library and by
//! the rules. It prints how often each number and each way of answering came, and last "N compared, M differ"; it fails if M is not 0. A difference is shrunk
//! and printed in full.
//!
//! | argument | meaning |
//! |---|---|
//! | minutes=10 | how long to run, if no count is given |
//! | leaves=N recoveries=N conversions=N walks=N roots=N lengths=N files=N | exact counts in place of a time; what is not named is left out |
//! | fixed=no | leaves out the short inputs and the limits, which are the same in every run |
//! | seed=N | what the generated inputs follow from |
//! | threads=1 | they change the time only, not what is tried (with counts) |
//! | broken=NAME | puts a slip into the expected side: the run must then find differences; `broken=list` names them |
//! | broken=each | tries each slip, a minute at most, and fails if the comparison does not notice one |

#![allow(unstable_name_collisions)] // next_down is stable from Rust 1.86 on

mod case;
mod exact;
mod file_edges;
mod file_rules;
mod files;
mod fixed;
mod judge;
mod leaves;
mod library;
#[path = "../original/mod.rs"]
#[rustfmt::skip] // the text as it is there
mod original;
mod profiles;
mod progress;
mod random;
mod recovery_rules;
mod requests;
mod run;
mod shrink;
mod slips;
mod tally;
mod timing_rules;
mod walk_rules;
mod walks;

use run::Plan;
use slips::Slip;
use tally::Tally;

fn number(value: &str) -> u64 {
    value.parse().unwrap_or_else(|_| fail(&format!("{value} is no whole number")))
}

fn fail(message: &str) -> ! {
    eprintln!("{message}");
    std::process::exit(2)
}

fn list_slips() -> ! {
    for (name, _, what) in Slip::ALL {
        println!("{name}: {what}");
    }
    std::process::exit(0)
}

/// A run with a slip: generated inputs for a minute at most, and if they do not show it, those that are the same in every run.
fn tried(plan: &Plan, slip: Slip) -> Tally {
    let generated = Plan { slip, quiet: true, seconds: 60.0, fixed: false, ..plan.clone() };
    let tally = run::run(&generated);
    if tally.differ > 0 || !plan.fixed {
        return tally;
    }
    run::run(&Plan { fixed: true, seconds: 0.0, counts: None, ..generated })
}

/// Whether the comparison notices each slip.
fn try_each_slip(plan: &Plan) -> ! {
    eprintln!("{} slips, a minute each at most", Slip::ALL.len());
    let mut missed = 0;
    for (name, slip, _) in Slip::ALL {
        let tally = tried(plan, slip);
        println!(
            "{name}: {} after {} compared",
            if tally.differ > 0 { "noticed" } else { "NOT NOTICED" },
            tally.compared()
        );
        missed += i32::from(tally.differ == 0);
    }
    std::process::exit(missed)
}

fn plan() -> Plan {
    let mut plan = Plan::default();
    for argument in std::env::args().skip(1) {
        let (name, value) = argument.split_once('=').unwrap_or_else(|| fail(&format!("{argument} is not NAME=VALUE")));
        match (name, value) {
            ("minutes", n) => plan.seconds = 60.0 * n.parse::<f64>().unwrap_or_else(|_| fail("minutes=NUMBER")),
            ("leaves", n) => plan.counts.get_or_insert_default()[0] = number(n),
            ("recoveries", n) => plan.counts.get_or_insert_default()[1] = number(n),
            ("conversions", n) => plan.counts.get_or_insert_default()[2] = number(n),
            ("walks", n) => plan.counts.get_or_insert_default()[3] = number(n),
            ("roots", n) => plan.counts.get_or_insert_default()[4] = number(n),
            ("lengths", n) => plan.counts.get_or_insert_default()[5] = number(n),
            ("files", n) => plan.counts.get_or_insert_default()[6] = number(n),
            ("fixed", "no") => plan.fixed = false,
            ("seed", n) => plan.seed = number(n),
            ("threads", n) => plan.threads = number(n).max(1),
            ("broken", "list") => list_slips(),
            ("broken", "each") => plan.each_slip = true,
            ("broken", name) => {
                plan.slip = Slip::named(name).unwrap_or_else(|| fail("no such slip; broken=list names them"))
            }
            _ => fail(&format!("{argument} is not understood")),
        }
    }
    plan
}

fn main() {
    let plan = plan();
    if plan.each_slip {
        try_each_slip(&plan);
    }
    println!("seed {}{}", plan.seed, plan.slip.told());
    let tally = run::run(&plan);
    tally.print();
    std::process::exit(i32::from(tally.differ > 0));
}
