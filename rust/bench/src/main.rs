//! The proved library against Rust, in one process and on the same input. The run is measured against two others: the
//! same algorithm in safe Rust (`peer::mirror`), and a quick run with rows made ready beforehand (`peer::run`). The
//! long run is measured against the long runs of both, and against the library's run of the same ticks. Storing a trace
//! and restoring it are measured against both, over plans without conditions. Check, write, read, load page, felt inputs,
//! least part and rates filled in are measured against the quick implementation, felt inputs also over plans of registers
//! that feed each other, the least part over plans whose last row is one that clashes, rates filled in over plans that
//! lack them.
//!
//!     cargo run --release -p bench
//!
//! Times depend on the machine and on what else it does; instructions do not. `bench run PLAN FLOWS TICKS IMPLEMENTATION`
//! makes one run and nothing else that depends on the ticks, so that the instructions of a cell are the difference
//! between two counts of ticks, divided by the cells between them:
//!
//!     valgrind --tool=callgrind --callgrind-out-file=/dev/null target/release/bench run mixed 16 1000 library
//!     valgrind --tool=callgrind --callgrind-out-file=/dev/null target/release/bench run mixed 16 11000 library
//!
//! Here the difference of the two lines 'Collected' is divided by 10,000 × 16. PLAN is mixed, sparse, sums, views, paces
//! or rare; IMPLEMENTATION is library, mirror or quick, or of the long run long, long-mirror or long-quick. In the same
//! way `bench archive CALL PLAN FLOWS TICKS IMPLEMENTATION` stores or restores a trace once: CALL is store or restore,
//! PLAN is sums, paces or rare, and IMPLEMENTATION is library, mirror or quick.
//!
//! `bench call CALL PLAN FLOWS CALLS` makes one call of the library so many times and nothing else that depends on how
//! many, so that the instructions of a call are the difference between two counts of calls, divided by the calls
//! between them, here 1,000. CALL is check, write, read, listing, page (the load page), felt (the inputs that flows feel),
//! least (the least part) or flows (the numbers of its flows), the last two over at least two flows, or fill (rates filled
//! in). PLAN may also be fed (registers that feed each other), of at least two flows, and for write, read and fill unrated
//! (all inputs but one) or upward (an input under a long chain), of at least three flows:
//!
//!     valgrind --tool=callgrind --callgrind-out-file=/dev/null target/release/bench call page mixed 64 1000
//!     valgrind --tool=callgrind --callgrind-out-file=/dev/null target/release/bench call page mixed 64 2000

mod archive;
mod measure;
mod plans;
mod runs;
mod tables;

use std::env;
use std::process::ExitCode;

use archive::CALLS;
use measure::linear;
use plans::{fed, mixed, paces, rare, sparse, sums, unrated, upward, views, Plan};
use runs::{LONG, LONG_AND_PLAIN, RUNS};

/// As many ticks as a run may have, and a long run.
const MOST_TICKS: usize = 131_071;
const MOST_LONG_TICKS: usize = 4_194_303;

/// Everything, in a few minutes.
fn report() {
    println!("Library, mirror and quick, by turns in one process on the same input and in the same buffers.");
    println!(
        "Times are the least, in ns. Of the two ratios the first is that of the least times, the second the median"
    );
    println!("over the turns. library/mirror, and long/long-mirror of the long run, are the library against the same");
    println!("algorithm in safe Rust.");

    runs::heading("The run, all ticks, a cell", &RUNS);
    for flows in [1, 4, 16, 64] {
        for plan in [mixed(flows), sparse(flows), sums(flows)] {
            runs::run(&RUNS, &plan, MOST_TICKS);
        }
    }
    for flows in [16, 64] {
        runs::run(&RUNS, &views(flows), MOST_TICKS);
    }

    runs::heading("Growth with ticks, a cell", &RUNS);
    let growth = [1_024, 8_192, 32_768, MOST_TICKS].map(|ticks| runs::run(&RUNS, &mixed(16), ticks));
    linear("128 times the ticks", &growth);

    runs::heading("Growth with flows, a cell", &RUNS);
    let growth = [16, 32, 48, 64].map(|flows| runs::run(&RUNS, &mixed(flows), 8_000));
    linear("4 times the flows", &growth);
    let growth = [8, 16, 32, 64].map(|flows| runs::run(&RUNS, &sums(flows), 8_000));
    linear("8 times the flows", &growth);

    runs::heading("The long run, as many ticks as a run may have, a cell", &LONG_AND_PLAIN);
    for flows in [4, 16, 64] {
        for plan in [mixed(flows), sparse(flows), sums(flows)] {
            runs::run(&LONG_AND_PLAIN, &plan, MOST_TICKS);
        }
    }
    for flows in [16, 64] {
        runs::run(&LONG_AND_PLAIN, &views(flows), MOST_TICKS);
    }

    runs::heading("Growth of the long run with ticks, a cell", &LONG);
    let growth = [131_071, 1_048_575, MOST_LONG_TICKS].map(|ticks| runs::run(&LONG, &mixed(4), ticks));
    linear("32 times the ticks", &growth);

    println!("\nThe archive. Storing reads a trace and writes its words, restoring reads the words and writes the");
    println!("trace; all in one set of buffers, which have that trace and those words already.");
    for (call, which) in CALLS {
        archive::heading(&format!("The archive, {call}, all ticks, a cell"));
        for flows in [4, 16, 64] {
            for plan in [sums(flows), paces(flows), rare(flows)] {
                archive::archive(which, &plan, MOST_TICKS);
            }
        }
        archive::heading(&format!("Growth with ticks, {call}, a cell"));
        let growth = [1_024, 8_192, 32_768, MOST_TICKS].map(|ticks| archive::archive(which, &paces(16), ticks));
        linear("128 times the ticks", &growth);
    }

    tables::heading("Check, write, read, load page, felt inputs and least part, a call");
    for flows in [1, 4, 16, 64] {
        tables::table(&mixed(flows));
        tables::table(&sums(flows));
    }

    tables::heading("Felt inputs, a call");
    for flows in [4, 16, 64] {
        tables::felt(&fed(flows));
    }

    tables::heading("Rates filled in, a call");
    for flows in [4, 16, 64] {
        tables::fill(&unrated(flows));
        tables::fill(&upward(flows));
    }
}

/// The plan of a name with so many flows.
fn plan(name: &str, flows: &str) -> Option<Plan> {
    let flows = flows.parse().ok().filter(|flows| (1..=64).contains(flows))?;
    Some(match name {
        "mixed" => mixed(flows),
        "sparse" => sparse(flows),
        "sums" => sums(flows),
        "views" => views(flows),
        "paces" => paces(flows),
        "rare" => rare(flows),
        "fed" if flows >= 2 => fed(flows),
        "unrated" if flows >= 3 => unrated(flows),
        "upward" if flows >= 3 => upward(flows),
        _ => return None,
    })
}

/// One run, one trace in the archive, or one call so many times, as the arguments say; nothing if they do not.
fn one(arguments: &[&str]) -> Option<()> {
    match *arguments {
        ["run", name, flows, ticks, implementation] => {
            runs::once(&plan(name, flows)?, ticks.parse().ok()?, runs::of_name(implementation)?)
        }
        ["archive", call, name @ ("sums" | "paces" | "rare"), flows, ticks, implementation] => {
            archive::once(call, &plan(name, flows)?, ticks.parse().ok()?, implementation)
        }
        ["call", call, name, flows, calls] => tables::only(call, &plan(name, flows)?, calls.parse().ok()?),
        _ => None,
    }
}

fn main() -> ExitCode {
    let arguments: Vec<String> = env::args().skip(1).collect();
    let arguments: Vec<&str> = arguments.iter().map(String::as_str).collect();
    if arguments.is_empty() {
        report();
    } else if one(&arguments).is_none() {
        let (runs, calls) = (runs::names().join("|"), tables::names().join("|"));
        eprintln!("bench, or bench run mixed|sparse|sums|views|paces|rare FLOWS TICKS {runs}");
        eprintln!("or bench archive store|restore sums|paces|rare FLOWS TICKS {}", archive::names().join("|"));
        eprintln!("or bench call {calls} mixed|sparse|sums|views|paces|rare|fed|unrated|upward FLOWS CALLS");
        return ExitCode::FAILURE;
    }
    ExitCode::SUCCESS
}
