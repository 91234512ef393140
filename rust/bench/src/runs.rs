//! The run and the long run: library, the same algorithm in safe Rust, and the quick one.

use std::hint::black_box;

use crate::measure::{self, by_turns};
use crate::plans::Plan;
use crate::{MOST_LONG_TICKS, MOST_TICKS};

/// The buffers that a run is lent; a plain run leaves the tallies.
#[derive(PartialEq)]
struct Lent {
    marks: Vec<u8>,
    values: Vec<u32>,
    tallies: Vec<u32>,
}

impl Lent {
    /// Buffers for so many ticks of a plan, or for the window of a long run.
    fn new(plan: &Plan, ticks: usize) -> Self {
        let (cells, words) = (ticks * plan.flows(), baarqidho::TALLY_WORDS * plan.flows());
        Lent { marks: vec![9; cells], values: vec![9; cells], tallies: vec![9; words] }
    }
}

/// A run of count, words, log and ticks; gives the number and count of its answer.
type Call = fn(u32, &[u32], &[u32], u32, &mut Lent) -> (u32, u32);

/// A run by its name.
#[derive(Clone, Copy)]
pub struct Run {
    name: &'static str,
    is_long: bool,
    call: Call,
}

macro_rules! run {
    ($name:literal, $is_long:literal, $call:path $(, $tallies:ident)?) => {
        Run {
            name: $name,
            is_long: $is_long,
            call: |count, words, log, ticks, lent| {
                let Lent { marks, values, .. } = lent;
                let answer = $call(count, words, log, ticks, marks, values $(, &mut lent.$tallies)?);
                (answer.number, answer.count)
            },
        }
    };
}

/// The run; the first is measured against the others.
pub const RUNS: [Run; 3] =
    [run!("library", false, baarqidho::run), run!("mirror", false, peer::mirror::run), run!("quick", false, peer::run)];

/// The long run.
pub const LONG: [Run; 3] = [
    run!("long", true, baarqidho::long_run, tallies),
    run!("long-mirror", true, peer::mirror::long_run, tallies),
    run!("long-quick", true, peer::long_run, tallies),
];

/// The long run, and the library's run of the same ticks.
pub const LONG_AND_PLAIN: [Run; 4] = [LONG[0], LONG[1], LONG[2], RUNS[0]];

/// The names of all runs.
pub fn names() -> Vec<&'static str> {
    RUNS.iter().chain(&LONG).map(|run| run.name).collect()
}

/// The run of a name.
pub fn of_name(name: &str) -> Option<Run> {
    RUNS.into_iter().chain(LONG).find(|run| run.name == name)
}

/// The heading of a table of runs.
pub fn heading<const N: usize>(title: &str, runs: &[Run; N]) {
    measure::heading(title, runs.map(|run| run.name));
}

/// Measures runs of some ticks, prints their line, and gives the first one's time a cell.
pub fn run<const N: usize>(runs: &[Run; N], plan: &Plan, ticks: usize) -> f64 {
    let (count, words, log) = (plan.flows() as u32, &plan.words[..], plan.log(ticks));
    let is_plain = runs.iter().any(|run| !run.is_long);
    let room = if is_plain { ticks.max(baarqidho::WINDOW_TICKS) } else { baarqidho::WINDOW_TICKS };

    // Each once into buffers of its own: runs of a sort leave the same, cell by cell.
    let left = runs.map(|run| {
        let mut lent = Lent::new(plan, room);
        assert_eq!((run.call)(count, words, &log, ticks as u32, &mut lent), (0, ticks as u32), "{}", run.name);
        lent
    });
    for (run, lent) in runs.iter().zip(&left) {
        let first = runs.iter().position(|other| other.is_long == run.is_long).expect("itself at least");
        assert!(*lent == left[first], "{} and {} leave the same", run.name, runs[first].name);
    }
    drop(left);

    // One set of buffers for all, so that none has the better pages.
    let mut lent = Lent::new(plan, room);
    let measured = by_turns::<N>(|which| {
        black_box((runs[which].call)(count, black_box(words), &log, ticks as u32, &mut lent));
    });
    let name = format!("{}, {} flows, {ticks} ticks", plan.name, plan.flows());
    measure::line(&name, &measured, ticks * plan.flows())
}

/// One run, and nothing else that depends on the ticks: log and buffers are those of as many ticks as there may be.
/// Nothing if there are too many.
pub fn once(plan: &Plan, ticks: usize, run: Run) -> Option<()> {
    let (most, room) = match run.is_long {
        true => (MOST_LONG_TICKS, baarqidho::WINDOW_TICKS),
        false => (MOST_TICKS, MOST_TICKS),
    };
    if ticks > most {
        return None;
    }
    let log = plan.log(most);
    let log = &log[..log.len() / most * ticks];
    let mut lent = Lent::new(plan, room);
    let answer = (run.call)(plan.flows() as u32, &plan.words, log, ticks as u32, &mut lent);
    println!("answer {answer:?}, last cells {:?} {:?}", black_box(&lent.marks).last(), black_box(&lent.values).last());
    Some(())
}
