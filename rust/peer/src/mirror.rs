//! The run, the long run and the archive of the proved library, step for step, in safe Rust: the same words carried from
//! tick to tick, the same decisions in the same order.
//!
//! It follows the proved code and not the paper, so it is no oracle and its agreement with the library says nothing
//! about either. It is for the benchmark alone, which tells from it what the same algorithm takes in safe Rust. Where
//! Rust can say a step in several ways this has the quickest one that was tried: a row's carried words in an array of
//! their own, an operand's mark and value read together.

mod archive;
mod outcome;
mod tally;

use std::ops::RangeInclusive;

pub use archive::{restore, store, stored_words};
use outcome::{outcome, status, Signal, CLASHED};

use crate::plan::{long_runnable, runnable, Row};
use crate::{Answer, MOST_FLOWS, WINDOW};

/// The words that a row carries from tick to tick.
type Held = [u32; 4];

/// The ticks of a long run that are worked out and then tallied.
const STRETCH: u32 = 64;

/// What a tick comes to: all of it, or a clash that names a flow.
enum Ticked {
    Full,
    Stopped(usize),
}

/// How far ticks came: to the end, or to a clash at a tick, which names a flow.
enum Reached {
    End,
    Clash(u32, usize),
}

/// The flows of some kinds, in ascending order.
struct Listed {
    flows: [usize; MOST_FLOWS],
    count: usize,
}

impl Listed {
    fn new(kinds: RangeInclusive<u32>, rows: &[Row]) -> Self {
        let (mut flows, mut count) = ([0; MOST_FLOWS], 0);
        for (flow, row) in rows.iter().enumerate() {
            if kinds.contains(&row[0]) {
                flows[count] = flow;
                count += 1;
            }
        }
        Listed { flows, count }
    }

    fn flows(&self) -> &[usize] {
        &self.flows[..self.count]
    }
}

/// The registers of a plan, its later rows and its views.
fn lists(rows: &[Row]) -> [Listed; 3] {
    [7..=7, 10..=10, 17..=18].map(|kinds| Listed::new(kinds, rows))
}

/// Runs a plain table over a log for some ticks. The count of the answer is that of the ticks.
pub fn run(plan_count: u32, words: &[u32], log: &[u32], ticks: u32, marks: &mut [u8], values: &mut [u32]) -> Answer {
    let (rows, inputs) = match runnable(plan_count, words, log, ticks, marks, values) {
        Ok(ready) => ready,
        Err(refusal) => return refusal,
    };
    let mut state = [[0; 4]; MOST_FLOWS];
    start(rows, &mut state);
    match run_ticks(rows, &lists(rows), log, inputs, 0, ticks, u32::MAX, &mut state, marks, values) {
        Reached::End => Answer::success(ticks as usize),
        Reached::Clash(tick, flow) => Answer { number: 34, flow: flow as u32, tick, count: 0 },
    }
}

/// Checks a plain table and runs it over a log for many ticks, into a window and tallies. The count of the answer is
/// that of the ticks.
pub fn long_run(
    plan_count: u32,
    words: &[u32],
    log: &[u32],
    ticks: u32,
    marks: &mut [u8],
    values: &mut [u32],
    tallies: &mut [u32],
) -> Answer {
    let (rows, inputs) = match long_runnable(plan_count, words, log, ticks, marks, values, tallies) {
        Ok(ready) => ready,
        Err(refusal) => return refusal,
    };
    let mut state = [[0; 4]; MOST_FLOWS];
    start(rows, &mut state);
    tally::clear(rows.len(), tallies);
    long_ticks(rows, &lists(rows), log, inputs, ticks, &mut state, marks, values, tallies);
    Answer::success(ticks as usize)
}

/// The ticks of a long run, stretch by stretch: worked out, and then tallied. None of them clashes, as the check
/// accepts the plan.
#[allow(clippy::too_many_arguments)]
fn long_ticks(
    rows: &[Row],
    lists: &[Listed; 3],
    log: &[u32],
    inputs: usize,
    ticks: u32,
    state: &mut [Held],
    marks: &mut [u8],
    values: &mut [u32],
    tallies: &mut [u32],
) {
    let mut t = 0;
    while t < ticks {
        let next = stretch_end(t, ticks);
        run_ticks(rows, lists, log, inputs, t, next, WINDOW - 1, state, marks, values);
        tally::add_ticks(t, next, WINDOW - 1, rows.len(), marks, values, tallies);
        t = next;
    }
}

/// The tick before which the stretch from tick t on ends.
fn stretch_end(t: u32, ticks: u32) -> u32 {
    ticks.min(t + STRETCH)
}

/// The ticks from one on, up to but not including another, each at the place that the mask leaves of it.
#[allow(clippy::too_many_arguments)]
fn run_ticks(
    rows: &[Row],
    lists: &[Listed; 3],
    log: &[u32],
    inputs: usize,
    from: u32,
    to: u32,
    mask: u32,
    state: &mut [Held],
    marks: &mut [u8],
    values: &mut [u32],
) -> Reached {
    let [registers, laters, views] = lists.each_ref().map(Listed::flows);
    for t in from..to {
        collect(laters, rows, t, mask, marks, values, state);
        look(views, rows, t, mask, marks, values, state);
        let first = first_cell(t, mask, rows.len());
        let at = t as usize * inputs;
        match tick(rows, registers, log, at, t, state, &mut marks[first..], &mut values[first..]) {
            Ticked::Full => {}
            Ticked::Stopped(flow) => return Reached::Clash(t, flow),
        }
    }
    Reached::End
}

/// The place of the first of n cells of tick t.
fn first_cell(t: u32, mask: u32, n: usize) -> usize {
    (t & mask) as usize * n
}

/// The words that the rows carry into tick 0.
fn start(rows: &[Row], state: &mut [Held]) {
    let mut inputs = 0;
    for (held, &[kind, p, q, r]) in state.iter_mut().zip(rows) {
        match kind {
            0 => {
                held[0] = q;
                held[1] = inputs;
                inputs += 1;
            }
            1 => held[0] = r,
            7 => held[0] = p,
            _ => {}
        }
    }
}

/// What tick t needs of earlier ticks: the cells of the later rows.
fn collect(laters: &[usize], rows: &[Row], t: u32, mask: u32, marks: &[u8], values: &[u32], state: &mut [Held]) {
    for &flow in laters {
        let [_, a, d, _] = rows[flow];
        let held = &mut state[flow];
        if d <= t {
            let place = first_cell(t - d, mask, rows.len()) + a as usize;
            held[0] = u32::from(marks[place]);
            held[1] = values[place];
        } else {
            held[0] = 0;
        }
    }
}

/// What tick t needs of earlier ticks for the rows that see a condition: where a view starts and c began before a, the
/// status of c's cell by as many ticks before.
fn look(views: &[usize], rows: &[Row], t: u32, mask: u32, marks: &[u8], values: &[u32], state: &mut [Held]) {
    for &flow in views {
        let held = &mut state[flow];
        if held[0] == t && held[1] != 0 {
            let place = first_cell(t - held[1], mask, rows.len()) + rows[flow][2] as usize;
            held[2] = status(Signal { mark: marks[place], value: values[place] });
        }
    }
}

/// One tick, into the parts of the trace that start at its own first cell. `at` is the place of its first word in
/// the log.
#[allow(clippy::too_many_arguments)]
fn tick(
    rows: &[Row],
    registers: &[usize],
    log: &[u32],
    at: usize,
    t: u32,
    state: &mut [Held],
    marks: &mut [u8],
    values: &mut [u32],
) -> Ticked {
    for ((flow, &row), held) in rows.iter().enumerate().zip(state.iter_mut()) {
        let outcome = outcome(row, t, log, at, held, marks, values);
        if outcome.mark == CLASHED {
            return Ticked::Stopped(flow);
        }
        marks[flow] = outcome.mark;
        values[flow] = outcome.value;
    }
    latch(registers, rows, state, marks, values)
}

/// After all flows: each register takes over its source, up to the first whose source and beat are not both present
/// or both absent.
fn latch(registers: &[usize], rows: &[Row], state: &mut [Held], marks: &[u8], values: &[u32]) -> Ticked {
    for &flow in registers {
        let [_, _, beat, source] = rows[flow];
        let (beat, source) = (beat as usize, source as usize);
        if marks[source] != marks[beat] {
            return Ticked::Stopped(flow);
        }
        if marks[source] != 0 {
            state[flow][0] = values[source];
        }
    }
    Ticked::Full
}
