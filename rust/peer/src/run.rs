//! The run and the long run, with the state of each row carried from tick to tick.

use std::ops::Range;

use crate::plan::{long_runnable, runnable, Row};
use crate::steps::{Cell, Cells, Now, Past, Step};
use crate::{Answer, MOST_FLOWS, WINDOW};

/// Runs a plain table over a log for some ticks. The count of the answer is that of the ticks.
pub fn run(plan_count: u32, words: &[u32], log: &[u32], ticks: u32, marks: &mut [u8], values: &mut [u32]) -> Answer {
    let (rows, inputs) = match runnable(plan_count, words, log, ticks, marks, values) {
        Ok(ready) => ready,
        Err(refusal) => return refusal,
    };
    let mut steps = steps(rows);
    match lap(&mut steps[..rows.len()], inputs, log, 0..ticks, marks, values, |_, _| {}) {
        Ok(()) => Answer::success(ticks as usize),
        Err((tick, flow)) => Answer { number: 34, flow: flow as u32, tick, count: 0 },
    }
}

/// Checks a plain table and runs it over a log for many ticks, lap after lap of a window. The count of the answer is
/// that of the ticks.
pub fn long_run(
    plan_count: u32,
    words: &[u32],
    log: &[u32],
    ticks: u32,
    marks: &mut [u8],
    values: &mut [u32],
    tallies: &mut [u32],
) -> Answer {
    let (rows, inputs) = match long_runnable(plan_count, words, log, ticks, marks, values, tallies) {
        Ok(ready) => ready,
        Err(refusal) => return refusal,
    };
    let (flows, mut steps) = (rows.len(), steps(rows));
    let cells = WINDOW as usize * flows;
    let (marks, values) = (&mut marks[..cells], &mut values[..cells]);
    // How many values each flow had, and its last one.
    let mut counted = [[0; 2]; MOST_FLOWS];
    for first in (0..ticks).step_by(WINDOW as usize) {
        let ticks = first..ticks.min(first + WINDOW);
        let ended = lap(&mut steps[..flows], inputs, log, ticks, marks, values, |flow, cell| {
            let [count, last] = &mut counted[flow % MOST_FLOWS];
            *count += u32::from(cell.mark());
            *last = if cell.is_present() { cell.value() } else { *last };
        });
        ended.expect("no plan that the check accepts can clash");
    }
    tallies[..2 * flows].copy_from_slice(counted[..flows].as_flattened());
    Answer::success(ticks as usize)
}

/// Tested rows, ready for tick 0.
fn steps(rows: &[Row]) -> [Step; MOST_FLOWS] {
    let mut steps = [Step::Tail { a: 0, seen: false }; MOST_FLOWS];
    let mut column = 0;
    for (step, row) in steps.iter_mut().zip(rows) {
        *step = Step::new(row, rows.len(), column);
        column += u32::from(row[0] == 0);
    }
    steps
}

/// The flows that are registers, and how many there are.
fn registers(steps: &[Step]) -> ([u8; MOST_FLOWS], usize) {
    let (mut flows, mut count) = ([0; MOST_FLOWS], 0);
    for (flow, step) in steps.iter().enumerate() {
        if let Step::Register { .. } = step {
            flows[count] = flow as u8;
            count += 1;
        }
    }
    (flows, count)
}

/// Some ticks, each lent its own part of the cells, from the first cell on. Where they do not begin at tick 0, the
/// cells behind a tick are still those of the lap before. Each cell is also handed to `seen`. A clash gives its tick
/// and flow.
fn lap(
    steps: &mut [Step],
    inputs: usize,
    log: &[u32],
    ticks: Range<u32>,
    marks: &mut [u8],
    values: &mut [u32],
    mut seen: impl FnMut(usize, Cell),
) -> Result<(), (u32, usize)> {
    let flows = steps.len();
    let (registers, register_count) = registers(steps);
    let mut now = Now::new();
    let first = ticks.start;
    for tick in ticks {
        let start = (tick - first) as usize * flows;
        let (past_marks, rest_marks) = marks.split_at_mut(start);
        let (past_values, rest_values) = values.split_at_mut(start);
        let ((tick_marks, older_marks), (tick_values, older_values)) = match first {
            0 => ((rest_marks, &mut [][..]), (rest_values, &mut [][..])),
            _ => (rest_marks.split_at_mut(flows), rest_values.split_at_mut(flows)),
        };
        let older = Cells { marks: older_marks, values: older_values };
        let log = &log[tick as usize * inputs..][..inputs];
        let past = Past { tick, cells: Cells { marks: past_marks, values: past_values }, older, log };
        let cells = tick_marks.iter_mut().zip(tick_values);
        for ((flow, step), (mark, value)) in steps.iter_mut().enumerate().zip(cells) {
            let cell = step.advance(&now, past).ok_or((tick, flow))?;
            now.set(flow, cell);
            *mark = cell.mark();
            *value = cell.value();
            seen(flow, cell);
        }
        for &flow in &registers[..register_count] {
            let flow = usize::from(flow);
            if !steps[flow].latch(&now) {
                return Err((tick, flow));
            }
        }
    }
    Ok(())
}
