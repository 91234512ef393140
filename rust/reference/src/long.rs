//! The long run: the check, then all ticks as the run works them out, and of their cells a window and two words a flow.

use crate::check::clocks_of;
use crate::operators::History;
use crate::rows::table;
use crate::run::{put, run_ticks, test_ticks_and_log};
use crate::{answer, refuse, success, Answer};

/// The ticks of a window.
const WINDOW: usize = 131_072;

/// Checks a plain table and runs it over a log for up to 4,194,303 ticks. The count of the answer is that of the ticks.
pub fn long_run(
    plan_count: u32,
    words: &[u32],
    log: &[u32],
    ticks: u32,
    marks: &mut [u8],
    values: &mut [u32],
    tallies: &mut [u32],
) -> Answer {
    answer(table(plan_count, words).and_then(|rows| {
        clocks_of(&rows)?;
        let ticks = test_ticks_and_log(&rows, log, ticks, 4_194_303)?;
        let cells = WINDOW * rows.len();
        if marks.len() < cells || values.len() < cells || tallies.len() < 2 * rows.len() {
            return refuse(35);
        }
        let (history, ended) = run_ticks(&rows, log, ticks);
        ended.expect("Wish 12: no table that the check accepts can clash");
        // Tick t at place t modulo 131,072: the last cell of a place stays.
        for (tick, flow, cell) in history.cells() {
            put(cell, tick % WINDOW * rows.len() + flow, marks, values);
        }
        for flow in 0..rows.len() {
            tallies[2 * flow..2 * flow + 2].copy_from_slice(&tally(&history, flow));
        }
        Ok(success(ticks))
    }))
}

/// How many values a flow had and its last one, 0 if none.
fn tally(history: &History, of: usize) -> [u32; 2] {
    let cells = history.cells().filter(|&(_, flow, _)| flow == of);
    let values: Vec<u32> = cells.filter_map(|(_, _, cell)| cell).collect();
    [values.len() as u32, values.last().copied().unwrap_or(0)]
}
