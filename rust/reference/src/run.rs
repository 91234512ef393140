//! The run: rows and log to a trace, tick after tick, flows in ascending order.

use crate::operators::{work_out, Cell, History};
use crate::rows::{table, Row};
use crate::{answer, refuse, success, Answer, Refused};

/// The most ticks of a plain run.
pub const MOST_TICKS: u32 = 131_071;

/// Runs a plain table over a log for some ticks. The count of the answer is that of the ticks.
pub fn run(plan_count: u32, words: &[u32], log: &[u32], ticks: u32, marks: &mut [u8], values: &mut [u32]) -> Answer {
    answer(table(plan_count, words).and_then(|rows| {
        let ticks = test_ticks_and_log(&rows, log, ticks, MOST_TICKS)?;
        let cells = ticks * rows.len();
        if marks.len() < cells || values.len() < cells {
            return refuse(33);
        }
        let (history, ended) = run_ticks(&rows, log, ticks);
        for (tick, flow, cell) in history.cells() {
            put(cell, tick * rows.len() + flow, marks, values);
        }
        ended?;
        Ok(success(ticks))
    }))
}

/// How many of the rows are inputs.
fn inputs(rows: &[Row]) -> usize {
    rows.iter().filter(|row| matches!(row, Row::Input { .. })).count()
}

/// Number 31, where there may be so many ticks at the most.
pub fn test_ticks(ticks: u32, most: u32) -> Refused<usize> {
    if ticks > most {
        return refuse(31);
    }
    Ok(ticks as usize)
}

/// Numbers 31 and 32, of a run that takes so many ticks at the most.
pub fn test_ticks_and_log(rows: &[Row], log: &[u32], ticks: u32, most: u32) -> Refused<usize> {
    let ticks = test_ticks(ticks, most)?;
    if log.len() != ticks * inputs(rows) {
        return refuse(32);
    }
    Ok(ticks)
}

/// Writes a cell: a mark, and a value that is 0 where it is absent.
pub fn put(cell: Cell, place: usize, marks: &mut [u8], values: &mut [u32]) {
    marks[place] = if cell.is_some() { 1 } else { 0 };
    values[place] = cell.unwrap_or(0);
}

/// All cells that are worked out in some ticks, and the clash that ended them if there was one.
pub fn run_ticks(rows: &[Row], log: &[u32], ticks: usize) -> (History, Refused<()>) {
    let mut history = History::new(rows.len());
    let ended = (0..ticks).try_for_each(|tick| run_tick(rows, log, tick, &mut history));
    (history, ended)
}

/// A clash returns tick and flow.
fn clash<T>(tick: usize, flow: usize) -> Refused<T> {
    Err(Answer { number: 34, flow: flow as u32, tick: tick as u32, count: 0 })
}

/// One tick: every flow in ascending order, then the registers.
fn run_tick(rows: &[Row], log: &[u32], tick: usize, history: &mut History) -> Refused<()> {
    history.begin_tick();
    for (flow, row) in rows.iter().enumerate() {
        let logged = match row {
            Row::Input { .. } => log[tick * inputs(rows) + inputs(&rows[..flow])],
            _ => 0,
        };
        let Ok(cell) = work_out(row, tick, logged, history) else { return clash(tick, flow) };
        history.push(cell);
    }
    match lowest_register_in_clash(rows, tick, history) {
        Some(register) => clash(tick, register),
        None => Ok(()),
    }
}

/// A register whose source and beat are not both present or both absent is a clash that names the register.
fn lowest_register_in_clash(rows: &[Row], tick: usize, history: &History) -> Option<usize> {
    rows.iter().position(|row| match *row {
        Row::Register { beat, source, .. } => history.present(source, tick) != history.present(beat, tick),
        _ => false,
    })
}
