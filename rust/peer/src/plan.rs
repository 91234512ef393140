//! The tests that every plain table has to pass: numbers 11, 13, 14 and 15.

use crate::check::{derive, Clock};
use crate::{Answer, MOST_FLOWS, MOST_WRITTEN, WINDOW};

/// The most ticks of a run, and of a long run.
const MOST_TICKS: u32 = 131_071;
const MOST_LONG_TICKS: u32 = 4_194_303;

/// A row in plain form: kind and three fields.
pub type Row = [u32; 4];

/// The kind of an input without a rate.
pub const UNRATED: u32 = 16;

/// The count as a number of flows.
#[inline]
pub fn flows(count: u32) -> Result<usize, Answer> {
    match count as usize {
        flows @ 1..=MOST_FLOWS => Ok(flows),
        _ => Err(Answer::number(11)),
    }
}

/// The rows of a plain table, all of them tested, as check and run take them: each input has a rate.
#[inline]
pub fn rows(plan_count: u32, words: &[u32]) -> Result<&[Row], Answer> {
    tested::<false>(plan_count, words)
}

/// The rows of a plain table that may have inputs without a rate.
#[inline]
pub fn unfilled(plan_count: u32, words: &[u32]) -> Result<&[Row], Answer> {
    tested::<true>(plan_count, words)
}

/// The rows of a plain table, with inputs without a rate or not.
#[inline]
fn tested<const MAY_LACK: bool>(plan_count: u32, words: &[u32]) -> Result<&[Row], Answer> {
    let flows = flows(plan_count)?;
    let (rows, rest) = words.as_chunks::<4>();
    if rows.len() != flows || !rest.is_empty() {
        return Err(Answer::number(11));
    }
    for (flow, row) in rows.iter().enumerate() {
        test_row::<MAY_LACK>(flow, flows, row)?;
    }
    Ok(rows)
}

/// Numbers 13, 14 and 15 of one row, which may lack a rate or not.
#[inline]
pub fn test_row<const MAY_LACK: bool>(flow: usize, flows: usize, &[kind, x, y, z]: &Row) -> Result<(), Answer> {
    let is_flow = |word: u32| word < MOST_FLOWS as u32;
    let is_copies = |word: u32| (1..=63).contains(&word);
    let is_period = |word: u32| (1..=MOST_WRITTEN).contains(&word);
    let is_phase = |word: u32| word <= MOST_WRITTEN;
    let lower = |word: u32| (word as usize) < flow;
    // In range, and then the operands lower.
    let (fits, known) = match kind {
        0 => (is_period(x) && is_phase(y) && z == 0, true),
        1 => (is_period(y) && is_phase(z), true),
        2..=6 | 13 | 14 => (is_flow(x) && is_flow(y) && z == 0, lower(x) && lower(y)),
        7 => (is_flow(y) && is_flow(z), lower(y) && (z as usize) < flows),
        8 => (is_flow(x) && is_copies(y) && is_period(z), lower(x)),
        9 => (is_flow(x) && is_copies(y) && z == 0, lower(x)),
        10 => (is_flow(x) && is_phase(y) && z == 0, lower(x)),
        11 => (is_flow(x) && is_phase(z), lower(x)),
        12 => (is_flow(x) && y == 0 && z == 0, lower(x)),
        15 => (is_flow(x) && is_flow(y) && is_flow(z), lower(x) && lower(y) && lower(z)),
        17 | 18 => (is_flow(x) && is_flow(y) && is_period(z), lower(x) && lower(y)),
        UNRATED if MAY_LACK => ([x, y, z] == [0; 3], true),
        _ => return Err(Answer::at(13, flow)),
    };
    if !fits {
        return Err(Answer::at(14, flow));
    }
    if !known {
        return Err(Answer::at(15, flow));
    }
    Ok(())
}

/// Number 31 above so many ticks.
#[inline]
fn test_ticks(ticks: u32, most: u32) -> Result<(), Answer> {
    match ticks > most {
        true => Err(Answer::number(31)),
        false => Ok(()),
    }
}

/// How many rows are inputs, each with a word a tick in the log.
#[inline]
fn inputs(rows: &[Row]) -> usize {
    rows.iter().filter(|row| row[0] == 0).count()
}

/// The lengths of log, marks and values in a run that takes so many ticks at the most and needs so many cells: numbers
/// 31, 32, and `short`.
#[allow(clippy::too_many_arguments)]
#[inline]
fn limits(
    ticks: u32,
    most: u32,
    logged: usize,
    inputs: usize,
    cells: usize,
    marks: usize,
    values: usize,
    short: u32,
) -> Result<(), Answer> {
    test_ticks(ticks, most)?;
    if logged != ticks as usize * inputs {
        return Err(Answer::number(32));
    }
    if marks < cells || values < cells {
        return Err(Answer::number(short));
    }
    Ok(())
}

/// The rows of a plain table that is to run, and how many of them are inputs: numbers 11 to 15, 31, 32 and 33.
#[inline]
pub fn runnable<'a>(
    plan_count: u32,
    words: &'a [u32],
    log: &[u32],
    ticks: u32,
    marks: &[u8],
    values: &[u32],
) -> Result<(&'a [Row], usize), Answer> {
    let rows = rows(plan_count, words)?;
    let (inputs, cells) = (inputs(rows), ticks as usize * rows.len());
    limits(ticks, MOST_TICKS, log.len(), inputs, cells, marks.len(), values.len(), 33)?;
    Ok((rows, inputs))
}

/// The same for a long run, after the check: numbers 11 to 15, 21 to 23, 40, 31, 32 and 35.
#[inline]
pub fn long_runnable<'a>(
    plan_count: u32,
    words: &'a [u32],
    log: &[u32],
    ticks: u32,
    marks: &[u8],
    values: &[u32],
    tallies: &[u32],
) -> Result<(&'a [Row], usize), Answer> {
    let rows = rows(plan_count, words)?;
    derive(rows, &mut [Clock::default(); MOST_FLOWS])?;
    let (inputs, cells) = (inputs(rows), WINDOW as usize * rows.len());
    limits(ticks, MOST_LONG_TICKS, log.len(), inputs, cells, marks.len(), values.len(), 35)?;
    if tallies.len() < 2 * rows.len() {
        return Err(Answer::number(35));
    }
    Ok((rows, inputs))
}

/// The clocks, all of them plain, of a table whose trace of some ticks can be in the archive, and how many flows it has:
/// numbers 11 to 15, 21 to 23, 40, 31 and 41.
#[inline]
pub fn storable(plan_count: u32, words: &[u32], ticks: u32) -> Result<([Clock; MOST_FLOWS], usize), Answer> {
    let rows = rows(plan_count, words)?;
    let mut clocks = [Clock::default(); MOST_FLOWS];
    derive(rows, &mut clocks)?;
    test_ticks(ticks, MOST_TICKS)?;
    if rows.iter().any(|row| matches!(row[0], 13..=15 | 17 | 18)) {
        return Err(Answer::number(41));
    }
    Ok((clocks, rows.len()))
}

/// Number 42 unless marks and values are exactly so many cells, and the stored words exactly so many.
#[inline]
pub fn test_lengths(cells: usize, count: usize, marks: &[u8], values: &[u32], stored: &[u32]) -> Result<(), Answer> {
    match (marks.len(), values.len(), stored.len()) == (cells, cells, count) {
        true => Ok(()),
        false => Err(Answer::number(42)),
    }
}
