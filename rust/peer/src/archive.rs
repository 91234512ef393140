//! Traces in the archive. The clocks say where the values stand, so that only they are visited: in blocks of rows, and
//! in a block column by column.

use crate::check::Clock;
use crate::plan::{storable, test_lengths};
use crate::{Answer, MOST_FLOWS};

/// The rows of a block, few enough that a block is still close by when its last column is gone through.
const BLOCK: usize = 64;

/// Tells how many words a trace of some ticks has in store. The count of the answer is that of the words.
pub fn stored_words(plan_count: u32, words: &[u32], ticks: u32) -> Answer {
    match storable(plan_count, words, ticks) {
        Ok((clocks, flows)) => Answer::success(columns(&clocks[..flows], ticks).1),
        Err(refusal) => refusal,
    }
}

/// Stores a trace of some ticks. The count of the answer is that of the words.
pub fn store(plan_count: u32, words: &[u32], ticks: u32, marks: &[u8], values: &[u32], stored: &mut [u32]) -> Answer {
    let (clocks, mut columns, flows) = match fitting(plan_count, words, ticks, marks, values, stored) {
        Ok(fitting) => fitting,
        Err(refusal) => return refusal,
    };
    if !on_calendar(&clocks[..flows], marks, values) {
        return Answer::number(43);
    }
    for block in values.chunks(BLOCK * flows) {
        for column in &mut columns[..flows] {
            column.through(block.len(), |cell, word| stored[word] = block[cell]);
        }
    }
    Answer::success(stored.len())
}

/// Gives a trace of some ticks back. The count of the answer is that of the cells.
pub fn restore(
    plan_count: u32,
    words: &[u32],
    ticks: u32,
    stored: &[u32],
    marks: &mut [u8],
    values: &mut [u32],
) -> Answer {
    let (mut columns, flows) = match fitting(plan_count, words, ticks, marks, values, stored) {
        Ok((_, columns, flows)) => (columns, flows),
        Err(refusal) => return refusal,
    };
    for (marks, values) in marks.chunks_mut(BLOCK * flows).zip(values.chunks_mut(BLOCK * flows)) {
        marks.fill(0);
        values.fill(0);
        for column in &mut columns[..flows] {
            column.through(marks.len(), |cell, word| (marks[cell], values[cell]) = (1, stored[word]));
        }
    }
    Answer::success(marks.len())
}

/// The values of one flow.
#[derive(Clone, Copy, Default)]
struct Column {
    /// The place of the next one, from the block's first cell on, and by how many places each is behind the one before.
    cell: usize,
    apart: usize,
    /// The place of its word.
    word: usize,
}

impl Column {
    /// Goes through a block of so many cells, from value to value: the place of each, and that of its word.
    #[inline]
    fn through(&mut self, cells: usize, mut each: impl FnMut(usize, usize)) {
        let Column { mut cell, apart, mut word } = *self;
        while cell < cells {
            each(cell, word);
            word += 1;
            cell += apart;
        }
        *self = Column { cell: cell - cells, apart, word };
    }
}

/// The columns of flows with these clocks before the first block, and how many words some ticks of them have.
fn columns(clocks: &[Clock], ticks: u32) -> ([Column; MOST_FLOWS], usize) {
    let (mut columns, mut words) = ([Column::default(); MOST_FLOWS], 0);
    for (flow, clock) in clocks.iter().enumerate() {
        let [cell, apart] = [clock.phase, clock.period].map(|ticks| ticks as usize * clocks.len());
        columns[flow] = Column { cell: cell + flow, apart, word: words };
        words += ticks.saturating_sub(clock.phase).div_ceil(clock.period) as usize;
    }
    (columns, words)
}

/// Clocks, columns and how many flows, of a trace whose buffers are as long as they have to be: all refusals but 43.
fn fitting(
    plan_count: u32,
    words: &[u32],
    ticks: u32,
    marks: &[u8],
    values: &[u32],
    stored: &[u32],
) -> Result<([Clock; MOST_FLOWS], [Column; MOST_FLOWS], usize), Answer> {
    let (clocks, flows) = storable(plan_count, words, ticks)?;
    let (columns, count) = columns(&clocks[..flows], ticks);
    test_lengths(ticks as usize * flows, count, marks, values, stored)?;
    Ok((clocks, columns, flows))
}

/// Whether every mark is the one that its clock asks for, and every absent value 0.
fn on_calendar(clocks: &[Clock], marks: &[u8], values: &[u32]) -> bool {
    // Each flow's period, and how many ticks it has to wait.
    let (mut periods, mut waits) = ([0; MOST_FLOWS], [0; MOST_FLOWS]);
    for ((period, wait), clock) in periods.iter_mut().zip(&mut waits).zip(clocks) {
        (*period, *wait) = (clock.period, clock.phase);
    }
    let (periods, waits) = (&periods[..clocks.len()], &mut waits[..clocks.len()]);
    let mut rows = marks.chunks_exact(clocks.len()).zip(values.chunks_exact(clocks.len()));
    rows.all(|(marks, values)| {
        let mut fits = true;
        for (((wait, &period), &mark), &value) in waits.iter_mut().zip(periods).zip(marks).zip(values) {
            let is_due = *wait == 0;
            fits &= (mark == u8::from(is_due)) & (is_due | (value == 0));
            *wait = if is_due { period } else { *wait } - 1;
        }
        fits
    })
}
