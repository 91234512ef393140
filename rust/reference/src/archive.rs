//! Traces in the archive: flow after flow, only the values present, each flow's in time order; and back.

use crate::check::clocks_of;
use crate::clock::Clock;
use crate::operators::on_calendar;
use crate::rows::{table, Row};
use crate::run::{put, test_ticks, MOST_TICKS};
use crate::{answer, refuse, success, Answer, Refused};

/// Tells how many words a trace of some ticks has in store. The count of the answer is that of the words.
pub fn stored_words(plan_count: u32, words: &[u32], ticks: u32) -> Answer {
    answer(Calendar::new(plan_count, words, ticks).map(|calendar| success(calendar.stored().count())))
}

/// Stores a trace of some ticks. The count of the answer is that of the words stored.
pub fn store(plan_count: u32, words: &[u32], ticks: u32, marks: &[u8], values: &[u32], stored: &mut [u32]) -> Answer {
    answer(Calendar::new(plan_count, words, ticks).and_then(|calendar| {
        calendar.test_lengths(marks, values, stored)?;
        calendar.test_trace(marks, values)?;
        for (place, word) in calendar.stored().zip(&mut *stored) {
            *word = values[place];
        }
        Ok(success(stored.len()))
    }))
}

/// Gives a trace of some ticks back. The count of the answer is that of the cells restored, absent ones too.
pub fn restore(
    plan_count: u32,
    words: &[u32],
    ticks: u32,
    stored: &[u32],
    marks: &mut [u8],
    values: &mut [u32],
) -> Answer {
    answer(Calendar::new(plan_count, words, ticks).and_then(|calendar| {
        calendar.test_lengths(marks, values, stored)?;
        for (_, _, place) in calendar.cells() {
            put(None, place, marks, values);
        }
        for (place, &word) in calendar.stored().zip(stored) {
            put(Some(word), place, marks, values);
        }
        Ok(success(calendar.cells().count()))
    }))
}

/// The clocks of a plan whose traces of so many ticks can be stored.
struct Calendar {
    clocks: Vec<Clock>,
    ticks: usize,
}

impl Calendar {
    /// The check's refusals and 31 with the plain run's tick limit come first. Then 41 is for a plan with when,
    /// when-not, merge or a view.
    fn new(plan_count: u32, words: &[u32], ticks: u32) -> Refused<Self> {
        let rows = table(plan_count, words)?;
        let clocks = clocks_of(&rows)?;
        let ticks = test_ticks(ticks, MOST_TICKS)?;
        if rows.iter().any(samples_or_merges) {
            return refuse(41);
        }
        Ok(Calendar { clocks, ticks })
    }

    /// Number 42: marks, values or words that aren't exactly as long as the plan and the ticks ask.
    fn test_lengths(&self, marks: &[u8], values: &[u32], stored: &[u32]) -> Refused<()> {
        let (cells, words) = (self.cells().count(), self.stored().count());
        if marks.len() != cells || values.len() != cells || stored.len() != words {
            return refuse(42);
        }
        Ok(())
    }

    /// Number 43: a trace whose marks aren't the clocks' or whose absent values aren't 0.
    fn test_trace(&self, marks: &[u8], values: &[u32]) -> Refused<()> {
        for (tick, flow, place) in self.cells() {
            let is_right = match self.is_present(tick, flow) {
                true => marks[place] == 1,
                false => marks[place] == 0 && values[place] == 0,
            };
            if !is_right {
                return refuse(43);
            }
        }
        Ok(())
    }

    /// Whether a flow is present at a tick: all clocks are plain.
    fn is_present(&self, tick: usize, flow: usize) -> bool {
        on_calendar(self.clocks[flow].period, self.clocks[flow].phase, tick)
    }

    /// Each cell of a trace, tick after tick: its tick, its flow and its place.
    fn cells(&self) -> impl Iterator<Item = (usize, usize, usize)> + '_ {
        let flows = self.clocks.len();
        (0..self.ticks).flat_map(move |tick| (0..flows).map(move |flow| (tick, flow, tick * flows + flow)))
    }

    /// The places of the values present, flow after flow, each flow's in time order.
    fn stored(&self) -> impl Iterator<Item = usize> + '_ {
        let flows = self.clocks.len();
        (0..flows).flat_map(move |flow| {
            let present = (0..self.ticks).filter(move |&tick| self.is_present(tick, flow));
            present.map(move |tick| tick * flows + flow)
        })
    }
}

/// When, when-not, merge or a view.
fn samples_or_merges(row: &Row) -> bool {
    matches!(
        row,
        Row::When { .. } | Row::WhenNot { .. } | Row::Merge { .. } | Row::WhenSeen { .. } | Row::WhenNotSeen { .. }
    )
}
