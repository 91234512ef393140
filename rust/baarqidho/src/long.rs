//! What a long run keeps.

use crate::{TALLY_WORDS, WINDOW_TICKS};

/// What a long run gave: the cells of its last ticks, [`WINDOW_TICKS`] of them or all if it had fewer; and of all its
/// ticks how many values each flow had, and its last one.
///
/// ```
/// use baarqidho::{Plan, Row};
///
/// // A reading every second tick from tick 0 on, and each of them 4095 ticks later.
/// let plan = Plan::from_rows([Row::Input { period: 2, phase: 0 }, Row::Later { a: 0, d: 4095 }]);
/// let log: Vec<u32> = (0..500_000).collect();
/// let run = plan.long_run(&log, 500_000)?;
/// assert_eq!((run.ticks(), run.first_tick()), (500_000, 368_928));
/// assert_eq!((run.count(0), run.last(0)), (250_000, Some(499_998)));
/// assert_eq!((run.count(1), run.last(1)), (247_953, Some(495_904)));
/// assert_eq!((run.value(368_928, 0), run.value(368_929, 0)), (Some(368_928), None));
/// assert!(run.has(368_928, 1) && !run.has(368_927, 1));
/// # Ok::<(), baarqidho::Refusal>(())
/// ```
#[derive(Clone, Debug, PartialEq, Eq)]
pub struct LongRun {
    ticks: usize,
    marks: Vec<u8>,
    values: Vec<u32>,
    tallies: Vec<u32>,
}

impl LongRun {
    /// What a run of some ticks left in its window and its tallies. Places of the window that no tick came to are given
    /// back.
    pub(crate) fn new(ticks: usize, mut marks: Vec<u8>, mut values: Vec<u32>, tallies: Vec<u32>) -> Self {
        let cells = ticks.min(WINDOW_TICKS) * (tallies.len() / TALLY_WORDS);
        marks.truncate(cells);
        marks.shrink_to_fit();
        values.truncate(cells);
        values.shrink_to_fit();
        LongRun { ticks, marks, values, tallies }
    }

    /// How many flows a tick has.
    pub fn flows(&self) -> usize {
        self.tallies.len() / TALLY_WORDS
    }

    /// How many ticks it ran.
    pub fn ticks(&self) -> usize {
        self.ticks
    }

    /// The earliest tick whose cells it still has, if it ran at all.
    pub fn first_tick(&self) -> usize {
        self.ticks.saturating_sub(WINDOW_TICKS)
    }

    /// How many values a flow had in all ticks; none if there is no such flow.
    pub fn count(&self, flow: usize) -> usize {
        self.tally(flow).map_or(0, |[count, _]| count as usize)
    }

    /// The last value that a flow had, however long ago, or nothing if it had none.
    pub fn last(&self, flow: usize) -> Option<u32> {
        let [count, last] = self.tally(flow)?;
        (count > 0).then_some(last)
    }

    /// Whether it has the cell of a flow at a tick: that of a flow of the plan at one of the last ticks.
    pub fn has(&self, tick: usize, flow: usize) -> bool {
        self.place(tick, flow).is_some()
    }

    /// The value of a flow at a tick, or nothing where it is absent or the window does not have its cell.
    pub fn value(&self, tick: usize, flow: usize) -> Option<u32> {
        let place = self.place(tick, flow)?;
        (self.marks[place] == 1).then(|| self.values[place])
    }

    /// The words of a flow's tally.
    fn tally(&self, flow: usize) -> Option<[u32; TALLY_WORDS]> {
        self.tallies.as_chunks().0.get(flow).copied()
    }

    /// The place of a cell that the window has.
    fn place(&self, tick: usize, flow: usize) -> Option<usize> {
        let has = flow < self.flows() && (self.first_tick()..self.ticks).contains(&tick);
        has.then(|| tick % WINDOW_TICKS * self.flows() + flow)
    }
}
