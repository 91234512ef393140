//! The check: a clock for each flow.

use crate::plan::{rows, Row};
use crate::{Answer, MOST_DERIVED, MOST_FLOWS};

/// The most conditions a clock has.
const MOST_CONDITIONS: usize = 4;

/// A period, a phase, and the conditions as 2 × flow + truth, unused ones 0. The first alone can be viewed, since views
/// are of plain clocks: its view period, 0 if it is sampled directly.
#[derive(Clone, Copy, Default, PartialEq, Eq)]
pub struct Clock {
    pub period: u32,
    pub phase: u32,
    depth: u8,
    conditions: [u8; MOST_CONDITIONS],
    view: u16,
}

impl Clock {
    #[inline]
    fn plain(period: u32, phase: u32) -> Self {
        Clock { period, phase, depth: 0, conditions: [0; MOST_CONDITIONS], view: 0 }
    }

    /// With one more condition, or nothing if it would be the fifth.
    #[inline]
    fn plus(mut self, flow: u32, truth: bool) -> Option<Self> {
        *self.conditions.get_mut(usize::from(self.depth))? = 2 * flow as u8 + u8::from(truth);
        self.depth += 1;
        Some(self)
    }

    /// A plain clock under one condition that is viewed.
    #[inline]
    fn seen(self, flow: u32, truth: bool, view: u32) -> Self {
        Clock { depth: 1, conditions: [2 * flow as u8 + u8::from(truth), 0, 0, 0], view: view as u16, ..self }
    }

    /// The conditions it has.
    pub fn conditions(&self) -> &[u8] {
        &self.conditions[..usize::from(self.depth)]
    }

    /// The view periods of its conditions.
    pub fn views(&self) -> [u32; MOST_CONDITIONS] {
        [u32::from(self.view), 0, 0, 0]
    }

    fn words(&self) -> [u32; 11] {
        let [c, d, e, f] = self.conditions.map(u32::from);
        let [v, w, x, y] = self.views();
        [self.period, self.phase, u32::from(self.depth), c, d, e, f, v, w, x, y]
    }
}

/// Gives each flow of a plain table its clock, eleven words a flow. The count of the answer is that of the flows.
pub fn check(plan_count: u32, words: &[u32], clocks: &mut [u32]) -> Answer {
    let rows = match rows(plan_count, words) {
        Ok(rows) => rows,
        Err(refusal) => return refusal,
    };
    let (out, _) = clocks.as_chunks_mut::<11>();
    if out.len() < rows.len() {
        return Answer::number(10);
    }
    let mut derived = [Clock::default(); MOST_FLOWS];
    if let Err(refusal) = derive(rows, &mut derived) {
        return refusal;
    }
    for (out, clock) in out.iter_mut().zip(&derived[..rows.len()]) {
        *out = clock.words();
    }
    Answer::success(rows.len())
}

/// The clocks of tested rows, then the test of the registers' sources.
pub fn derive(rows: &[Row], clocks: &mut [Clock; MOST_FLOWS]) -> Result<(), Answer> {
    for (flow, row) in rows.iter().enumerate() {
        clocks[flow] = clock(row, clocks).map_err(|number| Answer::at(number, flow))?;
    }
    for (flow, &[kind, _, _, source]) in rows.iter().enumerate() {
        if kind == 7 && clocks[source as usize] != clocks[flow] {
            return Err(Answer::at(21, flow));
        }
    }
    Ok(())
}

/// The clock of one row, or the number of its refusal.
#[inline]
fn clock(&[kind, x, y, z]: &Row, clocks: &[Clock; MOST_FLOWS]) -> Result<Clock, u32> {
    let of = |flow: u32| clocks[flow as usize % MOST_FLOWS];
    match kind {
        0 => Ok(Clock::plain(x, y)),
        1 => Ok(Clock::plain(y, z)),
        2..=6 if of(x) == of(y) => Ok(of(x)),
        7 => Ok(of(y)),
        8..=12 if of(x).depth > 0 => Err(23),
        8 if of(x).period == y * z => Ok(Clock::plain(z, of(x).phase)),
        9 if of(x).period * y <= MOST_DERIVED => Ok(Clock::plain(of(x).period * y, of(x).phase)),
        10 if of(x).phase + y <= MOST_DERIVED => Ok(Clock::plain(of(x).period, of(x).phase + y)),
        11 if of(x).phase == z + of(x).period => Ok(Clock::plain(of(x).period, z)),
        12 if of(x).phase + of(x).period <= MOST_DERIVED => Ok(Clock::plain(of(x).period, of(x).phase + of(x).period)),
        9 | 10 | 12 => Err(22),
        13 | 14 if of(x) == of(y) => of(x).plus(y, kind == 13).ok_or(22),
        15 if of(x).plus(x, true) == Some(of(y)) && of(x).plus(x, false) == Some(of(z)) => Ok(of(x)),
        17 | 18 if of(x).depth > 0 || of(y).depth > 0 => Err(23),
        17 | 18 if !can_see(z, of(x), of(y)) => Err(40),
        17 | 18 => Ok(of(x).seen(y, kind == 17, z)),
        _ => Err(21),
    }
}

/// Whether a flow with the clock `a` can be under a view of one with the clock `c` every so many ticks.
#[inline]
fn can_see(view: u32, a: Clock, c: Clock) -> bool {
    view.is_multiple_of(a.period) && view.is_multiple_of(c.period) && c.phase <= a.phase
}
