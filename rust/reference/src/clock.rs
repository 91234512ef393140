//! Clocks, and the rule of each kind that gives a flow its clock.

use crate::rows::Row;

/// A condition: a flow, a truth and a view period, 0 when sampled directly.
#[derive(Clone, Copy, Debug, PartialEq, Eq)]
pub struct Condition {
    pub flow: usize,
    pub truth: bool,
    pub view: u32,
}

/// A period, a phase and 0 to 4 conditions in order of sampling.
#[derive(Clone, Debug, PartialEq, Eq)]
pub struct Clock {
    pub period: u32,
    pub phase: u32,
    pub conditions: Vec<Condition>,
}

/// Why a row gets no clock, as the number of the refusal.
type Wrong = u32;

const DIFFER: Wrong = 21;
const BEYOND: Wrong = 22;
const NOT_PLAIN: Wrong = 23;
const BAD_VIEW: Wrong = 40;

/// The clock without conditions.
fn plain(period: u32, phase: u32) -> Clock {
    Clock { period, phase, conditions: Vec::new() }
}

impl Clock {
    /// A clock without conditions is plain.
    fn is_plain(&self) -> bool {
        self.conditions.is_empty()
    }

    /// This clock with one last condition that is sampled directly, however many it has.
    fn plus(&self, flow: usize, truth: bool) -> Clock {
        let mut clock = self.clone();
        clock.conditions.push(Condition { flow, truth, view: 0 });
        clock
    }
}

/// The greatest derived period and phase.
pub const DERIVED: u32 = 65_535;

/// A derived period or phase above 65,535, or a fifth condition, is beyond the limits.
fn within_limits(clock: Clock) -> Result<Clock, Wrong> {
    if clock.period > DERIVED || clock.phase > DERIVED || clock.conditions.len() > 4 {
        return Err(BEYOND);
    }
    Ok(clock)
}

/// Kinds 8 to 12, and both operands of kinds 17 and 18, need a plain clock.
fn need_plain(clock: &Clock) -> Result<(), Wrong> {
    if clock.is_plain() {
        Ok(())
    } else {
        Err(NOT_PLAIN)
    }
}

/// What the rules ask of clocks.
fn need(holds: bool) -> Result<(), Wrong> {
    if holds {
        Ok(())
    } else {
        Err(DIFFER)
    }
}

/// The clock of a row, the clocks of the lower flows being known.
pub fn clock(row: &Row, clocks: &[Clock]) -> Result<Clock, Wrong> {
    match *row {
        Row::Input { period, phase } | Row::Constant { period, phase, .. } => Ok(plain(period, phase)),
        Row::Add { a, b }
        | Row::Subtract { a, b }
        | Row::Less { a, b }
        | Row::Equal { a, b }
        | Row::Larger { a, b } => of_both(&clocks[a], &clocks[b]),
        Row::Register { beat, .. } => Ok(clocks[beat].clone()),
        Row::Faster { a, k, gap } => faster(&clocks[a], k, gap),
        Row::Slower { a, k } => slower(&clocks[a], k),
        Row::Later { a, d } => later(&clocks[a], d),
        Row::Head { a, s, .. } => head(&clocks[a], s),
        Row::Tail { a } => tail(&clocks[a]),
        Row::When { a, c } => sampled(&clocks[a], &clocks[c], c, true),
        Row::WhenNot { a, c } => sampled(&clocks[a], &clocks[c], c, false),
        Row::Merge { c, a, b } => merge(&clocks[c], &clocks[a], &clocks[b], c),
        Row::WhenSeen { a, c, w } => seen(&clocks[a], &clocks[c], Condition { flow: c, truth: true, view: w }),
        Row::WhenNotSeen { a, c, w } => seen(&clocks[a], &clocks[c], Condition { flow: c, truth: false, view: w }),
    }
}

/// a and b have equal clocks; so has the result.
fn of_both(a: &Clock, b: &Clock) -> Result<Clock, Wrong> {
    need(a == b)?;
    Ok(a.clone())
}

/// a is plain with n = k × g; the result is (g, p).
fn faster(a: &Clock, k: u32, gap: u32) -> Result<Clock, Wrong> {
    need_plain(a)?;
    need(a.period == k * gap)?;
    within_limits(plain(gap, a.phase))
}

/// a plain; (k × n, p).
fn slower(a: &Clock, k: u32) -> Result<Clock, Wrong> {
    need_plain(a)?;
    within_limits(plain(k * a.period, a.phase))
}

/// a plain; (n, p + d).
fn later(a: &Clock, d: u32) -> Result<Clock, Wrong> {
    need_plain(a)?;
    within_limits(plain(a.period, a.phase + d))
}

/// a plain with p = s + n; the result is (n, s).
fn head(a: &Clock, s: u32) -> Result<Clock, Wrong> {
    need_plain(a)?;
    need(a.phase == s + a.period)?;
    within_limits(plain(a.period, s))
}

/// a plain; (n, p + n).
fn tail(a: &Clock) -> Result<Clock, Wrong> {
    need_plain(a)?;
    within_limits(plain(a.period, a.phase + a.period))
}

/// a and c have equal clocks; the result adds one last condition, c true or c false.
fn sampled(a: &Clock, clock_of_c: &Clock, c: usize, truth: bool) -> Result<Clock, Wrong> {
    need(a == clock_of_c)?;
    within_limits(a.plus(c, truth))
}

/// a has c's clock plus 'c true', b has c's clock plus 'c false'; the result has c's clock.
fn merge(clock_of_c: &Clock, a: &Clock, b: &Clock, c: usize) -> Result<Clock, Wrong> {
    need(*a == clock_of_c.plus(c, true))?;
    need(*b == clock_of_c.plus(c, false))?;
    Ok(clock_of_c.clone())
}

/// Both clocks are plain, w is a multiple of both periods, and c's phase is at most a's. The result has a's clock under
/// that one condition.
fn seen(a: &Clock, c: &Clock, condition: Condition) -> Result<Clock, Wrong> {
    need_plain(a)?;
    need_plain(c)?;
    let w = condition.view;
    let is_multiple_of_both = w.is_multiple_of(a.period) && w.is_multiple_of(c.period);
    if !is_multiple_of_both || c.phase > a.phase {
        return Err(BAD_VIEW);
    }
    Ok(Clock { conditions: vec![condition], ..plain(a.period, a.phase) })
}
