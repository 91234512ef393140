//! Random plans that the check accepts: each row is derived from the clocks of the flows before it.

use crate::rng::Rng;
use crate::{Plan, CLOCK_WORDS, DERIVED, WRITTEN};

/// A condition of a clock.
#[derive(Clone, Copy, Debug, PartialEq, Eq)]
pub struct Condition {
    /// 2 × flow + truth.
    pub word: u32,
    /// Its view period, 0 where it is sampled directly.
    pub view: u32,
}

/// The clock that a row is meant to have.
#[derive(Clone, Debug, PartialEq, Eq)]
pub struct Clock {
    /// Its period.
    pub period: u32,
    /// Its phase.
    pub phase: u32,
    /// Its conditions in order of sampling.
    pub conditions: Vec<Condition>,
}

impl Clock {
    fn plain(period: u32, phase: u32) -> Self {
        Clock { period, phase, conditions: Vec::new() }
    }

    /// Whether it can be written as the clock of an input.
    fn is_written(&self) -> bool {
        self.conditions.is_empty() && self.period <= WRITTEN && self.phase <= WRITTEN
    }

    /// With one more condition, 2 × flow + truth, that is sampled directly.
    pub fn plus(&self, word: u32) -> Self {
        let mut clock = self.clone();
        clock.conditions.push(Condition { word, view: 0 });
        clock
    }

    /// Its words as the check gives them.
    pub fn words(&self) -> [u32; CLOCK_WORDS] {
        let mut words = [0; CLOCK_WORDS];
        words[..3].copy_from_slice(&[self.period, self.phase, self.conditions.len() as u32]);
        for (place, condition) in self.conditions.iter().enumerate() {
            (words[3 + place], words[7 + place]) = (condition.word, condition.view);
        }
        words
    }
}

/// What kind of plan is wanted.
#[derive(Clone, Copy, Debug)]
pub struct Shape {
    /// How many flows.
    pub flows: usize,
    /// The greatest period, phase and delay that are chosen: small, and much happens in a short run; the greatest there
    /// is, and clocks come up to their limits.
    pub scale: u32,
    /// Whether rows of kinds 13 to 15, 17 and 18 may occur.
    pub sampling: bool,
}

impl Shape {
    /// A shape for short runs: mostly few flows, now and then all 64.
    pub fn short(rng: &mut Rng) -> Self {
        let flows = match rng.below(40) {
            0 => 64,
            1..=3 => 17 + rng.below(47),
            4..=15 => 7 + rng.below(10),
            _ => 1 + rng.below(8),
        };
        Shape { flows, scale: rng.pick(&[1, 2, 4, 6, 12]), sampling: rng.percent(70) }
    }

    /// A shape for runs of thousands of ticks.
    pub fn long(rng: &mut Rng) -> Self {
        Shape {
            flows: 1 + rng.below(rng.clone().pick(&[8, 16, 64])),
            scale: rng.pick(&[6, 100, WRITTEN]),
            sampling: rng.percent(60),
        }
    }
}

/// A plan in the making.
struct Draft<'a> {
    rng: &'a mut Rng,
    scale: u32,
    rows: Vec<[u32; 4]>,
    clocks: Vec<Clock>,
}

/// A random plan of a shape that the check accepts, and the clocks that it has.
pub fn accepted(rng: &mut Rng, shape: Shape) -> (Plan, Vec<Clock>) {
    let mut draft = Draft { rng, scale: shape.scale, rows: Vec::new(), clocks: Vec::new() };
    while draft.rows.len() < shape.flows {
        let kind = draft.choose_kind(shape.sampling);
        let (row, clock) = draft.row(kind).unwrap_or_else(|| draft.source(kind % 2));
        draft.rows.push(row);
        draft.clocks.push(clock);
    }
    draft.choose_sources();
    (Plan::of(&draft.rows), draft.clocks)
}

/// Erases the rates of some inputs of a plan, each with so many chances out of a hundred: they are of kind 16 then.
pub fn erase_rates(rng: &mut Rng, plan: &mut Plan, chances: usize) {
    for row in plan.words.chunks_exact_mut(4) {
        if row[0] == 0 && rng.percent(chances) {
            row.copy_from_slice(&[16, 0, 0, 0]);
        }
    }
}

impl Draft<'_> {
    /// A kind to try next; sampling is preferred while it may occur, as merges need pairs.
    fn choose_kind(&mut self, sampling: bool) -> u32 {
        match sampling {
            true if self.rng.percent(50) => self.rng.pick(&[13, 13, 14, 14, 15, 15, 17, 18]),
            _ => self.rng.range(0, 12),
        }
    }

    /// A row of a kind over the flows so far, if there is one.
    fn row(&mut self, kind: u32) -> Option<([u32; 4], Clock)> {
        match kind {
            0 | 1 => Some(self.source(kind)),
            2..=6 => {
                let (a, b) = self.pair()?;
                Some(([kind, a, b, 0], self.clock(a)))
            }
            7 => {
                let beat = self.any()?;
                Some(([7, self.rng.value(), beat, 0], self.clock(beat)))
            }
            8 => self.faster(),
            9 => self.slower(),
            10 => self.later(),
            11 => self.head(),
            12 => self.tail(),
            13 | 14 => self.sampled(kind),
            15 => self.merge(),
            _ => self.seen(kind),
        }
    }

    fn clock(&self, flow: u32) -> Clock {
        self.clocks[flow as usize].clone()
    }

    /// Any flow.
    fn any(&mut self) -> Option<u32> {
        self.flow_where(|_| true)
    }

    /// Any flow whose clock passes a test.
    fn flow_where(&mut self, test: impl Fn(&Clock) -> bool) -> Option<u32> {
        let clocks = &self.clocks;
        self.rng.pick_where(clocks.len(), |flow| test(&clocks[flow])).map(|flow| flow as u32)
    }

    /// Any flow with a plain clock that passes a test.
    fn plain_where(&mut self, test: impl Fn(&Clock) -> bool) -> Option<u32> {
        self.flow_where(|clock| clock.conditions.is_empty() && test(clock))
    }

    /// Any flow with a plain clock from which a phase up to the limit is derived, or now and then the one with the greatest:
    /// so phases come up to it.
    fn plain_or_latest(&mut self, derived: impl Fn(&Clock) -> u32) -> Option<u32> {
        let fits = |clock: &Clock| derived(clock) <= DERIVED;
        let any = self.plain_where(fits)?;
        if self.rng.percent(60) {
            return Some(any);
        }
        let plain = (0..).zip(&self.clocks).filter(|(_, clock)| clock.conditions.is_empty() && fits(clock));
        plain.max_by_key(|(_, clock)| derived(clock)).map(|(flow, _)| flow)
    }

    /// Two flows with equal clocks, perhaps the same.
    fn pair(&mut self) -> Option<(u32, u32)> {
        let a = self.any()?;
        let clock = self.clock(a);
        Some((a, self.flow_where(|other| *other == clock)?))
    }

    /// An input or constant, often on the clock of an earlier flow so that the two go together.
    fn source(&mut self, kind: u32) -> ([u32; 4], Clock) {
        let known = match self.rng.percent(60) {
            true => self.flow_where(Clock::is_written),
            false => None,
        };
        let clock = match known {
            Some(flow) => self.clock(flow),
            None => Clock::plain(self.period(), self.phase()),
        };
        let row = match kind {
            0 => [0, clock.period, clock.phase, 0],
            _ => [1, self.rng.value(), clock.period, clock.phase],
        };
        (row, clock)
    }

    /// A period; large ones are often rich in divisors, or at the edge.
    fn period(&mut self) -> u32 {
        match self.scale {
            WRITTEN if self.rng.percent(60) => {
                self.rng.pick(&[1, 63, 64, 65, 420, 720, 1285, 2520, 3780, 3855, 4094, 4095])
            }
            scale => self.rng.range(1, scale),
        }
    }

    /// A phase, or a delay.
    fn phase(&mut self) -> u32 {
        match self.scale {
            WRITTEN if self.rng.percent(30) => self.rng.pick(&[0, 1, 4094, 4095]),
            scale => self.rng.range(0, scale),
        }
    }

    /// The greatest period of a slower row: the clocks' own limit where periods are written up to theirs.
    fn limit(&self) -> u32 {
        match self.scale {
            WRITTEN => DERIVED,
            scale => 4 * scale,
        }
    }

    fn faster(&mut self) -> Option<([u32; 4], Clock)> {
        let a = self.plain_where(|_| true)?;
        let Clock { period, phase, .. } = self.clock(a);
        let fits = |k: u32| period.is_multiple_of(k) && period / k <= WRITTEN;
        let k = 1 + self.rng.pick_where(63, |k| fits(k as u32 + 1))? as u32;
        Some(([8, a, k, period / k], Clock::plain(period / k, phase)))
    }

    fn slower(&mut self) -> Option<([u32; 4], Clock)> {
        let limit = self.limit();
        let a = self.plain_where(|clock| clock.period <= limit)?;
        let Clock { period, phase, .. } = self.clock(a);
        let most = (limit / period).min(63);
        let k = if self.rng.percent(20) { most } else { self.rng.range(1, most) };
        Some(([9, a, k, 0], Clock::plain(period * k, phase)))
    }

    fn later(&mut self) -> Option<([u32; 4], Clock)> {
        let a = self.plain_or_latest(|clock| clock.phase)?;
        let Clock { period, phase, .. } = self.clock(a);
        let most = WRITTEN.min(DERIVED - phase);
        let d = if self.rng.percent(30) { most.min(self.scale) } else { self.phase().min(most) };
        Some(([10, a, d, 0], Clock::plain(period, phase + d)))
    }

    fn head(&mut self) -> Option<([u32; 4], Clock)> {
        let a = self.plain_where(|clock| clock.phase >= clock.period && clock.phase - clock.period <= WRITTEN)?;
        let Clock { period, phase, .. } = self.clock(a);
        let s = phase - period;
        Some(([11, a, self.rng.value(), s], Clock::plain(period, s)))
    }

    fn tail(&mut self) -> Option<([u32; 4], Clock)> {
        let a = self.plain_or_latest(|clock| clock.phase + clock.period)?;
        let Clock { period, phase, .. } = self.clock(a);
        Some(([12, a, 0, 0], Clock::plain(period, phase + period)))
    }

    /// When or when-not; often the other half of one that is there already, so that a merge finds both.
    fn sampled(&mut self, kind: u32) -> Option<([u32; 4], Clock)> {
        let half = match self.rng.percent(60) {
            true => self.flow_where(|clock| clock.conditions.last().is_some_and(|last| last.view == 0)),
            false => None,
        };
        let (kind, c) = match half.and_then(|half| self.clock(half).conditions.last().copied()) {
            Some(Condition { word, .. }) => (13 + word % 2, word / 2),
            None => (kind, self.flow_where(|clock| clock.conditions.len() < 4)?),
        };
        let clock = self.clock(c);
        let a = self.flow_where(|other| *other == clock)?;
        Some(([kind, a, c, 0], clock.plus(2 * c + (14 - kind))))
    }

    /// A merge of any two halves that are there.
    fn merge(&mut self) -> Option<([u32; 4], Clock)> {
        let clocks = &self.clocks;
        let half = |c: usize, truth: u32| clocks[c].plus(2 * c as u32 + truth);
        let flow_with = |clock: Clock| clocks.iter().position(|other| *other == clock);
        let c = self
            .rng
            .pick_where(clocks.len(), |c| flow_with(half(c, 1)).is_some() && flow_with(half(c, 0)).is_some())?;
        let (yes, no) = (half(c, 1), half(c, 0));
        let a = self.flow_where(|other| *other == yes)?;
        let b = self.flow_where(|other| *other == no)?;
        Some(([15, c as u32, a, b], self.clocks[c].clone()))
    }

    /// When-seen or when-not-seen; often the view that another flow has already, so that the two go together.
    fn seen(&mut self, kind: u32) -> Option<([u32; 4], Clock)> {
        let again = if self.rng.percent(40) { self.seen_again() } else { None };
        again.or_else(|| self.seen_anew(kind))
    }

    /// A view that a flow has already, over any flow with its period and phase.
    fn seen_again(&mut self) -> Option<([u32; 4], Clock)> {
        let known = self.flow_where(|clock| clock.conditions.len() == 1 && clock.conditions[0].view > 0)?;
        let clock = self.clock(known);
        let Condition { word, view } = clock.conditions[0];
        let a = self.plain_where(|other| (other.period, other.phase) == (clock.period, clock.phase))?;
        Some(([18 - word % 2, a, word / 2, view], clock))
    }

    /// A view of a flow that mostly has another clock.
    fn seen_anew(&mut self, kind: u32) -> Option<([u32; 4], Clock)> {
        let a = self.plain_where(|_| true)?;
        let Clock { period, phase, .. } = self.clock(a);
        let can_be_seen = |c: &Clock| c.phase <= phase && common(period, c.period) <= WRITTEN;
        let other = match self.rng.percent(70) {
            true => self.plain_where(|c| can_be_seen(c) && (c.period, c.phase) != (period, phase)),
            false => None,
        };
        let c = other.or_else(|| self.plain_where(can_be_seen))?;
        let w = self.multiple(common(period, self.clock(c).period));
        let conditions = vec![Condition { word: 2 * c + (18 - kind), view: w }];
        Some(([kind, a, c, w], Clock { period, phase, conditions }))
    }

    /// A multiple of a number that a field has: mostly a small one, now and then the greatest or any.
    fn multiple(&mut self, of: u32) -> u32 {
        let most = WRITTEN / of;
        of * match self.rng.below(8) {
            0 => most,
            1 => self.rng.range(1, most),
            _ => self.rng.range(1, most.min(3)),
        }
    }

    /// Gives each register a source with its clock, which may be any flow of the table.
    fn choose_sources(&mut self) {
        for flow in 0..self.rows.len() {
            if self.rows[flow][0] == 7 {
                let clock = self.clocks[flow].clone();
                self.rows[flow][3] = self.flow_where(|other| *other == clock).expect("a register has its own clock");
            }
        }
    }
}

/// The least common multiple of two periods.
fn common(a: u32, b: u32) -> u32 {
    let (mut divisor, mut rest) = (a, b);
    while rest > 0 {
        (divisor, rest) = (rest, divisor % rest);
    }
    a / divisor * b
}
