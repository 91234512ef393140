//! Views, kinds 17 and 18, in random plans that are accepted, refused and that clash. What each row has to see is worked out
//! again from the trace, in the request's own words, and what the check has to answer from the clocks below.

use tests::compare::{check, run_exactly, words_are, Outcome};
use tests::faults::{any_rows, any_views, disturb};
use tests::generate::{accepted, Clock, Shape};
use tests::implementation::ALL;
use tests::rng::Rng;
use tests::{is_view, rounds, Plan, CLOCK_WORDS, WINDOW, WRITTEN};

use crate::endurance::{ends, FOUR, THREE};
use crate::short::faulty;

/// A plan with views that the check accepts, and its clocks.
pub fn viewing(rng: &mut Rng, shape: impl Fn(&mut Rng) -> Shape) -> (Plan, Vec<Clock>) {
    loop {
        let shape = Shape { sampling: true, ..shape(rng) };
        let (plan, clocks) = accepted(rng, shape);
        if plan.has_views() {
            return (plan, clocks);
        }
    }
}

/// A view at a tick at which a is present.
struct Look {
    /// The truth that the row asks for, and the tick.
    truth: bool,
    tick: usize,
    /// The latest tick not past it that lies zero or more times w after a's first tick, and whether a is present there.
    start: usize,
    is_first: bool,
    a_at_start: bool,
    /// The tick at which c is looked at, nothing where it has not begun; its cell there, and that of the tick itself.
    read: Option<usize>,
    seen: Option<u32>,
    now: Option<u32>,
}

impl Look {
    /// By how many ticks c began before a; nothing where it has not begun.
    fn lag(&self) -> Option<usize> {
        Some(self.start - self.read?)
    }

    /// Whether the row has a value; nothing on a clash.
    fn holds(&self) -> Option<bool> {
        Some((self.seen? != 0) == self.truth)
    }

    /// Whether c at the tick itself would tell something else.
    fn is_held(&self) -> bool {
        self.seen.map(|value| value != 0) != self.now.map(|value| value != 0)
    }
}

/// Every look of a run, the one that clashed too; each row has what it has to have.
fn looks(plan: &Plan, outcome: &Outcome, ticks: usize) -> Vec<Look> {
    let (rows, flows) = (plan.words.as_chunks::<4>().0, plan.words.len() / 4);
    let (number, clashed, at, _) = outcome.parts;
    // The cells that were worked out, and the place of a row's clash.
    let (worked_out, clash) = match (number, at as usize * flows) {
        (34, first) if rows[clashed as usize][0] == 7 => (first + flows, None),
        (34, first) => (first + clashed as usize, Some(first + clashed as usize)),
        _ => (ticks * flows, None),
    };
    let cell = |flow: u32, tick: usize| {
        let place = tick * flows + flow as usize;
        (place < worked_out && outcome.bytes[place] == 1).then(|| outcome.words[place])
    };
    let first = |flow: u32| (0..ticks).find(|&tick| cell(flow, tick).is_some());
    let mut looks = Vec::new();
    for (flow, &[kind, a, c, w]) in rows.iter().enumerate().filter(|(_, row)| is_view(&row[..])) {
        let firsts = (first(a), first(c));
        for tick in (0..ticks).take_while(|tick| tick * flows + flow <= clash.unwrap_or(worked_out.max(1) - 1)) {
            let is_clash = clash == Some(tick * flows + flow);
            let (Some(value), (Some(s), r)) = (cell(a, tick), firsts) else {
                assert_eq!((is_clash, cell(flow as u32, tick)), (false, None), "tick {tick}, flow {flow}: {plan:?}");
                continue;
            };
            let start = s + (tick - s) / w as usize * w as usize;
            let read = r.filter(|&r| r <= tick).map(|r| start - s + r);
            let seen = read.filter(|&read| read <= tick).and_then(|read| cell(c, read));
            let (a_at_start, now) = (cell(a, start).is_some(), cell(c, tick));
            let look = Look { truth: kind == 17, tick, start, is_first: start == s, a_at_start, read, seen, now };
            assert_eq!(is_clash, look.holds().is_none(), "tick {tick}, flow {flow}: {plan:?}");
            let expected = look.holds().is_some_and(|holds| holds).then_some(value);
            assert_eq!(cell(flow as u32, tick), expected, "tick {tick}, flow {flow}: {plan:?}");
            looks.push(look);
        }
    }
    looks
}

/// A sort of things.
type Sort<T> = (&'static str, fn(&T) -> bool);

/// How often each of some sorts of things occurred.
struct Seen<T: 'static> {
    sorts: &'static [Sort<T>],
    counts: Vec<usize>,
}

impl<T> Seen<T> {
    fn new(sorts: &'static [Sort<T>]) -> Self {
        Seen { sorts, counts: vec![0; sorts.len()] }
    }

    fn add(&mut self, thing: &T) {
        for (count, (_, is)) in self.counts.iter_mut().zip(self.sorts) {
            *count += usize::from(is(thing));
        }
    }

    /// Every sort occurred more than so many times, but for some.
    fn assert_all(&self, times: usize, but: &[&str]) {
        for (count, (sort, _)) in self.counts.iter().zip(self.sorts).filter(|(_, (sort, _))| !but.contains(sort)) {
            assert!(*count > times, "{sort}: {count}");
        }
    }
}

/// The sorts of looks.
static LOOKS: [Sort<Look>; 14] = [
    ("when-seen, and it holds", |look| look.truth && look.holds() == Some(true)),
    ("when-seen, and it does not hold", |look| look.truth && look.holds() == Some(false)),
    ("when-not-seen, and it holds", |look| !look.truth && look.holds() == Some(true)),
    ("when-not-seen, and it does not hold", |look| !look.truth && look.holds() == Some(false)),
    ("at a's first tick, c beginning with it", |look| look.lag() == Some(0) && look.is_first),
    ("at a's first tick, c begun before", |look| look.lag() > Some(0) && look.is_first),
    ("at a later start, c begun with a", |look| look.lag() == Some(0) && !look.is_first && look.tick == look.start),
    ("at a later start, c begun before", |look| look.lag() > Some(0) && !look.is_first && look.tick == look.start),
    ("between starts, c at the tick itself being another", |look| look.tick > look.start && look.is_held()),
    ("at a start, c at the tick itself being another", |look| look.tick == look.start && look.is_held()),
    ("a absent at the start", |look| look.holds().is_some() && !look.a_at_start),
    ("a clash, c not begun", |look| look.read.is_none()),
    ("a clash, c begun with a", |look| look.lag() == Some(0) && look.seen.is_none()),
    ("a clash, c begun before", |look| look.lag() > Some(0) && look.seen.is_none()),
];

/// Those that no accepted plan has.
const REFUSED_LOOKS: [&str; 4] =
    ["a absent at the start", "a clash, c not begun", "a clash, c begun with a", "a clash, c begun before"];

/// A plan that the check accepts, with its clocks.
type Accepted = (Plan, Vec<Clock>);

/// Whether a plan has a row that passes a test over the clocks.
fn some(accepted: &Accepted, test: impl Fn([u32; 4], &dyn Fn(u32) -> Clock) -> bool) -> bool {
    let (plan, clocks) = accepted;
    plan.words.as_chunks::<4>().0.iter().any(|&row| test(row, &|flow| clocks[flow as usize].clone()))
}

/// Whether a plan has a view that passes a test: the clocks of a and c, and w.
fn some_view(accepted: &Accepted, test: impl Fn(Clock, Clock, u32) -> bool) -> bool {
    some(accepted, |row, clock| is_view(&row) && test(clock(row[1]), clock(row[2]), row[3]))
}

/// Whether a plan has a view of which the operand at a place, 1 or 2, is a row of a kind.
fn of_kind(accepted: &Accepted, place: usize, kind: u32) -> bool {
    some(accepted, |row, _| is_view(&row) && accepted.0.words[4 * row[place] as usize] == kind)
}

/// Whether the first condition of a clock is viewed.
fn is_viewed(clock: &Clock) -> bool {
    clock.conditions.first().is_some_and(|first| first.view > 0)
}

/// The sorts of accepted plans.
static ACCEPTED: [Sort<Accepted>; 21] = [
    ("w 1", |plan| some_view(plan, |_, _, w| w == 1)),
    ("w 4095", |plan| some_view(plan, |_, _, w| w == WRITTEN)),
    ("a period above c's", |plan| some_view(plan, |a, c, _| a.period > c.period)),
    ("a period below c's", |plan| some_view(plan, |a, c, _| a.period < c.period)),
    ("two periods of which neither is w", |plan| some_view(plan, |a, c, w| a.period.max(c.period) < w)),
    ("c begun before a", |plan| some_view(plan, |a, c, _| c.phase < a.phase)),
    ("a faster row seen", |plan| of_kind(plan, 2, 8)),
    ("a slower row seen", |plan| of_kind(plan, 2, 9)),
    ("a later row seen", |plan| of_kind(plan, 2, 10)),
    ("a tail seen", |plan| of_kind(plan, 2, 12)),
    ("a faster row under a view", |plan| of_kind(plan, 1, 8)),
    ("a slower row under a view", |plan| of_kind(plan, 1, 9)),
    ("a later row under a view", |plan| of_kind(plan, 1, 10)),
    ("a tail under a view", |plan| of_kind(plan, 1, 12)),
    ("a condition on top of a view", |plan| plan.1.iter().any(|clock| clock.conditions.len() == 2 && is_viewed(clock))),
    ("three conditions on top of a view", |plan| {
        plan.1.iter().any(|clock| clock.conditions.len() == 4 && is_viewed(clock))
    }),
    ("a merge, not under a view", |plan| some(plan, |row, clock| row[0] == 15 && !is_viewed(&clock(row[1])))),
    ("a merge under a view", |plan| some(plan, |row, clock| row[0] == 15 && is_viewed(&clock(row[1])))),
    ("two flows under one view", |plan| {
        some(plan, |row, clock| matches!(row[0], 2..=6) && row[1] != row[2] && is_viewed(&clock(row[1])))
    }),
    ("a register under a view", |plan| some(plan, |row, clock| row[0] == 7 && is_viewed(&clock(row[2])))),
    ("a register under a view, of another flow", |plan| {
        some(plan, |row, clock| row[0] == 7 && is_viewed(&clock(row[2])) && row[3] != row[2])
    }),
];

/// Accepted plans: the clocks that they were made to have, and runs that end.
#[test]
fn accepted_plans() {
    let mut rng = Rng::new(151);
    let (mut seen, mut looked, plans) = (Seen::new(&ACCEPTED), Seen::new(&LOOKS), rounds(40_000));
    for round in 0..plans {
        let (plan, clocks) = viewing(&mut rng, |rng| match round % 4 {
            0 => Shape { flows: 3 + rng.below(14), scale: WRITTEN, sampling: true },
            1 => Shape { flows: 17 + rng.below(24), scale: rng.pick(&[1, 2, 4]), sampling: true },
            _ => Shape::short(rng),
        });
        let checked = check(&ALL, &plan, CLOCK_WORDS * clocks.len());
        assert_eq!(checked.parts, (0, 0, 0, plan.count), "{plan:?}");
        assert!(words_are(&checked, &clocks.iter().flat_map(Clock::words).collect::<Vec<u32>>()), "{plan:?}");
        let ticks = rng.range(0, 60);
        let log = rng.log(ticks as usize * plan.inputs());
        let outcome = run_exactly(&FOUR, &plan, &log, ticks);
        assert_eq!(outcome.parts, (0, 0, 0, ticks), "{plan:?}");
        looks(&plan, &outcome, ticks as usize).iter().for_each(|look| looked.add(look));
        seen.add(&(plan, clocks));
    }
    seen.assert_all(plans / 1_000, &[]);
    looked.assert_all(plans / 10, &REFUSED_LOOKS);
}

/// A plan with views that need not fit: accepted and disturbed, with faults, or of any rows.
fn disturbed(rng: &mut Rng) -> Plan {
    match rng.below(8) {
        0 => any_rows(rng),
        1 => faulty(rng),
        2..=4 => any_views(rng),
        _ => {
            let (mut plan, _) = viewing(rng, Shape::short);
            (0..rng.pick(&[1, 1, 2, 3])).for_each(|_| disturb(rng, &mut plan));
            plan
        }
    }
}

/// Short runs of plans that are mostly refused: every look, and every clash.
#[test]
fn refused_plans_that_run() {
    let mut rng = Rng::new(152);
    let (mut looked, plans) = (Seen::new(&LOOKS), rounds(80_000));
    for _ in 0..plans {
        let plan = disturbed(&mut rng);
        let ticks = rng.range(1, 40);
        let log = rng.log(ticks as usize * plan.inputs());
        let outcome = run_exactly(&FOUR, &plan, &log, ticks);
        if matches!(outcome.parts.0, 0 | 34) {
            looks(&plan, &outcome, ticks as usize).iter().for_each(|look| looked.add(look));
        }
    }
    looked.assert_all(plans / 200, &[]);
}

/// A view that the check refuses: the number, w, and the clock words of a and c.
struct Refusal {
    number: u32,
    w: u32,
    a: Vec<u32>,
    c: Vec<u32>,
}

impl Refusal {
    /// Whether w is not a multiple of a's period, nor of c's, and whether c begins after a.
    fn breaks(&self) -> [bool; 3] {
        [!self.w.is_multiple_of(self.a[0]), !self.w.is_multiple_of(self.c[0]), self.c[1] > self.a[1]]
    }

    /// Whether the operands have conditions, a and c.
    fn conditions(&self) -> [bool; 2] {
        [self.a[2] > 0, self.c[2] > 0]
    }
}

/// The sorts of refusals.
static REFUSALS: [Sort<Refusal>; 9] = [
    ("40, for a's period alone", |view| view.number == 40 && view.breaks() == [true, false, false]),
    ("40, for c's period alone", |view| view.number == 40 && view.breaks() == [false, true, false]),
    ("40, for the phases alone", |view| view.number == 40 && view.breaks() == [false, false, true]),
    ("23, for a alone", |view| view.conditions() == [true, false]),
    ("23, for c alone", |view| view.conditions() == [false, true]),
    ("23, for both", |view| view.conditions() == [true, true]),
    ("23, and the rule broken", |view| view.number == 23 && view.breaks() != [false; 3]),
    ("a view of what is under a view", |view| view.number == 23 && view.a[7] > 0),
    ("what is under a view seen", |view| view.number == 23 && view.c[7] > 0),
];

/// The clock words of the flows below one that the check refuses: their rows alone, each register its own source.
fn clocks_below(plan: &Plan, flow: u32) -> Vec<u32> {
    let mut below = Plan { count: flow, words: plan.words[..4 * flow as usize].to_vec() };
    below.words.chunks_exact_mut(4).zip(0..).filter(|(row, _)| row[0] == 7).for_each(|(row, flow)| row[3] = flow);
    let clocks = check(&ALL, &below, CLOCK_WORDS * flow as usize);
    assert_eq!(clocks.parts, (0, 0, 0, flow), "{plan:?}");
    clocks.words
}

/// The number that the check has to answer at a view, if it gets there; and what it leaves.
#[test]
fn refused_plans() {
    let mut rng = Rng::new(153);
    let (mut seen, plans) = (Seen::new(&REFUSALS), rounds(80_000));
    for _ in 0..plans {
        let plan = disturbed(&mut rng);
        let outcome = check(&ALL, &plan, CLOCK_WORDS * plan.words.len() / 4);
        let (number, flow, ..) = outcome.parts;
        assert!(number == 0 || outcome.is_untouched(), "{plan:?}");
        let Some(&[_, a, c, w]) = plan.words.as_chunks::<4>().0.get(flow as usize).filter(|row| is_view(&row[..]))
        else {
            assert_ne!(number, 40, "{plan:?}");
            continue;
        };
        if matches!(number, 21..=23 | 40) {
            let clocks = clocks_below(&plan, flow);
            let [a, c] = [a, c].map(|flow| clocks[CLOCK_WORDS * flow as usize..][..CLOCK_WORDS].to_vec());
            let view = Refusal { number, w, a, c };
            assert_eq!(number, if view.conditions() == [false; 2] { 40 } else { 23 }, "{plan:?}");
            assert!(number == 23 || view.breaks() != [false; 3], "{plan:?}");
            seen.add(&view);
        }
    }
    seen.assert_all(plans / 400, &[]);
}

/// A view of period 1 beside a when of the same flows: at each tick they are the same, and yet their clocks differ.
#[test]
fn beside_when() {
    let mut rng = Rng::new(154);
    let (mut tried, plans) = (0, rounds(4_000));
    for _ in 0..plans {
        let flows = 2 + rng.below(20);
        let (mut plan, clocks) = accepted(&mut rng, Shape { flows, scale: 1, sampling: true });
        let is_tick = |clock: &Clock| clock.period == 1 && clock.conditions.is_empty();
        let is_when = |row: &[u32]| matches!(row[0], 13 | 14) && is_tick(&clocks[row[2] as usize]);
        let Some(when) = rng.pick_where(flows, |flow| is_when(&plan.words[4 * flow..][..4])) else { continue };
        let [kind, a, c, _] = plan.words.as_chunks::<4>().0[when];
        plan.words.extend([kind + 4, a, c, 1]);
        plan.count += 1;
        let (when, view) = (when as u32, flows as u32);
        let views = check(&ALL, &plan, CLOCK_WORDS * (flows + 1));
        assert_eq!(views.parts, (0, 0, 0, plan.count), "{plan:?}");
        assert_eq!(views.words[CLOCK_WORDS * flows + 7..][..4], [1, 0, 0, 0], "{plan:?}");
        let met = rng.pick(&[[2, when, view, 0], [5, view, when, 0], [13, when, view, 0], [7, 5, view, when]]);
        plan.words.extend(met);
        plan.count += 1;
        assert_eq!(check(&ALL, &plan, CLOCK_WORDS * (flows + 2)).parts, (21, view + 1, 0, 0), "{plan:?}");
        let log = rng.log(30 * plan.inputs());
        let outcome = run_exactly(&FOUR, &plan, &log, 30);
        assert_eq!(outcome.parts, (0, 0, 0, 30), "{plan:?}");
        for first in (0..30).map(|tick| tick * (flows + 2)) {
            let (when, view) = (first + when as usize, first + view as usize);
            assert_eq!(outcome.bytes[when], outcome.bytes[view], "{plan:?}");
            assert_eq!(outcome.words[when], outcome.words[view], "{plan:?}");
        }
        tried += 1;
    }
    assert!(tried > plans / 2, "{tried} of {plans}");
}

/// Long runs of accepted plans, some times round the window; and looks back over the window's edge.
#[test]
fn long_runs() {
    let mut rng = Rng::new(155);
    let (mut looked, mut over, plans) = (Seen::new(&LOOKS), 0, rounds(20));
    for _ in 0..plans {
        let (plan, _) = viewing(&mut rng, Shape::long);
        let ticks = rng.range(131_073, 400_000);
        let log = rng.log(ticks as usize * plan.inputs());
        let trace = ends(&THREE, &plan, &log, ticks);
        for look in looks(&plan, &trace, ticks as usize) {
            over += usize::from(look.read.is_some_and(|read| read / WINDOW < look.start / WINDOW));
            looked.add(&look);
        }
    }
    looked.assert_all(plans, &REFUSED_LOOKS);
    assert!(over > plans, "{over} looks over the edge");
}
