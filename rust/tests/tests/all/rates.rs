//! Rates filled in on random plans, against all fillings within small limits, and up to 64 flows.

use reference::{fill_rates_within, Limits};
use tests::compare::{check, fill_rates, words_are, Outcome};
use tests::faults::{any_rows, break_clocks, plant, FIELDS};
use tests::generate::{accepted, erase_rates, Shape};
use tests::implementation::{Implementation, ALL, LIBRARY, QUICK};
use tests::rng::Rng;
use tests::tally::Tally;
use tests::{is_view, rounds, Plan, CLOCK_WORDS, WRITTEN};

/// An input without a rate.
pub const OPEN: [u32; 4] = [16, 0, 0, 0];

/// The flows of a plan's open rows.
fn open_flows(plan: &Plan) -> impl Iterator<Item = usize> + '_ {
    plan.words.chunks_exact(4).enumerate().filter(|(_, row)| **row == OPEN).map(|(flow, _)| flow)
}

/// The flows that a row joins with its result: all that it names, but of a view not the one that is seen.
fn joins(row: &[u32]) -> impl Iterator<Item = usize> + '_ {
    let of_kind = if is_view(row) { "f" } else { FIELDS[row[0] as usize] };
    of_kind.char_indices().filter(|(_, sort)| "fs".contains(*sort)).map(|(place, _)| row[1 + place] as usize)
}

/// For each flow a number that it has in common with exactly those to which chains join it.
fn chains(plan: &Plan) -> Vec<usize> {
    let mut chain: Vec<usize> = (0..plan.words.len() / 4).collect();
    for (flow, row) in plan.words.chunks(4).enumerate() {
        for other in joins(row) {
            let (old, new) = (chain[other], chain[flow]);
            chain.iter_mut().filter(|chain| **chain == old).for_each(|chain| *chain = new);
        }
    }
    chain
}

/// The lowest flow that no chain joins to a rated one.
fn lowest_unjoined(plan: &Plan) -> Option<usize> {
    let chain = chains(plan);
    let is_rated = |flow: usize| plan.words[4 * flow] <= 1;
    (0..chain.len()).find(|&flow| !(0..chain.len()).any(|other| chain[other] == chain[flow] && is_rated(other)))
}

/// What the call made of a plan that is a table, with room for all of it.
pub struct Filled {
    pub plan: Plan,
    pub number: u32,
    /// The plan filled in, if it was.
    pub filled: Option<Plan>,
}

/// All that can be said of an answer without another implementation that gives one. Nothing where the plan is no table.
fn facts(plan: &Plan, outcome: &Outcome) -> Option<Filled> {
    let (number, flow, tick, count) = outcome.parts;
    let known = |number| Some(Filled { plan: plan.clone(), number, filled: None });
    assert!(number == 0 || (tick, count) == (0, 0) && outcome.is_untouched(), "{plan:?}");
    if matches!(number, 11..=15) {
        return None;
    }
    if let Some(lowest) = lowest_unjoined(plan) {
        assert_eq!((number, flow as usize), (39, lowest), "{plan:?}");
        // A row with operands is joined to a lower flow: so it is one of those without a rate.
        assert_eq!(plan.words[4 * lowest..][..4], OPEN, "{plan:?}");
        return known(39);
    }
    if number != 0 {
        assert_eq!((number, flow), (21, 0), "{plan:?}");
        return known(21);
    }
    // Open rows are inputs now, everything else is as it was, and the check accepts it.
    let flows = plan.words.len() / 4;
    assert_eq!((flow, tick, count as usize), (0, 0, flows), "{plan:?}");
    let mut filled = plan.clone();
    for flow in open_flows(plan) {
        let (period, phase) = (outcome.words[4 * flow + 1], outcome.words[4 * flow + 2]);
        filled.words[4 * flow..][..4].copy_from_slice(&[0, period, phase, 0]);
    }
    assert!(words_are(outcome, &filled.words), "{plan:?}: {:?}", outcome.words);
    assert_eq!(check(&[&LIBRARY], &filled, CLOCK_WORDS * flows).parts, (0, 0, 0, count), "{plan:?}: {filled:?}");
    Some(Filled { plan: plan.clone(), number, filled: Some(filled) })
}

/// Compares the implementations on a plan with room for all of it.
pub fn fill(of: &[&Implementation], plan: &Plan) -> Option<Filled> {
    facts(plan, &fill_rates(of, plan, plan.words.len()))
}

/// All fillings within some limits agree with an answer for the limits of written fields: the filling is found if it is
/// within them, and otherwise there is none. That there are not two is part of the trial. Gives whether it was found.
pub fn all_fillings_agree(limits: Limits, answer: &Filled) -> bool {
    let Filled { plan, number, filled } = answer;
    let mut words = plan.words.clone();
    let tried = fill_rates_within(limits, plan.count, &plan.words, &mut words);
    let is_within = |filled: &Plan| {
        open_flows(plan)
            .all(|flow| filled.words[4 * flow + 1] <= limits.period && filled.words[4 * flow + 2] <= limits.phase)
    };
    match filled {
        Some(filled) if is_within(filled) => {
            assert_eq!((tried.number, &words), (0, &filled.words), "{plan:?}");
        }
        Some(_) => assert_eq!((tried.number, tried.flow), (21, 0), "{plan:?}"),
        None => assert_eq!(tried.number, *number, "{plan:?}"),
    }
    tried.number == 0
}

/// An answer of some sort.
type Sort = (&'static str, fn(&Filled) -> bool);

/// How many open rows it had.
fn open(filled: &Filled) -> usize {
    open_flows(&filled.plan).count()
}

/// Whether the plan was filled in with rates of which one passes a test over the written ones.
fn some_rate(filled: &Filled, test: impl Fn((u32, u32), &[(u32, u32)]) -> bool) -> bool {
    let Some(table) = &filled.filled else { return false };
    let written: Vec<(u32, u32)> = (filled.plan.words.chunks(4))
        .filter_map(|row| match row[0] {
            0 => Some((row[1], row[2])),
            1 => Some((row[2], row[3])),
            _ => None,
        })
        .collect();
    open_flows(&filled.plan).any(|flow| test((table.words[4 * flow + 1], table.words[4 * flow + 2]), &written))
}

/// Whether the plan was refused for the rule of a view: with later rows of no ticks in place of its views it is filled in,
/// and with the views in that again the check answers 40.
fn breaks_a_view(filled: &Filled) -> bool {
    if filled.number != 21 || !filled.plan.has_views() {
        return false;
    }
    let mut plan = filled.plan.clone();
    plan.words.chunks_exact_mut(4).filter(|row| is_view(row)).for_each(|row| row.copy_from_slice(&[10, row[1], 0, 0]));
    let outcome = fill_rates(&[&LIBRARY], &plan, plan.words.len());
    let rows = filled.plan.words.chunks_exact(4).zip(outcome.words.chunks_exact(4));
    plan.words = rows.flat_map(|(row, filled)| if is_view(row) { row } else { filled }).copied().collect();
    outcome.parts.0 == 0 && check(&[&LIBRARY], &plan, 64 * CLOCK_WORDS).parts.0 == 40
}

/// Whether a view of the plan has a flow that is open as its operand at a place, 1 or 2.
fn some_view(filled: &Filled, place: usize) -> bool {
    let mut views = filled.plan.words.chunks(4).filter(|row| is_view(row));
    views.any(|row| filled.plan.words[4 * row[place] as usize..][..4] == OPEN)
}

/// The sorts that have to occur.
static SORTS: [Sort; 15] = [
    ("filled in", |filled| filled.filled.is_some() && open(filled) > 0),
    ("filled in, two rows", |filled| filled.filled.is_some() && open(filled) == 2),
    ("filled in, three rows and more", |filled| filled.filled.is_some() && open(filled) >= 3),
    ("nothing to fill in", |filled| filled.filled.is_some() && open(filled) == 0),
    ("a rate that is written nowhere", |filled| some_rate(filled, |rate, written| !written.contains(&rate))),
    ("a period above all written ones", |filled| {
        some_rate(filled, |(period, _), written| written.iter().all(|rate| rate.0 < period))
    }),
    ("a period below all written ones", |filled| {
        some_rate(filled, |(period, _), written| written.iter().all(|rate| rate.0 > period))
    }),
    ("a phase above all written ones", |filled| {
        some_rate(filled, |(_, phase), written| written.iter().all(|rate| rate.1 < phase))
    }),
    ("a phase below all written ones", |filled| {
        some_rate(filled, |(_, phase), written| written.iter().all(|rate| rate.1 > phase))
    }),
    ("no filling", |filled| filled.number == 21 && open(filled) > 0),
    ("nothing to fill in, and refused", |filled| filled.number == 21 && open(filled) == 0),
    ("not joined", |filled| filled.number == 39),
    ("filled in under a view", |filled| filled.filled.is_some() && some_view(filled, 1)),
    ("filled in and seen", |filled| filled.filled.is_some() && some_view(filled, 2)),
    ("no filling, for a view's rule", |filled| open(filled) > 0 && breaks_a_view(filled)),
];

/// Those of them that need views.
pub const OF_VIEWS: [&str; 3] = ["filled in under a view", "filled in and seen", "no filling, for a view's rule"];

/// How often each sort of answer occurred.
#[derive(Default)]
pub struct Seen {
    pub plans: usize,
    sorts: [usize; SORTS.len()],
}

impl Seen {
    pub fn add(&mut self, filled: &Filled) {
        self.plans += 1;
        for (seen, (_, is)) in self.sorts.iter_mut().zip(&SORTS) {
            *seen += usize::from(is(filled));
        }
    }

    /// Every sort occurred, but for some, once in so many plans.
    pub fn assert_all(&self, one_in: usize, but: &[&str]) {
        for (seen, (sort, _)) in self.sorts.iter().zip(&SORTS).filter(|(_, (sort, _))| !but.contains(sort)) {
            assert!(*seen > self.plans / one_in, "{sort}: {seen} of {} plans", self.plans);
        }
    }
}

/// A sound plan of up to so many flows, most constants made inputs. Mostly rows are added that join flows on one clock.
fn sound(rng: &mut Rng, most: usize) -> Plan {
    let (flows, is_joined) = (1 + rng.below(most), rng.percent(80));
    let shape = Shape { flows, scale: rng.pick(&[1, 2, 4, 12, WRITTEN]), sampling: rng.percent(50) };
    let (mut plan, mut clocks) = accepted(rng, shape);
    for row in plan.words.chunks_exact_mut(4).filter(|row| row[0] == 1 && rng.percent(80)) {
        row.copy_from_slice(&[0, row[2], row[3], 0]);
    }
    let mut chain = chains(&plan);
    for (a, b) in (0..flows).flat_map(|a| (0..a).map(move |b| (a, b))).filter(|_| is_joined) {
        if clocks.len() < most && clocks[a] == clocks[b] && chain[a] != chain[b] {
            let (old, new, a_word, b_word) = (chain[a], chain[b], a as u32, b as u32);
            plan.words.extend(rng.pick(&[[2, a_word, b_word, 0], [7, 9, a_word, b_word], [7, 9, b_word, a_word]]));
            plan.count += 1;
            clocks.push(clocks[a].clone());
            chain.push(new);
            chain.iter_mut().filter(|chain| **chain == old).for_each(|chain| *chain = new);
        }
    }
    plan
}

/// A sound plan of up to so many flows, and the same with some rates erased: as many as can be, or fewer, so that each
/// flow is still joined to a rated one.
pub fn erased(rng: &mut Rng, most: usize) -> (Plan, Plan) {
    let sound = sound(rng, most);
    let mut plan = sound.clone();
    let chances = rng.pick(&[20, 60, 100]);
    erase_rates(rng, &mut plan, chances);
    while let Some(flow) = lowest_unjoined(&plan) {
        plan.words[4 * flow..][..4].copy_from_slice(&sound.words[4 * flow..][..4]);
    }
    (sound, plan)
}

/// A sound plan of up to so many flows, at least four: rows one over the other, and a sum of the last with an input on its
/// clock; and the same with the first or the last rate erased, so that the way is all of the plan, upwards or downwards.
fn chain(rng: &mut Rng, most: usize) -> (Plan, Plan) {
    let flows = 4 + rng.below(most - 3) as u32;
    let (mut period, mut phase) = (rng.pick(&[1, 2, 6, 24, 60, 720, 2520]), rng.range(0, 40));
    let mut rows = vec![[0, period, phase, 0]];
    for flow in 1..flows - 2 {
        let (a, k, d) = (flow - 1, rng.range(1, 4), rng.range(0, 60));
        let row = match rng.below(8) {
            0 if period.is_multiple_of(k) => [8, a, k, period / k],
            1 if period * k <= WRITTEN => [9, a, k, 0],
            2 | 3 if phase + d <= WRITTEN => [10, a, d, 0],
            4 | 5 if phase >= period => [11, a, 9, phase - period],
            6 if phase + period <= WRITTEN => [12, a, 0, 0],
            7 => [7, 9, a, flow],
            _ => [2, a, a, 0],
        };
        (period, phase) = match row[0] {
            8 => (row[3], phase),
            9 => (period * k, phase),
            10 => (period, phase + d),
            11 => (period, row[3]),
            12 => (period, phase + period),
            _ => (period, phase),
        };
        rows.push(row);
    }
    rows.extend([[0, period, phase, 0], [2, flows - 3, flows - 2, 0]]);
    let sound = Plan::of(&rows);
    rows[rng.pick(&[0, flows as usize - 2])] = OPEN;
    (sound, Plan::of(&rows))
}

/// An accepted plan is what comes back when rates of it are erased and each flow is still joined to a rated one.
fn comes_back(of: &[&Implementation], (sound, plan): (Plan, Plan)) -> Filled {
    let filled = fill(of, &plan).expect("a table");
    assert_eq!(filled.filled, Some(sound), "{plan:?}");
    filled
}

/// Accepted plans of up to 64 flows come back, and so do long chains.
#[test]
fn erased_rates_come_back() {
    let mut rng = Rng::new(141);
    let mut seen = Seen::default();
    for _ in 0..rounds(30_000) {
        let most = rng.pick(&[6, 16, 64]);
        seen.add(&comes_back(&QUICK, erased(&mut rng, most)));
        seen.add(&comes_back(&QUICK, chain(&mut rng, 64)));
    }
    let refused = ["no filling", "nothing to fill in, and refused", "not joined", "no filling, for a view's rule"];
    seen.assert_all(200, &refused);
    for _ in 0..rounds(3_000) {
        comes_back(&ALL, erased(&mut rng, 24));
        comes_back(&ALL, chain(&mut rng, 64));
    }
}

/// A plan with open rows that was sound, and is broken or not joined, or now and then still sound.
fn broken(rng: &mut Rng, most: usize) -> Plan {
    let (_, mut plan) = if rng.percent(30) { chain(rng, most) } else { erased(rng, most) };
    match rng.below(8) {
        0 => {}
        1 => erase_rates(rng, &mut plan, 20),
        _ => break_clocks(rng, &mut plan),
    }
    plan
}

/// Random plans with few open rows, against all fillings within limits that leave some thousands of them.
#[test]
fn random_plans_against_all_fillings() {
    let mut rng = Rng::new(142);
    let (mut seen, mut found) = (Seen::default(), 0);
    for round in 0..rounds(40_000) {
        let plan = match round % 4 {
            0 => chain(&mut rng, 8).1,
            1 => erased(&mut rng, 12).1,
            _ => broken(&mut rng, 12),
        };
        let most = match open_flows(&plan).count() {
            0 | 1 => 30,
            2 => 6,
            3 => 2,
            4..=6 => 1,
            _ => continue,
        };
        // Now and then it is no table any more.
        if let Some(filled) = fill(&ALL, &plan) {
            let is_found = all_fillings_agree(Limits { period: most, phase: most }, &filled);
            seen.add(&filled);
            found += usize::from(is_found && open(&filled) > 0);
        }
    }
    seen.assert_all(500, &[]);
    let beyond = seen.sorts[0] - found;
    assert!(found > seen.plans / 20 && beyond > seen.plans / 20, "{found} within the limits, {beyond} beyond them");
}

/// Random plans of up to 64 flows, against the paper and the quick implementation.
#[test]
fn random_plans_up_to_64_flows() {
    let mut rng = Rng::new(143);
    let mut seen = Seen::default();
    for round in 0..rounds(40_000) {
        let plan = if round % 8 == 0 { any_rows(&mut rng) } else { broken(&mut rng, 64) };
        let Some(filled) = fill(if round % 4 == 0 { &ALL } else { &QUICK }, &plan) else { continue };
        if let Some(plan) = &filled.filled {
            // Once filled in there is nothing left to fill in.
            assert_eq!(fill(&[&LIBRARY], plan).and_then(|again| again.filled).as_ref(), Some(plan));
        }
        seen.add(&filled);
    }
    seen.assert_all(300, &[]);
}

/// Plans with faults of all sorts, and rooms of any length.
#[test]
fn damaged_plans() {
    let mut rng = Rng::new(144);
    let mut tally = Tally::default();
    let plans = rounds(60_000);
    for _ in 0..plans {
        let mut plan = if rng.percent(50) { erased(&mut rng, 24).1 } else { broken(&mut rng, 24) };
        if rng.percent(60) {
            plant(&mut rng, &mut plan);
        }
        let outcome = fill_rates(&ALL, &plan, rng.around(plan.words.len()));
        tally.add("fill rates", outcome.parts.0);
        assert!(outcome.parts.0 == 0 || outcome.is_untouched(), "{plan:?}");
    }
    for number in [0, 10, 11, 13, 14, 15, 21, 39] {
        assert!(tally.count("fill rates", number) > plans / 100, "number {number} occurs: {tally}");
    }
}
