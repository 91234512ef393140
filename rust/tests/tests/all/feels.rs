//! The inputs that flows feel: of every plan of few rows, of random plans up to 64 flows, and what each place of a row
//! adds to them.

use std::ops::RangeInclusive;

use tests::compare::{check, felt_inputs, sets_are};
use tests::faults::{any_rows, any_views, beyond, break_clocks, plant, FIELDS};
use tests::generate::{accepted, erase_rates, Shape};
use tests::implementation::{Implementation, ALL, LIBRARY};
use tests::rng::Rng;
use tests::tally::Tally;
use tests::{rounds, Plan, CLOCK_WORDS, WRITTEN};

use crate::parts::{every_plan, of_several};
use crate::short::{faulty, sound};

/// A step from a flow to one that feels what it feels: the row of that one names it at a place, or a condition of that
/// one's clock is about it, in which case the place is 0.
pub struct Step {
    kind: u32,
    place: usize,
    from: usize,
    to: usize,
}

/// A plan that the check accepts, and the inputs that its flows feel.
pub struct Felt {
    pub plan: Plan,
    /// The words of its clocks.
    pub clocks: Vec<u32>,
    pub sets: Vec<u64>,
    steps: Vec<Step>,
}

impl Felt {
    fn new(plan: &Plan, clocks: &[u32], sets: &[u64]) -> Self {
        let mut steps = Vec::new();
        for (to, (row, clock)) in plan.words.chunks(4).zip(clocks.chunks(CLOCK_WORDS)).enumerate() {
            let named = FIELDS[row[0] as usize].char_indices().filter(|(_, sort)| "fs".contains(*sort));
            let named = named.map(|(place, _)| (1 + place, row[1 + place]));
            let conditions = clock[3..].iter().take(clock[2] as usize).map(|word| (0, word / 2));
            let from = named.chain(conditions);
            steps.extend(from.map(|(place, from)| Step { kind: row[0], place, from: from as usize, to }));
        }
        Felt { plan: plan.clone(), clocks: clocks.to_vec(), sets: sets.to_vec(), steps }
    }

    /// The flows whose rows pass a test.
    fn flows_of(&self, test: impl Fn(&[u32]) -> bool) -> u64 {
        self.plan.words.chunks(4).enumerate().filter(|(_, row)| test(row)).map(|(flow, _)| 1 << flow).sum()
    }

    /// Its inputs.
    pub fn inputs(&self) -> u64 {
        self.flows_of(|row| row[0] == 0)
    }

    /// For each flow those of some others from which it can be reached by so many steps of some sort.
    fn reached(&self, others: u64, steps: usize, is_taken: impl Fn(&Step) -> bool) -> Vec<u64> {
        let mut sets: Vec<u64> = (0..self.sets.len()).map(|flow| others & 1 << flow).collect();
        for _ in 0..steps {
            let before = sets.clone();
            for step in self.steps.iter().filter(|step| is_taken(step)) {
                sets[step.to] |= before[step.from];
            }
            if sets == before {
                break;
            }
        }
        sets
    }

    /// Whether it would have other sets if steps of some sort were left out.
    fn needs(&self, is_left_out: impl Fn(&Step) -> bool) -> bool {
        self.reached(self.inputs(), 64, |step| !is_left_out(step)) != self.sets
    }

    /// Whether it would have other sets if those places of kinds were left out.
    fn needs_place(&self, kinds: RangeInclusive<u32>, place: usize) -> bool {
        self.needs(|step| kinds.contains(&step.kind) && step.place == place)
    }

    /// Whether it would have other sets if the c of those kinds were left out, as operand and in every clock.
    fn needs_condition(&self, kinds: RangeInclusive<u32>) -> bool {
        self.needs(|step| step.place == 0 || kinds.contains(&step.kind) && step.place == 2)
    }

    /// How many registers are in one loop, at the most: those that a register can be reached from, and that can be
    /// reached from it, where its source is one of what it feeds.
    fn looped(&self) -> usize {
        let registers = self.flows_of(|row| row[0] == 7);
        let reached = self.reached(u64::MAX, 64, |_| true);
        let is_fed_by = |flow: usize, other: usize| reached[flow] >> other & 1 == 1;
        let fed_back =
            self.steps.iter().filter(|step| (step.kind, step.place) == (7, 3) && is_fed_by(step.from, step.to));
        let in_one = |flow: usize, other: usize| is_fed_by(flow, other) && is_fed_by(other, flow);
        let size =
            |flow| (0..reached.len()).filter(|&other| registers >> other & 1 == 1 && in_one(flow, other)).count();
        fed_back.map(|step| size(step.to)).max().unwrap_or(0)
    }

    /// Whether some set passes a test.
    fn some(&self, test: impl Fn(u64) -> bool) -> bool {
        self.sets.iter().any(|&set| test(set))
    }
}

/// Compares the implementations on a plan with room for all of it. Gives what its flows feel if the check accepts it:
/// the sets are what all steps together reach.
///
/// No plan is known in which conditions add to what rows name: each is about the c of a row further down. The other way
/// round, the c of a row adds nothing to conditions: that of a sample or a view is in its own clock, that of a merge in
/// the clocks of both branches.
pub fn felt(of: &[&Implementation], plan: &Plan) -> Option<Felt> {
    let flows = plan.words.len() / 4;
    let checked = check(&[&LIBRARY], plan, CLOCK_WORDS * flows);
    let outcome = felt_inputs(of, plan, flows);
    assert_eq!(outcome.parts, checked.parts, "{plan:?}");
    if checked.parts.0 != 0 {
        assert!(outcome.is_untouched(), "{plan:?}");
        return None;
    }
    let felt = Felt::new(plan, &checked.words[..CLOCK_WORDS * flows], &outcome.sets[..flows]);
    assert!(sets_are(&outcome, &felt.reached(felt.inputs(), 64, |_| true)), "{plan:?}: {:?}", outcome.sets);
    assert!(!felt.needs(|step| step.place == 0), "conditions: {plan:?}");
    let is_c = |step: &Step| matches!((step.kind, step.place), (13 | 14 | 17 | 18, 2) | (15, 1));
    assert!(!felt.needs(is_c), "the c of rows: {plan:?}");
    Some(felt)
}

/// Rooms around what the plan needs.
fn rooms(rng: &mut Rng, of: &[&Implementation], felt: &Felt) {
    let flows = felt.sets.len();
    for len in [rng.below(flows), flows - 1, flows + 1, flows + 1 + rng.below(80)] {
        let outcome = felt_inputs(of, &felt.plan, len);
        let (number, count, sets) = if len < flows { (10, 0, &[][..]) } else { (0, flows, &felt.sets[..]) };
        assert_eq!(outcome.parts, (number, 0, 0, count as u32), "{:?} into {len} sets", felt.plan);
        assert!(sets_are(&outcome, sets), "{:?} into {len} sets", felt.plan);
    }
}

/// A plan of some sort.
type Sort = (&'static str, fn(&Felt) -> bool);

/// The sorts that have to occur.
static SORTS: [Sort; 26] = [
    ("an input through the first of two operands alone", |felt| felt.needs_place(2..=6, 1)),
    ("an input through the second of two operands alone", |felt| felt.needs_place(2..=6, 2)),
    ("an input through a beat alone", |felt| felt.needs_place(7..=7, 2)),
    ("an input through a source alone", |felt| felt.needs_place(7..=7, 3)),
    ("an input through a later source alone", |felt| felt.needs(|step| step.place == 3 && step.from > step.to)),
    ("an input through a moved flow alone", |felt| felt.needs_place(8..=12, 1)),
    ("an input through a sampled flow alone", |felt| felt.needs_place(13..=14, 1)),
    ("an input through what it is sampled by alone", |felt| felt.needs_condition(13..=14)),
    ("an input through a merge's first branch alone", |felt| felt.needs_place(15..=15, 2)),
    ("an input through a merge's second branch alone", |felt| felt.needs_place(15..=15, 3)),
    ("an input through a flow under a view alone", |felt| felt.needs_place(17..=18, 1)),
    ("an input through a flow that is seen alone", |felt| felt.needs_condition(17..=18)),
    ("more than one step", |felt| felt.reached(felt.inputs(), 1, |_| true) != felt.sets),
    ("more than two steps", |felt| felt.reached(felt.inputs(), 2, |_| true) != felt.sets),
    ("more than ten steps", |felt| felt.reached(felt.inputs(), 10, |_| true) != felt.sets),
    ("a register that feeds itself", |felt| felt.looped() == 1),
    ("two registers in a loop", |felt| felt.looped() == 2),
    ("five registers and more in a loop", |felt| felt.looped() >= 5),
    ("nothing felt at all", |felt| !felt.some(|set| set != 0)),
    ("nothing felt by a flow, in a plan with inputs", |felt| felt.inputs() != 0 && felt.some(|set| set == 0)),
    ("all felt by a flow, of two inputs", |felt| {
        felt.inputs().count_ones() == 2 && felt.some(|set| set == felt.inputs())
    }),
    ("all felt by a flow, of four inputs and more", |felt| {
        felt.inputs().count_ones() >= 4 && felt.some(|set| set == felt.inputs())
    }),
    ("eight inputs and more felt by a flow", |felt| felt.some(|set| set.count_ones() >= 8)),
    ("an input above flow 31 felt by another flow", |felt| {
        felt.sets.iter().enumerate().any(|(flow, set)| set & !(1 << flow) & u64::MAX << 32 != 0)
    }),
    ("the last bit", |felt| felt.some(|set| set >> 63 == 1)),
    ("64 flows", |felt| felt.sets.len() == 64),
];

/// Those of them that no plan of four rows has.
const LARGE: [&str; 9] = [
    "an input through a merge's first branch alone",
    "an input through a merge's second branch alone",
    "more than ten steps",
    "five registers and more in a loop",
    "all felt by a flow, of four inputs and more",
    "eight inputs and more felt by a flow",
    "an input above flow 31 felt by another flow",
    "the last bit",
    "64 flows",
];

/// How often each sort of plan occurred.
#[derive(Default)]
struct Seen {
    plans: usize,
    accepted: usize,
    sorts: [usize; SORTS.len()],
}

impl Seen {
    fn add(&mut self, felt: &Option<Felt>) {
        self.plans += 1;
        if let Some(felt) = felt {
            self.accepted += 1;
            for (seen, (_, is)) in self.sorts.iter_mut().zip(&SORTS) {
                *seen += usize::from(is(felt));
            }
        }
    }

    /// A fifth of the plans is accepted, and of these every sort occurred, but for some, once in so many.
    fn assert_all(&self, one_in: usize, but: &[&str]) {
        assert!(self.accepted > self.plans / 5, "{} of {} plans", self.accepted, self.plans);
        for (seen, (sort, _)) in self.sorts.iter().zip(&SORTS).filter(|(_, (sort, _))| !but.contains(sort)) {
            assert!(*seen > self.accepted / one_in, "{sort}: {seen} of {} accepted plans", self.accepted);
        }
    }
}

/// All rows over lower flows, with two inputs and a constant, and one choice of copies, delays and ticks.
fn any_kind(flow: u32, count: u32) -> Vec<[u32; 4]> {
    let mut rows = vec![[0, 1, 0, 0], [0, 3, 0, 0], [1, 5, 1, 0]];
    for a in 0..flow {
        rows.extend([[9, a, 3, 0], [10, a, 1, 0], [12, a, 0, 0]]);
        rows.extend(of_several(a, flow, count));
    }
    rows
}

/// Every plan of up to four rows of any kind.
#[test]
fn every_plan_of_four_rows() {
    let mut seen = Seen::default();
    for count in 1..=4 {
        every_plan(count, any_kind, &mut Vec::new(), &mut |plan| seen.add(&felt(&ALL, plan)));
    }
    assert_eq!(seen.plans, 3 + 3 * 14 + 3 * 15 * 43 + 3 * 16 * 45 * 96);
    seen.assert_all(20_000, &LARGE);
}

/// Inputs, constants, registers with any sources, sums and samples, all of them at every tick; often one over the
/// other, and a source often the next flow.
pub fn looped(rng: &mut Rng, most: usize) -> Plan {
    let flows = if rng.percent(20) { most } else { 1 + rng.below(most) } as u32;
    let (sources, registers, chained) = (rng.pick(&[5, 20, 50]), rng.pick(&[10, 40, 90]), rng.pick(&[10, 50, 90]));
    let mut rows = vec![rng.pick(&[[0, 1, 0, 0], [1, 5, 1, 0]])];
    // The flows without conditions, and the last one that is no input or constant.
    let (mut plain, mut last) = (vec![0], 0);
    for flow in 1..flows {
        let [a, b] =
            [last, plain[plain.len() - 1]].map(|next| if rng.percent(chained) { next } else { rng.pick(&plain) });
        let row = match rng.below(100) {
            place if place < sources => rng.pick(&[[0, 1, 0, 0], [0, 1, 0, 0], [1, 5, 1, 0]]),
            _ if rng.percent(registers) => [7, rng.value(), a, flows],
            place if place % 8 == 0 => [rng.range(13, 14), a, b, 0],
            place if place % 8 == 1 => [rng.range(17, 18), a, b, rng.range(1, 9)],
            place if place % 8 == 2 => [9, a, 1, 0],
            _ => [rng.range(2, 6), a, b, 0],
        };
        if row[0] < 13 {
            plain.push(flow);
            last = if row[0] > 1 { flow } else { last };
        }
        rows.push(row);
    }
    for (flow, row) in (0..).zip(&mut rows).filter(|(_, row)| row[0] == 7) {
        let next = plain.iter().copied().find(|&other| other > flow).filter(|_| rng.percent(50));
        row[3] = next.unwrap_or_else(|| rng.pick(&plain));
    }
    Plan::of(&rows)
}

/// A plan of any sort.
fn of_any_sort(rng: &mut Rng) -> Plan {
    match rng.below(16) {
        0 => any_rows(rng),
        1 => any_views(rng),
        2 => faulty(rng),
        3 | 4 => {
            let (mut plan, _) = sound(rng);
            break_clocks(rng, &mut plan);
            plan
        }
        5..=7 => sound(rng).0,
        8..=10 => {
            let shape = Shape { flows: 20 + rng.below(45), scale: rng.pick(&[1, 1, 2, 6]), sampling: rng.percent(70) };
            accepted(rng, shape).0
        }
        11 => {
            let shape = Shape { flows: 1 + rng.below(24), scale: WRITTEN, sampling: rng.percent(50) };
            accepted(rng, shape).0
        }
        place => {
            let most = if place == 15 { 64 } else { rng.pick(&[4, 10, 30, 64]) };
            looped(rng, most)
        }
    }
}

/// Random plans of up to 64 flows, and rooms around their flows.
fn random_plans(test: u64, plans: usize) {
    let mut rng = Rng::new(test);
    let mut seen = Seen::default();
    for _ in 0..rounds(plans) {
        let plan = of_any_sort(&mut rng);
        let felt = felt(&ALL, &plan);
        seen.add(&felt);
        if let Some(felt) = felt {
            rooms(&mut rng, &ALL, &felt);
        }
    }
    seen.assert_all(1_000, &[]);
}

#[test]
fn random_plans_first() {
    random_plans(171, 30_000);
}

#[test]
fn random_plans_second() {
    random_plans(172, 30_000);
}

/// Plans with faults of all sorts, rates that are missing, and rooms of any length.
#[test]
fn damaged_plans() {
    let mut rng = Rng::new(173);
    let mut tally = Tally::default();
    let plans = rounds(80_000);
    for _ in 0..plans {
        let mut plan = of_any_sort(&mut rng);
        match rng.below(8) {
            0..=2 => plant(&mut rng, &mut plan),
            3 => erase_rates(&mut rng, &mut plan, 30),
            4 => beyond(&mut rng, &mut plan),
            _ => {}
        }
        let flows = plan.words.len() / 4;
        let len = if rng.percent(30) { rng.below(flows + 9) } else { rng.around(flows) };
        let outcome = felt_inputs(&ALL, &plan, len);
        let checked = check(&[&LIBRARY], &plan, CLOCK_WORDS * flows).parts;
        tally.add("felt inputs", outcome.parts.0);
        match checked.0 {
            0 if len >= flows => assert_eq!(outcome.parts, (0, 0, 0, plan.count), "{plan:?}"),
            0 => assert_eq!(outcome.parts, (10, 0, 0, 0), "{plan:?}"),
            _ => assert_eq!(outcome.parts, checked, "{plan:?}"),
        }
        assert!(outcome.parts.0 == 0 || outcome.is_untouched(), "{plan:?}");
    }
    for number in [0, 10, 11, 13, 14, 15, 21, 22, 23, 40] {
        assert!(tally.count("felt inputs", number) > plans / 200, "number {number} occurs: {tally}");
    }
}
