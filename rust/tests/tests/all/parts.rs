//! Least parts of every plan of few rows, of random plans against all sets of flows, and of random plans up to 64 flows.

use std::collections::BTreeSet;

use tests::compare::{check, least_flows, least_part, run_exactly, words_are, Outcome};
use tests::faults::{any_rows, break_clocks, plant, FIELDS};
use tests::generate::{accepted, Shape};
use tests::implementation::{Implementation, ALL, LIBRARY, QUICK};
use tests::rng::Rng;
use tests::tally::Tally;
use tests::{is_view, rounds, Plan, CLOCK_WORDS, TICKS, WRITTEN};

/// What the check answers: number and flow.
fn checked(plan: &Plan) -> (u32, u32) {
    let (number, flow, ..) = check(&[&LIBRARY], plan, CLOCK_WORDS * plan.words.len() / 4).parts;
    (number, flow)
}

/// The places at which a row has flows.
fn places(row: &[u32]) -> impl Iterator<Item = usize> + '_ {
    FIELDS[row[0] as usize].char_indices().filter(|(_, sort)| "fs".contains(*sort)).map(|(place, _)| 1 + place)
}

/// The flows that one leads to, itself included.
fn led_to(plan: &Plan, flow: u32) -> BTreeSet<u32> {
    let mut led = BTreeSet::from([flow]);
    let mut next = vec![flow];
    while let Some(flow) = next.pop() {
        let row = &plan.words[4 * flow as usize..][..4];
        next.extend(places(row).map(|place| row[place]).filter(|&other| led.insert(other)));
    }
    led
}

/// The part of a plan that has these flows: their rows, each flow as its place among them.
fn part_of(plan: &Plan, flows: &[u32]) -> Plan {
    let mut rows = Vec::new();
    for &flow in flows {
        let row = &plan.words[4 * flow as usize..][..4];
        let mut moved = [row[0], row[1], row[2], row[3]];
        for place in places(row) {
            moved[place] = flows.binary_search(&row[place]).expect("a part has it") as u32;
        }
        rows.push(moved);
    }
    Plan::of(&rows)
}

/// The least part of a plan that the check answers with 21, and what it was chosen from.
struct Least {
    /// How many flows the plan has.
    whole: usize,
    /// The flow that the check names.
    named: u32,
    /// Its flows.
    flows: Vec<u32>,
    /// The part itself.
    part: Plan,
    /// What each flow that leads to a part answered with 21 leads to.
    candidates: Vec<(u32, Vec<u32>)>,
}

impl Least {
    /// The candidates with as few flows.
    fn equals(&self) -> impl Iterator<Item = &(u32, Vec<u32>)> {
        self.candidates.iter().filter(|(_, flows)| flows.len() == self.flows.len())
    }

    /// Whether some row of the part passes a test, with its flow.
    fn some_row(&self, test: impl Fn(u32, &[u32]) -> bool) -> bool {
        self.part.words.chunks(4).zip(0..).any(|(row, flow)| test(flow, row))
    }
}

/// All that can be said of a least part without another implementation that gives one. Nothing where it is refused.
fn facts(plan: &Plan, part: &Outcome, flows: &Outcome) -> Option<Least> {
    let (number, named) = checked(plan);
    if number != 21 {
        let refusal = if matches!(number, 11..=15) { (number, named, 0, 0) } else { (38, 0, 0, 0) };
        for outcome in [part, flows] {
            assert_eq!(outcome.parts, refusal, "{plan:?}");
            assert!(outcome.is_untouched(), "{plan:?}");
        }
        return None;
    }
    let (whole, count) = (plan.words.len() / 4, part.parts.3);
    assert_eq!((part.parts, flows.parts), ((0, 0, 0, count), (0, 0, 0, count)), "{plan:?}");
    let numbers = flows.words[..count as usize].to_vec();
    assert!(words_are(flows, &numbers) && numbers.is_sorted_by(|flow, next| flow < next), "{plan:?}: {numbers:?}");

    // The plan's rows at those flows, renumbered; and answered with 21.
    let least = part_of(plan, &numbers);
    assert!(words_are(part, &least.words), "{plan:?}: {:?}", part.words);
    assert_eq!(checked(&least).0, 21, "{plan:?}: {least:?}");

    // Of all that single flows lead to, nothing so answered has fewer flows, and this is the first that has as many.
    let drawn = (0..whole as u32).map(|flow| (flow, led_to(plan, flow).into_iter().collect::<Vec<u32>>()));
    let candidates: Vec<_> = drawn.filter(|(_, flows)| checked(&part_of(plan, flows)).0 == 21).collect();
    let least_of_them = candidates.iter().min_by_key(|(_, flows)| flows.len()).expect("what the named flow leads to");
    assert_eq!(least_of_them.1, numbers, "{plan:?}");
    assert!(numbers.len() >= 2, "{plan:?}");
    Some(Least { whole, named, flows: numbers, part: least, candidates })
}

/// Compares the implementations on a plan with room for all of it. Gives its least part if it has one.
fn least(of: &[&Implementation], plan: &Plan) -> Option<Least> {
    let (part, flows) = (least_part(of, plan, plan.words.len()), least_flows(of, plan, plan.words.len() / 4));
    facts(plan, &part, &flows)
}

/// The least part of a least part is all of it.
fn comes_down_to_itself(of: &[&Implementation], least: &Least) {
    let count = least.flows.len();
    let part = least_part(of, &least.part, 4 * count);
    assert!(part.parts == (0, 0, 0, count as u32) && words_are(&part, &least.part.words), "{:?}", least.part);
    let flows = least_flows(of, &least.part, count);
    assert!(words_are(&flows, &(0..count as u32).collect::<Vec<_>>()), "{:?}", least.part);
}

/// Rooms around what the part needs.
fn rooms(rng: &mut Rng, of: &[&Implementation], plan: &Plan, least: &Least) {
    let count = least.flows.len();
    let any = rng.below(4 * count);
    for len in [any, 4 * count - 1, 4 * count, 4 * count + 1 + any] {
        let outcome = least_part(of, plan, len);
        let (number, count, words) = if len < 4 * count { (10, 0, &[][..]) } else { (0, count, &least.part.words[..]) };
        assert!(outcome.parts == (number, 0, 0, count as u32) && words_are(&outcome, words), "{plan:?}, {len} words");
    }
    for len in [any / 4, count - 1, count, count + 1 + any] {
        let outcome = least_flows(of, plan, len);
        let (number, count, words) = if len < count { (10, 0, &[][..]) } else { (0, count, &least.flows[..]) };
        assert!(outcome.parts == (number, 0, 0, count as u32) && words_are(&outcome, words), "{plan:?}, {len} words");
    }
}

/// A least part of some sort.
type Sort = (&'static str, fn(&Least) -> bool);

/// The sorts that have to occur.
static SORTS: [Sort; 16] = [
    ("two flows", |least| least.flows.len() == 2),
    ("three flows", |least| least.flows.len() == 3),
    ("five flows and more", |least| least.flows.len() >= 5),
    ("nine flows and more", |least| least.flows.len() >= 9),
    ("more than 32 flows", |least| least.flows.len() > 32),
    ("half of the plan, or less", |least| 2 * least.flows.len() <= least.whole),
    ("all of the plan", |least| least.flows.len() == least.whole),
    ("fewer flows than the named one leads to", |least| {
        least.candidates.iter().any(|(flow, flows)| *flow == least.named && flows.len() > least.flows.len())
    }),
    ("a tie", |least| least.equals().any(|(_, flows)| *flows != least.flows)),
    ("a tie that the named flow does not win", |least| {
        least.equals().any(|(flow, flows)| *flow == least.named && *flows != least.flows)
    }),
    ("a tie that goes to the part with the higher first flow", |least| {
        least.equals().any(|(_, flows)| flows[0] < least.flows[0])
    }),
    ("two flows and more that lead to all the rest", |least| {
        least.equals().filter(|(_, flows)| *flows == least.flows).count() > 1
    }),
    ("a flow that moves", |least| least.flows[0] > 0),
    ("a source that is later", |least| least.some_row(|flow, row| row[0] == 7 && row[3] > flow)),
    ("a register as the one refused, for its source", |least| {
        let (_, named) = checked(&least.part);
        least.some_row(|flow, row| row[0] == 7 && flow == named)
    }),
    ("a view", |least| least.some_row(|_, row| is_view(row))),
];

/// How often each sort of least part occurred, and each answer of the check.
#[derive(Default)]
struct Seen {
    plans: usize,
    parts: usize,
    sorts: [usize; SORTS.len()],
    tally: Tally,
}

impl Seen {
    fn add(&mut self, plan: &Plan, least: &Option<Least>) {
        self.plans += 1;
        self.tally.add("check", checked(plan).0);
        if let Some(least) = least {
            self.parts += 1;
            for (seen, (_, is)) in self.sorts.iter_mut().zip(&SORTS) {
                *seen += usize::from(is(least));
            }
        }
    }

    /// A third of the plans have a least part; of these a tie occurred once in 20, and every sort, but for some, once in
    /// so many; and each of some answers of the check occurred once in 200 plans.
    fn assert_all(&self, one_in: usize, but: &[&str], numbers: &[u32]) {
        assert!(self.parts > self.plans / 3, "{} of {} plans", self.parts, self.plans);
        for (seen, (sort, _)) in self.sorts.iter().zip(&SORTS).filter(|(_, (sort, _))| !but.contains(sort)) {
            let one_in = if *sort == "a tie" { 20 } else { one_in };
            assert!(*seen >= self.parts / one_in, "{sort}: {seen} of {} least parts", self.parts);
        }
        for &number in numbers {
            assert!(self.tally.count("check", number) >= self.plans / 200, "number {number} occurs: {}", self.tally);
        }
    }
}

/// Makes every plan of `count` rows, those of each flow being given, and tries it.
pub fn every_plan(
    count: u32,
    rows_of: fn(u32, u32) -> Vec<[u32; 4]>,
    rows: &mut Vec<[u32; 4]>,
    try_it: &mut impl FnMut(&Plan),
) {
    let flow = rows.len() as u32;
    if flow == count {
        return try_it(&Plan::of(rows));
    }
    for row in rows_of(flow, count) {
        rows.push(row);
        every_plan(count, rows_of, rows, try_it);
        rows.pop();
    }
}

/// All rows of several flows, `a` being one of them: registers, sums, sampling, views of two periods, and merges.
pub fn of_several(a: u32, flow: u32, count: u32) -> Vec<[u32; 4]> {
    let mut rows: Vec<[u32; 4]> = (0..count).map(|source| [7, 5, a, source]).collect();
    for b in 0..flow {
        rows.extend([[2, a, b, 0], [13, a, b, 0], [14, a, b, 0], [17, a, b, 17], [18, a, b, 4095]]);
        rows.extend((0..flow).map(|c| [15, c, a, b]));
    }
    rows
}

/// All rows over lower flows, with two inputs and one choice of copies, gaps, delays and ticks: 21, 22, 23 and 40 are all
/// within reach of few of them.
fn any_kind(flow: u32, count: u32) -> Vec<[u32; 4]> {
    let mut rows = vec![[0, 1, 0, 0], [0, 4095, 4095, 0]];
    for a in 0..flow {
        rows.extend([[8, a, 17, 1], [9, a, 17, 0], [10, a, 4095, 0], [11, a, 9, 0], [12, a, 0, 0]]);
        rows.extend(of_several(a, flow, count));
    }
    rows
}

/// Inputs, sums, registers and faster flows alone, for one row more.
fn few_kinds(flow: u32, count: u32) -> Vec<[u32; 4]> {
    let mut rows = vec![[0, 1, 0, 0], [0, 2, 0, 0]];
    for a in 0..flow {
        rows.push([8, a, 2, 1]);
        rows.extend((0..count).map(|source| [7, 5, a, source]));
        rows.extend((0..a).map(|b| [2, a, b, 0]));
    }
    rows
}

/// Every plan of up to four rows of any kind, against all sets of flows.
#[test]
fn every_plan_of_four_rows() {
    let mut seen = Seen::default();
    for count in 1..=4 {
        every_plan(count, any_kind, &mut Vec::new(), &mut |plan| seen.add(plan, &least(&ALL, plan)));
    }
    assert_eq!(seen.plans, 2 + 2 * 15 + 2 * 16 * 46 + 2 * 17 * 48 * 101);
    let but = ["five flows and more", "nine flows and more", "more than 32 flows"];
    seen.assert_all(7_000, &but, &[0, 21, 22, 23, 40]);
}

/// Every plan of five rows of few kinds.
#[test]
fn every_plan_of_five_rows() {
    let mut seen = Seen::default();
    every_plan(5, few_kinds, &mut Vec::new(), &mut |plan| seen.add(plan, &least(&ALL, plan)));
    assert_eq!(seen.plans, 2 * 8 * 15 * 23 * 32);
    seen.assert_all(500, &["nine flows and more", "more than 32 flows", "a view"], &[0, 21]);
}

/// A plan of up to so many flows that was sound and is broken, or now and then still sound.
fn broken(rng: &mut Rng, most: usize) -> Plan {
    let shape =
        Shape { flows: 2 + rng.below(most - 1), scale: rng.pick(&[1, 2, 4, 12, WRITTEN]), sampling: rng.percent(60) };
    let (mut plan, _) = accepted(rng, shape);
    if rng.percent(95) {
        break_clocks(rng, &mut plan);
    }
    plan
}

/// A plan of up to so many flows whose rows are one over the other, with inputs between, up to one that clashes. Some
/// registers have any source.
fn chain(rng: &mut Rng, most: usize) -> Plan {
    let flows = 2 + rng.below(most - 1) as u32;
    let (mut rows, mut last) = (vec![[0, 1, 0, 0]], 0);
    for flow in 1..flows - 1 {
        let source = if rng.percent(10) { rng.below(flows as usize) as u32 } else { last };
        let row = match rng.below(8) {
            0 => [0, 1, rng.range(0, 9), 0],
            1 => [2, last, last, 0],
            2 => [12, last, 0, 0],
            3 | 4 => [7, 5, last, source],
            _ => [10, last, rng.range(0, 3), 0],
        };
        last = if row[0] == 0 { last } else { flow };
        rows.push(row);
    }
    rows.push(rng.pick(&[[8, last, 2, 3], [11, last, 5, 4095], [15, last, last, 0]]));
    Plan::of(&rows)
}

/// Random plans of up to so many flows; all sorts of least parts have to occur, but for some.
fn random_plans(test: u64, of: &[&Implementation], plans: usize, most: usize, but: &[&str]) {
    let mut rng = Rng::new(test);
    let mut seen = Seen::default();
    for round in 0..rounds(plans) {
        let plan = match round % 8 {
            0 => any_rows(&mut rng),
            1 => chain(&mut rng, most),
            _ => broken(&mut rng, most),
        };
        let least = least(of, &plan);
        seen.add(&plan, &least);
        if let Some(least) = least {
            comes_down_to_itself(of, &least);
            rooms(&mut rng, of, &plan, &least);
        }
    }
    seen.assert_all(500, but, &[0, 21, 22, 23, 40]);
}

/// Against all sets of flows.
#[test]
fn random_plans_up_to_eleven_flows() {
    random_plans(131, &ALL, 60_000, 11, &["more than 32 flows"]);
}

/// Against the quick implementation.
#[test]
fn random_plans_up_to_64_flows() {
    random_plans(132, &QUICK, 30_000, 64, &[]);
}

/// A least part without sampling and merging clashes in a run of 131,071 ticks, whatever the log.
#[test]
fn least_parts_that_run() {
    let mut rng = Rng::new(134);
    let (mut clashed, plans) = (0, rounds(3_000));
    for _ in 0..plans {
        let shape = Shape { flows: 2 + rng.below(30), scale: rng.pick(&[2, 6, 100, WRITTEN]), sampling: false };
        let (mut plan, _) = accepted(&mut rng, shape);
        break_clocks(&mut rng, &mut plan);
        if let Some(Least { part, .. }) = least(&QUICK, &plan).filter(|least| least.part.free_of_sampling()) {
            let log = rng.log(TICKS as usize * part.inputs());
            assert_eq!(run_exactly(&[&LIBRARY], &part, &log, TICKS).parts.0, 34, "{part:?}");
            clashed += 1;
        }
    }
    assert!(clashed > plans / 4, "{clashed} of {plans}");
}

/// Plans with faults of all sorts, and rooms of any length.
#[test]
fn damaged_plans() {
    let mut rng = Rng::new(133);
    let mut tally = Tally::default();
    let plans = rounds(60_000);
    for _ in 0..plans {
        let mut plan = broken(&mut rng, 24);
        if rng.percent(70) {
            plant(&mut rng, &mut plan);
        }
        let flows = plan.words.len() / 4;
        let (part_len, flows_len) = (rng.below(4 * flows + 9), rng.below(flows + 9));
        for outcome in [least_part(&ALL, &plan, part_len), least_flows(&ALL, &plan, flows_len)] {
            tally.add("least", outcome.parts.0);
            assert!(outcome.parts.0 == 0 || outcome.is_untouched(), "{plan:?}");
        }
    }
    for number in [0, 10, 11, 13, 14, 15, 38] {
        assert!(tally.count("least", number) > plans / 100, "number {number} occurs: {tally}");
    }
}
