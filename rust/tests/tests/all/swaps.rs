//! A sensor is swapped: two logs that agree on the inputs that a flow feels, at those inputs' own ticks up to some
//! tick, give it the same marks and values up to there, however else they differ.

use tests::compare::{long_run_exactly, run_exactly, Outcome};
use tests::generate::{accepted, Shape};
use tests::implementation::LIBRARY;
use tests::rng::Rng;
use tests::{rounds, Plan, CLOCK_WORDS, TICKS, WINDOW, WRITTEN};

use crate::feels::{felt, looped, Felt};
use crate::short::sound;
use crate::views::viewing;

/// The flows of a set.
fn members(set: u64) -> impl Iterator<Item = usize> {
    (0..64).filter(move |flow| set >> flow & 1 == 1)
}

/// The words of a flow's clock.
fn clock(felt: &Felt, flow: usize) -> &[u32] {
    &felt.clocks[CLOCK_WORDS * flow..][..CLOCK_WORDS]
}

/// Whether a tick is an input's own: its phase plus whole periods.
fn is_own(felt: &Felt, input: usize, tick: usize) -> bool {
    let (period, phase) = (clock(felt, input)[0] as usize, clock(felt, input)[1] as usize);
    tick >= phase && (tick - phase).is_multiple_of(period)
}

/// Another word than this one: often zero where this is not, and not zero where this is.
fn another(rng: &mut Rng, word: u32) -> u32 {
    match word {
        0 => rng.value().max(1),
        _ if rng.percent(50) => 0,
        _ => word ^ 1 << rng.below(32),
    }
}

/// A log of so many ticks beside another. Wherever both have a word it is another one, but for the inputs of a set at
/// their own ticks below one.
fn swapped(rng: &mut Rng, felt: &Felt, first: &[u32], set: u64, below: usize, ticks: usize) -> Vec<u32> {
    let inputs: Vec<usize> = members(felt.inputs()).collect();
    let mut log = Vec::with_capacity(ticks * inputs.len());
    for tick in 0..ticks {
        for &input in &inputs {
            let agrees = tick < below && set >> input & 1 == 1 && is_own(felt, input, tick);
            log.push(match first.get(log.len()) {
                Some(&word) if agrees => word,
                Some(&word) => another(rng, word),
                None => rng.value(),
            });
        }
    }
    log
}

/// The sets of a plan, each once.
fn each_set(felt: &Felt) -> Vec<u64> {
    let mut sets = felt.sets.clone();
    sets.sort_unstable();
    sets.dedup();
    sets
}

/// A run of an accepted plan, and its log.
struct Ran {
    ticks: usize,
    log: Vec<u32>,
    trace: Outcome,
}

impl Ran {
    fn new(plan: &Plan, log: Vec<u32>, ticks: usize) -> Self {
        let trace = run_exactly(&[&LIBRARY], plan, &log, ticks as u32);
        assert_eq!(trace.parts, (0, 0, 0, ticks as u32), "{plan:?}");
        Ran { ticks, log, trace }
    }

    /// A run over another log, which agrees on a set below a tick.
    fn swapped(&self, rng: &mut Rng, felt: &Felt, set: u64, below: usize, ticks: usize) -> Ran {
        Ran::new(&felt.plan, swapped(rng, felt, &self.log, set, below, ticks), ticks)
    }
}

/// A flow in two runs, both of more than t ticks.
struct Pair<'a> {
    felt: &'a Felt,
    flow: usize,
    t: usize,
    runs: [&'a Ran; 2],
}

impl Pair<'_> {
    /// The flow's mark and value in one of the runs.
    fn cell(&self, run: usize, tick: usize) -> (u8, u32) {
        let (place, trace) = (tick * self.felt.sets.len() + self.flow, &self.runs[run].trace);
        (trace.bytes[place], trace.words[place])
    }

    /// The first tick up to t at which the flow has another mark or value in the second run.
    fn differs_at(&self) -> Option<usize> {
        (0..=self.t).find(|&tick| self.cell(0, tick) != self.cell(1, tick))
    }

    fn set(&self) -> u64 {
        self.felt.sets[self.flow]
    }

    fn is_viewed(&self) -> bool {
        clock(self.felt, self.flow)[7] > 0
    }
}

/// A pair of some sort.
type Sort = (&'static str, fn(&Pair) -> bool);

/// The sorts that have to occur.
static SORTS: [Sort; 13] = [
    ("a value up to t", |pair| (0..=pair.t).any(|tick| pair.cell(0, tick).0 == 1)),
    ("nothing felt", |pair| pair.set() == 0),
    ("two inputs and more felt", |pair| pair.set().count_ones() >= 2),
    ("every input felt", |pair| pair.set() != 0 && pair.set() == pair.felt.inputs()),
    ("an input felt and one that is not", |pair| pair.set() != 0 && pair.set() != pair.felt.inputs()),
    ("an input felt that is absent at a tick", |pair| {
        members(pair.set()).any(|input| (0..=pair.t).any(|tick| !is_own(pair.felt, input, tick)))
    }),
    ("under a condition that is sampled directly", |pair| clock(pair.felt, pair.flow)[2] > 0 && !pair.is_viewed()),
    ("under a view", |pair| pair.is_viewed()),
    ("a register", |pair| pair.felt.plan.words[4 * pair.flow] == 7),
    ("tick 0 alone", |pair| pair.t == 0),
    ("the first run longer", |pair| pair.runs[0].ticks > pair.runs[1].ticks),
    ("the second run longer", |pair| pair.runs[0].ticks < pair.runs[1].ticks),
    ("no tick past t", |pair| pair.runs.iter().all(|run| run.ticks == pair.t + 1)),
];

/// How often each sort occurred, and how often a flow differs where it need not be the same.
#[derive(Debug, Default)]
struct Seen {
    pairs: usize,
    sorts: [usize; SORTS.len()],
    /// Flows that feel more than what is agreed on.
    beside: usize,
    /// Flows one of whose inputs is left to differ, and those of them that are under a view.
    left: usize,
    left_viewed: usize,
    /// Flows whose inputs are agreed on before t alone.
    before: usize,
}

impl Seen {
    fn add(&mut self, pair: &Pair) {
        self.pairs += 1;
        for (seen, (_, is)) in self.sorts.iter_mut().zip(&SORTS) {
            *seen += usize::from(is(pair));
        }
    }

    /// Every sort occurred once in so many pairs; and so often did flows differ that need not be the same.
    fn assert_all(&self, one_in: usize) {
        let differing = [
            ("a flow that feels more, and differs", self.beside),
            ("a flow that differs, for one input", self.left),
            ("a flow under a view that differs, for one input", self.left_viewed),
            ("a flow that differs at t, for what is at t", self.before),
        ];
        let sorts = self.sorts.iter().zip(&SORTS).map(|(seen, (sort, _))| (*sort, *seen));
        for (sort, seen) in sorts.chain(differing) {
            assert!(seen > self.pairs / one_in, "{sort}: {seen} of {} pairs", self.pairs);
        }
    }
}

/// Every flow in two runs.
fn pairs<'a>(felt: &'a Felt, t: usize, runs: [&'a Ran; 2]) -> impl Iterator<Item = Pair<'a>> {
    (0..felt.sets.len()).map(move |flow| Pair { felt, flow, t, runs })
}

/// Each set of a plan: where two logs agree on it up to t, the flows that feel no more are the same up to t. With one of
/// its inputs left to differ they need not be; and not at t where the logs agree before t alone.
fn try_plan(rng: &mut Rng, plan: &Plan, t: usize, ticks: [usize; 2], seen: &mut Seen) {
    let felt = felt(&[&LIBRARY], plan).expect("an accepted plan");
    let log = rng.log(ticks[0] * plan.inputs());
    let first = Ran::new(plan, log, ticks[0]);
    for set in each_set(&felt) {
        let second = first.swapped(rng, &felt, set, t + 1, ticks[1]);
        for pair in pairs(&felt, t, [&first, &second]) {
            let differs = pair.differs_at();
            if pair.set() & !set != 0 {
                seen.beside += usize::from(differs.is_some());
                continue;
            }
            assert_eq!(differs, None, "flow {} up to tick {t}: {plan:?}", pair.flow);
            if pair.set() == set {
                seen.add(&pair);
            }
        }
        let inputs: Vec<usize> = members(set).collect();
        if inputs.is_empty() {
            continue;
        }
        let but_one = set & !(1 << rng.pick(&inputs));
        let left = first.swapped(rng, &felt, but_one, t + 1, ticks[1]);
        let of_set = pairs(&felt, t, [&first, &left]).filter(|pair| pair.set() == set);
        for pair in of_set.filter(|pair| pair.differs_at().is_some()) {
            seen.left += 1;
            seen.left_viewed += usize::from(pair.is_viewed());
        }
        let before = first.swapped(rng, &felt, set, t, ticks[1]);
        for pair in pairs(&felt, t, [&first, &before]).filter(|pair| pair.set() == set) {
            let differs = pair.differs_at();
            assert!(differs.is_none_or(|tick| tick == t), "flow {} before tick {t}: {plan:?}", pair.flow);
            seen.before += usize::from(differs.is_some());
        }
    }
}

/// A tick below so many, and two counts of ticks above it: the next one, or up to as many more.
fn some_ticks(rng: &mut Rng, most: usize) -> (usize, [usize; 2]) {
    let t = if rng.percent(5) { 0 } else { rng.below(most) };
    let [more, other] = [(); 2].map(|_| t + 1 + rng.below(most));
    (t, rng.pick(&[[t + 1, more], [more, t + 1], [more, other], [t + 1, t + 1]]))
}

/// Few ticks of plans of every sort.
fn few_ticks(test: u64, plans: usize) {
    let mut rng = Rng::new(test);
    let mut seen = Seen::default();
    for round in 0..rounds(plans) {
        let plan = match round % 4 {
            0 => sound(&mut rng).0,
            1 => looped(&mut rng, 16),
            2 => viewing(&mut rng, Shape::short).0,
            _ => {
                let shape = Shape { flows: 6 + rng.below(20), scale: rng.pick(&[1, 2, 4]), sampling: rng.percent(80) };
                accepted(&mut rng, shape).0
            }
        };
        let (t, ticks) = some_ticks(&mut rng, 40);
        try_plan(&mut rng, &plan, t, ticks, &mut seen);
    }
    seen.assert_all(50);
}

#[test]
fn few_ticks_first() {
    few_ticks(181, 40_000);
}

#[test]
fn few_ticks_second() {
    few_ticks(182, 40_000);
}

/// Thousands of ticks, and clocks up to their limits.
#[test]
fn thousands_of_ticks() {
    let mut rng = Rng::new(183);
    let mut seen = Seen::default();
    for round in 0..rounds(200) {
        let plan = match round % 2 {
            0 => viewing(&mut rng, Shape::long).0,
            _ => {
                let shape = Shape { flows: 4 + rng.below(30), scale: rng.pick(&[6, 100, WRITTEN]), sampling: true };
                accepted(&mut rng, shape).0
            }
        };
        let (t, ticks) = some_ticks(&mut rng, 6_000);
        try_plan(&mut rng, &plan, t, ticks, &mut seen);
    }
    seen.assert_all(200);
}

/// As many ticks as a run may have, and t the last of them or one before.
#[test]
fn all_ticks() {
    let mut rng = Rng::new(184);
    let mut seen = Seen::default();
    let most = TICKS as usize;
    for (flows, scale) in [(6, 6), (6, WRITTEN), (12, 6), (12, 100), (12, WRITTEN), (20, 6), (20, 100), (20, WRITTEN)] {
        for (t, ticks) in [(most - 1, [most, most]), (most - 2, [most, most - 1]), (65_535, [65_536, most])] {
            let (plan, _) = viewing(&mut rng, |_| Shape { flows, scale, sampling: true });
            try_plan(&mut rng, &plan, t, ticks, &mut seen);
        }
    }
    assert!(seen.left > 0 && seen.left_viewed > 0 && seen.before > 0, "{seen:?}");
}

/// The ticks up to t that are in the windows of both long runs at which a flow has another mark or value in the second.
fn differing(felt: &Felt, flow: usize, t: usize, ticks: [usize; 2], runs: [&Outcome; 2]) -> usize {
    let first_tick = ticks[0].max(ticks[1]).saturating_sub(WINDOW);
    let place = |tick| tick % WINDOW * felt.sets.len() + flow;
    let cell = |run: &Outcome, tick| (run.bytes[place(tick)], run.words[place(tick)]);
    (first_tick..=t).filter(|&tick| cell(runs[0], tick) != cell(runs[1], tick)).count()
}

/// Long runs: a flow has the same cells in both windows up to t, and the same tally where neither run goes on past t.
#[test]
fn long_runs() {
    let mut rng = Rng::new(185);
    let [mut same, mut beside, mut past, mut tallies] = [0; 4];
    for (t, ticks) in [
        (99, [100, 100]),
        (WINDOW - 1, [WINDOW, WINDOW]),
        (WINDOW, [WINDOW + 1, WINDOW + 1]),
        (WINDOW + 998, [WINDOW + 999, WINDOW + 1_500]),
        (WINDOW + 10, [2 * WINDOW - 9, WINDOW + 999]),
        (3 * WINDOW, [3 * WINDOW + 1, 3 * WINDOW + 1]),
    ] {
        for scale in [1, 6, 6, 100, WRITTEN] {
            let (plan, _) = viewing(&mut rng, |_| Shape { flows: 8, scale, sampling: true });
            let felt = felt(&[&LIBRARY], &plan).expect("an accepted plan");
            let run = |log: &[u32], ticks: usize| long_run_exactly(&[&LIBRARY], &plan, log, ticks as u32);
            let log = rng.log(ticks[0] * plan.inputs());
            let first = run(&log, ticks[0]);
            for set in each_set(&felt) {
                let second = run(&swapped(&mut rng, &felt, &log, set, t + 1, ticks[1]), ticks[1]);
                assert_eq!((first.parts.0, second.parts.0), (0, 0), "{plan:?}");
                for flow in 0..felt.sets.len() {
                    let [tally, other] = [&first, &second].map(|run| &run.tallies[2 * flow..2 * flow + 2]);
                    let differs = differing(&felt, flow, t, ticks, [&first, &second]);
                    if felt.sets[flow] & !set != 0 {
                        beside += usize::from(differs > 0);
                        tallies += usize::from(tally != other);
                        continue;
                    }
                    assert_eq!(differs, 0, "flow {flow} up to tick {t}: {plan:?}");
                    let is_all = ticks == [t + 1; 2];
                    assert!(!is_all || tally == other, "tally of flow {flow} at tick {t}: {plan:?}");
                    same += usize::from(is_all && tally[0] > 0);
                    past += usize::from(!is_all && tally != other);
                }
            }
        }
    }
    // Flows that feel more than what is agreed on differ, and so do tallies past t.
    for (seen, what) in [(same, "same"), (beside, "beside"), (tallies, "tallies"), (past, "past t")] {
        assert!(seen > 10, "{what}: {seen}");
    }
}
