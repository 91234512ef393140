//! Load pages of random plans, a million of them, of every period, phase and worst time, and of every half.

use tests::compare::{check, load_page, load_page_exactly, page_bytes, pattern_byte, Outcome};
use tests::generate::{accepted, Clock, Shape};
use tests::implementation::{ALL, LIBRARY};
use tests::rng::Rng;
use tests::{rounds, Plan, DERIVED, WRITTEN};

/// How far twice the load is from an odd number, in parts of the period: none where the load is at a half.
fn from_half(worst: u16, period: u32) -> u32 {
    (2_000 * u32::from(worst) % (2 * period)).abs_diff(period)
}

/// Whether the load is at a half, above a number of this remainder by 2.
fn is_half_above(odd: u32, worst: u16, period: u32) -> bool {
    from_half(worst, period) == 0 && 1_000 * u32::from(worst) / period % 2 == odd
}

/// Whether some flow with its worst time passes a test.
fn some(clocks: &[Clock], times: &[u16], test: impl Fn(&Clock, u16) -> bool) -> bool {
    clocks.iter().zip(times).any(|(clock, &worst)| test(clock, worst))
}

/// Whether some flow and a later one pass a test.
fn some_pair(clocks: &[Clock], test: impl Fn(&Clock, &Clock) -> bool) -> bool {
    (1..clocks.len()).any(|later| clocks[..later].iter().any(|clock| test(clock, &clocks[later])))
}

/// Whether some period has three phases that three flows and more have each.
fn crowded(clocks: &[Clock]) -> bool {
    let mut pairs: Vec<(u32, u32)> = clocks.iter().map(|clock| (clock.period, clock.phase)).collect();
    pairs.sort_unstable();
    let shared = pairs.chunk_by(|a, b| a == b).filter(|flows| flows.len() >= 3);
    let periods: Vec<u32> = shared.map(|flows| flows[0].0).collect();
    periods.windows(3).any(|three| three[0] == three[2])
}

/// A page of some sort, by its clocks and times.
type Sort = (&'static str, fn(&[Clock], &[u16]) -> bool);

/// The sorts that have to occur, each at least once in a hundred pages.
static SORTS: [Sort; 20] = [
    ("one flow", |clocks, _| clocks.len() == 1),
    ("64 flows", |clocks, _| clocks.len() == 64),
    ("a later flow that comes first", |clocks, _| some_pair(clocks, |clock, later| later.period < clock.period)),
    ("equal periods", |clocks, _| some_pair(clocks, |clock, later| later.period == clock.period)),
    ("a later flow that its phase puts first", |clocks, _| {
        some_pair(clocks, |clock, later| later.period == clock.period && later.phase < clock.phase)
    }),
    ("equal periods and phases", |clocks, _| {
        some_pair(clocks, |clock, later| (later.period, later.phase) == (clock.period, clock.phase))
    }),
    ("a period with three phases, each of three flows", |clocks, _| crowded(clocks)),
    ("a half above an even number", |clocks, times| {
        some(clocks, times, |clock, worst| is_half_above(0, worst, clock.period))
    }),
    ("a half above an odd number", |clocks, times| {
        some(clocks, times, |clock, worst| is_half_above(1, worst, clock.period))
    }),
    ("a hundredth from a half, or less", |clocks, times| {
        some(clocks, times, |clock, worst| (1..=clock.period / 50).contains(&from_half(worst, clock.period)))
    }),
    ("period 1 and time 65,535", |clocks, times| {
        some(clocks, times, |clock, worst| (clock.period, worst) == (1, 65_535))
    }),
    ("period 4095", |clocks, _| clocks.iter().any(|clock| clock.period == WRITTEN)),
    ("a period above it", |clocks, _| clocks.iter().any(|clock| clock.period > WRITTEN)),
    ("a phase above it", |clocks, _| clocks.iter().any(|clock| clock.phase > WRITTEN)),
    ("time 0", |_, times| times.contains(&0)),
    ("1 condition", |clocks, _| clocks.iter().any(|clock| clock.conditions.len() == 1)),
    ("2 conditions", |clocks, _| clocks.iter().any(|clock| clock.conditions.len() == 2)),
    ("3 conditions", |clocks, _| clocks.iter().any(|clock| clock.conditions.len() == 3)),
    ("4 conditions", |clocks, _| clocks.iter().any(|clock| clock.conditions.len() == 4)),
    ("another total than that of the loads before rounding", |clocks, times| {
        let exact = |(clock, &worst): (&Clock, &u16)| 1_000.0 * f64::from(worst) / f64::from(clock.period);
        let loads: Vec<f64> = clocks.iter().zip(times).map(exact).collect();
        let printed: f64 = loads.iter().map(|load| load.round_ties_even()).sum();
        (printed - loads.iter().sum::<f64>()).abs() > 0.6
    }),
];

/// A shape for pages: one flow, few, and all 64; short clocks and long ones.
fn shape(rng: &mut Rng) -> Shape {
    let flows = match rng.below(20) {
        0 => 1,
        1 => 64,
        2 => 17 + rng.below(47),
        _ => 2 + rng.below(12),
    };
    Shape { flows, scale: rng.pick(&[1, 4, 12, 100, WRITTEN, WRITTEN]), sampling: rng.percent(70) }
}

/// A plan of inputs on few clocks: two periods that are neighbours and one more, and up to four phases.
fn few_clocks(rng: &mut Rng) -> (Plan, Vec<Clock>) {
    let first = rng.range(1, 4094);
    let periods = [first, first + 1, rng.range(1, WRITTEN)];
    let any = rng.range(0, WRITTEN);
    let phases: [u32; 4] = std::array::from_fn(|_| rng.pick(&[0, 1, 4094, 4095, any]));
    let flows = rng.range(2, 64);
    let clock = |_| Clock { period: rng.pick(&periods), phase: rng.pick(&phases), conditions: Vec::new() };
    let clocks: Vec<Clock> = (0..flows).map(clock).collect();
    let rows: Vec<[u32; 4]> = clocks.iter().map(|clock| [0, clock.period, clock.phase, 0]).collect();
    (Plan::of(&rows), clocks)
}

/// Rows more that each sample the flow before, as long as there may be a condition and a flow more.
fn sample(plan: &mut Plan, clocks: &mut Vec<Clock>) {
    while let Some(last) = clocks.last().filter(|last| last.conditions.len() < 4 && clocks.len() < 64) {
        let before = plan.count - 1;
        let clock = last.plus(2 * before + 1);
        clocks.push(clock);
        plan.words.extend([13, before, before, 0]);
        plan.count += 1;
    }
}

/// A worst time for a period: any, or an odd number of its sixteenths where it has them, whose load is at a half.
fn time(rng: &mut Rng, period: u32) -> u16 {
    match period % 16 {
        0 if rng.percent(40) => {
            let sixteenth = period / 16;
            let most = 65_535 / sixteenth;
            (sixteenth * (2 * rng.range(0, (most - 1) / 2) + 1)) as u16
        }
        _ => rng.time(),
    }
}

/// Many pages of each plan, each with worst times of its own.
fn random_pages(seed: u64, pages: usize) {
    const OF_A_PLAN: usize = 20;
    let mut rng = Rng::new(seed);
    let mut seen = [0; SORTS.len()];
    let plans = rounds(pages / OF_A_PLAN);
    for round in 0..plans {
        let (mut plan, mut clocks) = if round % 4 == 0 {
            few_clocks(&mut rng)
        } else {
            let shape = shape(&mut rng);
            accepted(&mut rng, shape)
        };
        if round % 10 == 0 {
            sample(&mut plan, &mut clocks);
        }
        let words: Vec<u32> = clocks.iter().flat_map(Clock::words).collect();
        assert_eq!(check(&[&LIBRARY], &plan, words.len()).words[..words.len()], words, "{plan:?}");
        let bytes = page_bytes(clocks.len());
        for _ in 0..OF_A_PLAN {
            let times: Vec<u16> = clocks.iter().map(|clock| time(&mut rng, clock.period)).collect();
            let outcome = load_page(&ALL, &plan, &times, bytes + rng.pick(&[0, 0, 1, 26]));
            assert_eq!(outcome.parts, (0, 0, 0, bytes as u32), "{plan:?}");
            assert!((bytes..outcome.bytes.len()).all(|place| outcome.bytes[place] == pattern_byte(place)), "{plan:?}");
            for (seen, (_, is)) in seen.iter_mut().zip(&SORTS) {
                *seen += usize::from(is(&clocks, &times));
            }
        }
    }
    for (seen, (sort, _)) in seen.iter().zip(&SORTS) {
        assert!(*seen >= plans * OF_A_PLAN / 100, "{sort}: {seen} of {} pages", plans * OF_A_PLAN);
    }
}

#[test]
fn random_pages_first() {
    random_pages(111, 500_000);
}

#[test]
fn random_pages_second() {
    random_pages(112, 500_000);
}

/// What a page of 64 flows prints for flow, period, phase and load, line by line, and its total.
fn printed(outcome: &Outcome) -> (Vec<[u64; 4]>, u64) {
    let number = |text: &[u8]| String::from_utf8_lossy(text).trim().parse().expect("a number");
    let (lines, _) = outcome.bytes.as_chunks::<26>();
    let line = |line: &[u8; 26]| [&line[..2], &line[3..8], &line[9..14], &line[17..25]].map(number);
    (lines[..64].iter().map(line).collect(), number(&lines[64][5..]))
}

/// 64 rows of these clocks, with these worst times: each load is the nearest whole, of two that are equally near the even
/// one, the lines are in order, each flow once, and the total is the sum of the loads.
fn rows_are_right(rows: &[[u32; 4]; 64], clocks: &[(u32, u32); 64], times: &[u16; 64]) {
    let (lines, total) = printed(&load_page_exactly(&ALL, &Plan::of(rows), times));
    for &[flow, period, phase, load] in &lines {
        let worst = u64::from(times[flow as usize]);
        let twice_away = (2 * load * period).abs_diff(2_000 * worst);
        assert_eq!((period as u32, phase as u32), clocks[flow as usize]);
        assert!(twice_away < period + u64::from(load % 2 == 0), "{worst} over {period}: {load}");
    }
    assert!(lines.is_sorted_by(|a, b| (a[1], a[2], a[0]) < (b[1], b[2], b[0])), "{clocks:?}");
    assert_eq!(lines.iter().map(|[.., load]| load).sum::<u64>(), total);
}

/// The same of constants on these clocks.
fn page_is_right(clocks: &[(u32, u32); 64], times: &[u16; 64]) {
    rows_are_right(&clocks.map(|(period, phase)| [1, 7, period, phase]), clocks, times);
}

/// The least copies of a period that a field has which make up a period above those, if there are any.
fn part_of(period: u32) -> Option<(u32, u32)> {
    let fits = |k: &u32| period.is_multiple_of(*k) && period / k <= WRITTEN;
    (2..=63).find(fits).map(|k| (period / k, k))
}

/// The same of 32 constants and, over each of them, a slower row with one of these periods.
fn slow_page_is_right(periods: &[u32; 32], phases: &[u32; 32], times: &[u16; 64]) {
    let parts = periods.map(|period| part_of(period).expect("copies that make up the period"));
    let row = |flow: usize| match flow.checked_sub(32) {
        None => [1, 7, parts[flow].0, phases[flow]],
        Some(part) => [9, part as u32, parts[part].1, 0],
    };
    let clock = |flow: usize| match flow.checked_sub(32) {
        None => (parts[flow].0, phases[flow]),
        Some(part) => (periods[part], phases[part]),
    };
    rows_are_right(&std::array::from_fn(row), &std::array::from_fn(clock), times);
}

/// Every period that is written, with times at the edges, any, and at halves.
#[test]
fn every_period() {
    let mut rng = Rng::new(113);
    for first in (1..=4095).step_by(64) {
        let clocks = std::array::from_fn(|place| ((first + place as u32).min(4095), rng.range(0, 4095)));
        for worst in [0, 1, 2, 3, 65_534, 65_535] {
            page_is_right(&clocks, &[worst; 64]);
        }
        for _ in 0..rounds(20) {
            page_is_right(&clocks, &clocks.map(|(period, _)| time(&mut rng, period)));
        }
    }
}

/// Every longer period that a slower row gives, likewise.
#[test]
fn every_slow_period() {
    let mut rng = Rng::new(114);
    let slow: Vec<u32> = (WRITTEN + 1..=DERIVED).filter(|&period| part_of(period).is_some()).collect();
    assert_eq!((slow.len(), slow[0], slow[slow.len() - 1]), (41_320, 4_096, DERIVED));
    for first in (0..slow.len()).step_by(32) {
        let periods = std::array::from_fn(|place| slow[(first + place).min(slow.len() - 1)]);
        let phases = std::array::from_fn(|_| rng.range(0, WRITTEN));
        for worst in [1, 65_535] {
            slow_page_is_right(&periods, &phases, &[worst; 64]);
        }
        for _ in 0..rounds(2) {
            let times = std::array::from_fn(|flow| time(&mut rng, periods[flow % 32]));
            slow_page_is_right(&periods, &phases, &times);
        }
    }
}

/// Every phase that is written, at each of two flows, in mixed order.
#[test]
fn every_phase() {
    for period in [1, 2, 7, 4095] {
        for first in (0..=4095).step_by(32) {
            let clocks = std::array::from_fn(|place| (period, first + 5 * place as u32 % 32));
            page_is_right(&clocks, &[3; 64]);
        }
    }
}

/// Every later phase there is, in mixed order: 48 rows over a constant and fifteen rows that are 4095 ticks later each.
#[test]
fn every_late_phase() {
    for period in [1, 4095] {
        for first in (WRITTEN + 1..=DERIVED).step_by(48) {
            let phase = |flow: usize| match flow as u32 {
                flow @ 0..16 => WRITTEN * (flow + 1),
                flow => DERIVED.min(first + 5 * flow % 48),
            };
            let row = |flow: usize| match flow as u32 {
                0 => [1, 7, period, WRITTEN],
                flow @ 1..16 => [10, flow - 1, WRITTEN, 0],
                _ => [10, phase(flow) / WRITTEN - 1, phase(flow) % WRITTEN, 0],
            };
            let clocks = std::array::from_fn(|flow| (period, phase(flow)));
            rows_are_right(&std::array::from_fn(row), &clocks, &[3; 64]);
        }
    }
}

/// Every worst time there is, over periods with and without halves.
#[test]
fn every_time() {
    for period in [1, 2, 3, 7, 16, 80, 625, 1000, 2000, 2048, 4000, 4080, 4095] {
        for first in (0..=65_535).step_by(64) {
            page_is_right(&[(period, 0); 64], &std::array::from_fn(|place| first + place as u16));
        }
    }
}

/// Every worst time whose load over one of these periods is at a half, with the period; and how many of the halves are above
/// odd numbers.
fn halves(periods: impl Iterator<Item = u32>) -> (Vec<(u32, u16)>, usize) {
    // Loads of worst times that are a period apart differ by 1000: if one is at a half, one of the first period is.
    let periods = periods.filter(|&period| (0..period as u16).any(|worst| from_half(worst, period) == 0));
    let pairs = periods.flat_map(|period| (0..=65_535).map(move |worst| (period, worst)));
    let halves: Vec<(u32, u16)> = pairs.filter(|&(period, worst)| from_half(worst, period) == 0).collect();
    let above_odd = halves.iter().filter(|&&(period, worst)| is_half_above(1, worst, period)).count();
    (halves, above_odd)
}

/// Every half over a longer period that a slower row gives, 32 on a page. Only multiples of 16 have them.
#[test]
fn every_slow_half() {
    let slow = (WRITTEN + 1..=DERIVED).filter(|period| period.is_multiple_of(16) && part_of(*period).is_some());
    let (halves, above_odd) = halves(slow);
    assert_eq!((halves.len(), above_odd), (302_474, 150_280));
    for first in (0..halves.len()).step_by(32) {
        let half = |place: usize| halves[(first + place % 32).min(halves.len() - 1)];
        let periods = std::array::from_fn(|place| half(place).0);
        slow_page_is_right(&periods, &[0; 32], &std::array::from_fn(|place| half(place).1));
    }
}

/// Every half over a period that is written, 64 on a page.
#[test]
fn every_half() {
    let (halves, above_odd) = halves(1..=WRITTEN);
    assert_eq!((halves.len(), above_odd), (435_114, 217_494));
    for first in (0..halves.len()).step_by(64) {
        let half = |place: usize| halves[(first + place).min(halves.len() - 1)];
        page_is_right(&std::array::from_fn(|place| (half(place).0, 0)), &std::array::from_fn(|place| half(place).1));
    }
}
