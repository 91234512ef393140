//! Long looks back: the greatest delays, copies and periods, in runs that are long enough for them.

use tests::compare::{check, run_exactly};
use tests::implementation::{ALL, QUICK};
use tests::rng::Rng;
use tests::{Plan, CLOCK_WORDS};

use crate::paper::cells;

/// 64 flows, each the input some ticks later, up to 4095.
#[test]
fn delays_in_the_widest_plan() {
    let mut rng = Rng::new(71);
    let mut rows = vec![[0, 1, 0, 0]];
    rows.extend((0..63).map(|flow| [10, 0, 4095 - flow * rng.range(0, 65), 0]));
    let plan = Plan::of(&rows);
    let log = rng.log(9_000);
    let outcome = run_exactly(&QUICK, &plan, &log, 9_000);
    assert_eq!(outcome.parts, (0, 0, 0, 9_000));
    for (flow, row) in rows.iter().enumerate().skip(1) {
        let d = row[2] as usize;
        let expected: Vec<Option<u32>> = (0..9_000).map(|tick| Some(log[usize::checked_sub(tick, d)?])).collect();
        assert_eq!(cells(&outcome, 64, flow, 9_000), expected, "flow {flow}, d {d}");
    }
}

/// A delay over a delay, each above other flows: the cells of the right flow and tick.
#[test]
fn delays_over_delays() {
    let mut rng = Rng::new(72);
    for flows in [3, 17, 64] {
        let mut rows = vec![[0, 1, 0, 0]];
        rows.extend((1..flows).map(|flow| [10, flow - 1, rng.range(0, 4095 / flows), 0]));
        let plan = Plan::of(&rows);
        let log = rng.log(6_000);
        let outcome = run_exactly(&QUICK, &plan, &log, 6_000);
        let d: usize = rows[1..].iter().map(|row| row[2] as usize).sum();
        let expected: Vec<Option<u32>> = (0..6_000).map(|tick| Some(log[usize::checked_sub(tick, d)?])).collect();
        assert_eq!(cells(&outcome, flows as usize, flows as usize - 1, 6_000), expected);
    }
}

/// The longest clocks of every kind that looks back, against the paper word by word.
#[test]
fn longest_clocks_word_by_word() {
    let plan = Plan::of(&[
        [0, 4095, 0, 0],
        [8, 0, 63, 65],
        [9, 1, 63, 0],
        [12, 2, 0, 0],
        [11, 3, 77, 0],
        [10, 4, 4095, 0],
        [7, 5, 4, 0],
        [8, 6, 1, 4095],
    ]);
    let mut rng = Rng::new(73);
    let log = rng.log(13_000);
    let outcome = run_exactly(&ALL, &plan, &log, 13_000);
    assert_eq!(outcome.parts, (0, 0, 0, 13_000));
    let at = |flow: usize, tick: usize| (outcome.bytes[8 * tick + flow], outcome.words[8 * tick + flow]);
    assert_eq!((at(1, 4_030), at(1, 4_095)), ((1, log[0]), (1, log[4_095])));
    assert_eq!((at(4, 0), at(4, 4_095), at(4, 8_190)), ((1, 77), (1, log[4_095]), (1, log[8_190])));
    assert_eq!((at(5, 0), at(5, 4_095), at(5, 8_190)), ((0, 0), (1, 77), (1, log[4_095])));
    assert_eq!((at(7, 0), at(7, 4_095), at(7, 8_190)), ((1, 5), (1, log[0]), (1, log[4_095])));
}

/// A view of a switch that began long before: the reading passes from tick 40,000 on, later than any phase, since the log
/// decides it. The check refuses that, and the run has it; also where the switch is at last absent where it is looked at.
#[test]
fn views_of_long_ago() {
    let mut rng = Rng::new(74);
    let (ticks, first) = (65_535, 40_000);
    for w in [1, 7, 4095] {
        let rows = [[0, 1, 0, 0], [0, 1, 0, 0], [13, 0, 1, 0], [0, 1, 2, 0], [17, 2, 3, w], [18, 2, 3, w]];
        let word = |tick: usize| [1 + tick as u32, u32::from(tick >= first), rng.word() % 2];
        let log: Vec<u32> = (0..ticks).flat_map(word).collect();
        let outcome = run_exactly(&QUICK, &Plan::of(&rows), &log, ticks as u32);
        assert_eq!(outcome.parts, (0, 0, 0, ticks as u32));
        for (flow, is_wanted) in [(4, 1), (5, 0)] {
            let seen = |tick: usize| log[3 * (2 + (tick - first) / w as usize * w as usize) + 2];
            let passes = |tick: usize| tick >= first && seen(tick) == is_wanted;
            let expected: Vec<Option<u32>> = (0..ticks).map(|tick| passes(tick).then_some(1 + tick as u32)).collect();
            assert_eq!(cells(&outcome, 6, flow, ticks), expected, "w {w}, flow {flow}");
        }
        // The switch at every 3000th tick alone: w is no multiple, and the second look meets none.
        let mut rows = rows;
        rows[3] = [0, 3000, 2, 0];
        let clash = (34, 4, (first as u32) + w, 0);
        assert_eq!(run_exactly(&QUICK, &Plan::of(&rows), &log, ticks as u32).parts, clash);
    }
}

/// A reading that begins 4095 ticks after its switch, which is there at every second tick: looked at every w ticks, it is
/// not there at the second look where w is odd. The check refuses that.
#[test]
fn views_with_the_greatest_lag() {
    for (w, number) in [(1, 40), (3, 40), (4093, 40), (4095, 40), (2, 0), (4094, 0)] {
        let plan = Plan::of(&[[1, 7, 1, 4095], [1, 1, 2, 0], [17, 0, 1, w]]);
        assert_eq!(check(&ALL, &plan, 3 * CLOCK_WORDS).parts.0, number);
        let outcome = run_exactly(&ALL, &plan, &[], 9_000);
        let parts = if number == 0 { (0, 0, 0, 9_000) } else { (34, 2, 4_095 + w, 0) };
        assert_eq!(outcome.parts, parts, "w {w}");
        let last = if number == 0 { 9_000 } else { 4_095 + w as usize };
        let expected: Vec<Option<u32>> = (0..last).map(|tick| (tick >= 4_095).then_some(7)).collect();
        assert_eq!(cells(&outcome, 3, 2, last), expected, "w {w}");
    }
}
