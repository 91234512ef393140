//! The window and the tallies of a long run: by hand, at every edge, and refused in the right order.

use tests::compare::{keeps, long_run, long_run_exactly, pattern_byte, pattern_word, run_exactly, window, Lengths};
use tests::faults::refused_plans;
use tests::implementation::{Implementation, Parts, ALL, LIBRARY};
use tests::{Plan, TICKS, WINDOW};

use crate::endurance::{FOUR, THREE};
use crate::traces::in_writing;

/// A long run over a log leaves these cells in its window, these tallies, and all else as it was. `cell` is what a flow
/// has at a tick: a place has the latest tick that comes to it, if one does.
fn leaves(
    of: &[&Implementation],
    rows: &[[u32; 4]],
    log: &[u32],
    ticks: usize,
    tallies: &[u32],
    cell: impl Fn(usize, usize) -> Option<u32>,
) {
    let flows = rows.len();
    let outcome = long_run_exactly(of, &Plan::of(rows), log, ticks as u32);
    assert_eq!(outcome.parts, (0, 0, 0, ticks as u32), "{rows:?}");
    for place in 0..outcome.bytes.len() {
        let (first, flow) = (place / flows, place % flows);
        let expected = match first < ticks.min(WINDOW) {
            true => cell(first + (ticks - 1 - first) / WINDOW * WINDOW, flow).map_or((0, 0), |value| (1, value)),
            false => (pattern_byte(place), pattern_word(place)),
        };
        let found = (outcome.bytes[place], outcome.words[place]);
        assert_eq!(found, expected, "{rows:?}, {ticks} ticks, place {first} of flow {flow}");
    }
    assert_eq!(outcome.tallies[..2 * flows], *tallies, "{rows:?}, {ticks} ticks");
    assert!((2 * flows..outcome.tallies.len()).all(|place| outcome.tallies[place] == pattern_word(place)));
}

/// All where the ticks are few, else those that are quick enough.
fn quick_enough(ticks: usize) -> &'static [&'static Implementation] {
    if ticks < 100 {
        &FOUR
    } else {
        &THREE
    }
}

/// A log of one input: the words from 1,000 on.
fn counting(ticks: usize) -> Vec<u32> {
    (1_000..1_000 + ticks as u32).collect()
}

/// A long run of few ticks leaves this window and these tallies, both worked out by hand.
fn gives(rows: &[[u32; 4]], log: &[u32], trace: &str, tallies: &[u32]) {
    let ticks = trace.split('|').count();
    let outcome = long_run_exactly(&FOUR, &Plan::of(rows), log, ticks as u32);
    let untouched = " | _".to_string() + &" _".repeat(rows.len() - 1);
    assert_eq!(in_writing(&outcome, rows.len(), ticks + 1), trace.to_string() + &untouched, "{rows:?}");
    assert_eq!(outcome.tallies[..2 * rows.len()], *tallies, "{rows:?}");
}

/// The README's worked example; a sum that counts; and flows that had no value, or 0 as their last one.
#[test]
fn by_hand() {
    let rows = [[0, 2, 0, 0], [9, 0, 2, 0], [7, 20, 1, 1], [4, 2, 1, 0], [13, 1, 3, 0]];
    let trace = "18 18 20 0 . | . . . . . | 19 . . . . | . . . . . | 25 25 18 1 25 | . . . . . | 24 . . . . \
                 | . . . . . | 22 22 25 0 .";
    gives(&rows, &[18, 0, 19, 0, 25, 0, 24, 0, 22], trace, &[5, 22, 3, 22, 3, 25, 3, 0, 1, 25]);
    let rows = [[0, 1, 0, 0], [7, 0, 0, 2], [2, 0, 1, 0]];
    gives(&rows, &[5, 6, 7], "5 0 5 | 6 5 11 | 7 11 18", &[3, 7, 3, 11, 3, 18]);
    let rows = [[1, 8, 1, 3], [0, 1, 0, 0], [13, 1, 1, 0], [14, 1, 1, 0]];
    gives(&rows, &[4, 0, 0], ". 4 4 . | . 0 . 0 | . 0 . 0", &[0, 0, 3, 0, 1, 4, 2, 0]);
}

/// Around once and twice the ticks of the window, an input, every third tick a constant, and the input five ticks
/// later.
#[test]
fn edges() {
    let rows = [[0, 1, 0, 0], [1, 9, 3, 1], [10, 0, 5, 0]];
    for ticks in [0, 1, 2, 131_071, 131_072, 131_073, 262_143, 262_144, 262_145] {
        let log = counting(ticks);
        let last = |back: usize| if ticks > back { log[ticks - 1 - back] } else { 0 };
        let (threes, later) = ((ticks + 1) / 3, ticks.saturating_sub(5));
        let third = if threes > 0 { 9 } else { 0 };
        let tallies = [ticks as u32, last(0), threes as u32, third, later as u32, last(5)];
        leaves(quick_enough(ticks), &rows, &log, ticks, &tallies, |tick, flow| match flow {
            0 => Some(log[tick]),
            1 => (tick % 3 == 1).then_some(9),
            _ => tick.checked_sub(5).map(|tick| log[tick]),
        });
    }
}

/// The same edges with long clocks, which the paper word by word takes too: a recorder, its values from the second on, and
/// all of them 4095 ticks later.
#[test]
fn edges_of_long_clocks() {
    let rows = [[0, 3855, 0, 0], [9, 0, 17, 0], [12, 1, 0, 0], [10, 1, 4095, 0]];
    for ticks in [131_070, 131_071, 131_072, 131_073, 262_140, 262_141, 262_144, 262_145] {
        let log = counting(ticks);
        let cell = |tick: usize, flow: usize| match flow {
            0 => tick.is_multiple_of(3_855).then(|| log[tick]),
            1 => tick.is_multiple_of(65_535).then(|| log[tick]),
            2 => (tick > 0 && tick.is_multiple_of(65_535)).then(|| log[tick]),
            _ => tick.checked_sub(4_095).filter(|tick| tick.is_multiple_of(65_535)).map(|tick| log[tick]),
        };
        leaves(&FOUR, &rows, &log, ticks, &counted(rows.len(), ticks, cell), cell);
    }
}

/// As many ticks as there may be, and one more.
#[test]
fn all_ticks() {
    let rows = [[0, 1, 0, 0], [10, 0, 4095, 0], [7, 3, 0, 0], [9, 0, 63, 0], [12, 3, 0, 0]];
    let ticks = 4_194_303;
    let log = counting(ticks + 1);
    let (last, before) = (1_000 + ticks as u32 - 1, 1_000 + ticks as u32 - 2);
    // 66,577 times 63 ticks begin, the last of them at tick 4,194,288.
    let sixties = [66_577, 4_195_288, 66_576, 4_195_288];
    let tallies = [&[4_194_303, last, 4_190_208, last - 4_095, 4_194_303, before], &sixties[..]].concat();
    leaves(&THREE, &rows, &log[..ticks], ticks, &tallies, |tick, flow| match flow {
        0 => Some(log[tick]),
        1 => tick.checked_sub(4_095).map(|tick| log[tick]),
        2 => Some(if tick == 0 { 3 } else { log[tick - 1] }),
        3 => tick.is_multiple_of(63).then_some(log[tick]),
        _ => (tick > 0 && tick.is_multiple_of(63)).then_some(log[tick]),
    });
    let outcome = long_run_exactly(&THREE, &Plan::of(&rows), &log, 4_194_304);
    assert_eq!(outcome.parts, (31, 0, 0, 0));
    assert!(outcome.is_untouched());
}

/// Delays that reach back over the window's edge, in narrow plans and in the widest.
#[test]
fn delays_over_the_edge() {
    let widest: Vec<u32> = (0..63).map(|flow| 4_095 - 65 * flow).collect();
    for delays in [&[4_095][..], &[1, 4_095, 4_094], &widest] {
        let mut rows = vec![[0, 1, 0, 0]];
        rows.extend(delays.iter().map(|&d| [10, 0, d, 0]));
        for ticks in [131_073, 135_166, 135_167, 135_168, 262_144, 280_000] {
            let log = counting(ticks);
            let delay = |flow: usize| if flow == 0 { 0 } else { delays[flow - 1] as usize };
            let tally = |flow| [(ticks - delay(flow)) as u32, log[ticks - 1 - delay(flow)]];
            let tallies: Vec<u32> = (0..rows.len()).flat_map(tally).collect();
            leaves(&THREE, &rows, &log, ticks, &tallies, |tick, flow| Some(log[tick.checked_sub(delay(flow))?]));
        }
    }
}

/// The tallies of flows with these cells, counted tick by tick.
fn counted(flows: usize, ticks: usize, cell: impl Fn(usize, usize) -> Option<u32>) -> Vec<u32> {
    let tally = |flow| {
        let values: Vec<u32> = (0..ticks).filter_map(|tick| cell(tick, flow)).collect();
        [values.len() as u32, values.last().copied().unwrap_or(0)]
    };
    (0..flows).flat_map(tally).collect()
}

/// Views that reach back over the window's edge: readings that begin up to 4095 ticks after the switch that they are
/// under, in narrow plans and in the widest.
#[test]
fn views_over_the_edge() {
    let widest: Vec<(u32, u32)> = (0..31).map(|view| (4_095 - 130 * view, 1 + 136 * view)).collect();
    for views in [&[(4_095, 1)][..], &[(4_095, 4_095)], &[(4_095, 7)], &[(4_094, 2), (1, 4_093)], &widest] {
        // The switch and its readings later, each under the switch as it is seen every w ticks.
        let mut rows = vec![[0, 1, 0, 0]];
        rows.extend(views.iter().map(|&(d, _)| [10, 0, d, 0]));
        rows.extend((1..).zip(views).map(|(a, &(_, w))| [18 - w % 2, a, 0, w]));
        for ticks in [131_073, 135_167, 135_168, 262_145, 280_000] {
            let log: Vec<u32> = (0..ticks as u32).map(|tick| tick / 5 % 3 * (1_000 + tick)).collect();
            let later = |tick: usize, view: usize| Some(log[tick.checked_sub(views[view].0 as usize)?]);
            let cell = |tick: usize, flow: usize| match (flow, flow.checked_sub(1 + views.len())) {
                (0, _) => Some(log[tick]),
                (_, None) => later(tick, flow - 1),
                (_, Some(view)) => {
                    let (d, w) = (views[view].0 as usize, views[view].1 as usize);
                    let seen = log[tick.checked_sub(d)? / w * w];
                    later(tick, view).filter(|_| (seen != 0) == (w % 2 == 1))
                }
            };
            leaves(&THREE, &rows, &log, ticks, &counted(rows.len(), ticks, cell), cell);
        }
    }
}

/// The longest look back, 65,535 ticks: readings that begin so late, under a switch that began at once. Long clocks, which
/// the paper word by word takes too, and every tick.
#[test]
fn the_longest_look_back() {
    for (of, period, w, ticks) in [
        (&FOUR[..], 195, 4_095, 131_073),
        (&FOUR[..], 4_095, 4_095, 200_000),
        (&THREE[..], 1, 1, 131_073),
        (&THREE[..], 1, 4_095, 196_608),
        (&THREE[..], 5, 35, 196_609),
        (&THREE[..], 45, 4_095, 4_194_303),
    ] {
        let mut rows = vec![[0, period, 0, 0]];
        rows.extend((0..16).map(|before| [10, before, 4095, 0]));
        rows.extend([[10, 16, 15, 0], [17, 17, 0, w], [18, 17, 0, w]]);
        let log: Vec<u32> = (0..ticks as u32).map(|tick| tick / w % 3 * (1_000 + tick)).collect();
        let later = |tick: usize, back: usize| {
            tick.checked_sub(back).filter(|tick| tick.is_multiple_of(period as usize)).map(|tick| log[tick])
        };
        let cell = |tick: usize, flow: usize| match flow {
            0..=16 => later(tick, 4_095 * flow),
            17 => later(tick, 65_535),
            _ => {
                let value = later(tick, 65_535)?;
                let seen = log[(tick - 65_535) / w as usize * w as usize];
                Some(value).filter(|_| (seen != 0) == (flow == 18))
            }
        };
        leaves(of, &rows, &log, ticks, &counted(rows.len(), ticks, cell), cell);
    }
}

/// Readings that pass only where a condition holds, a register of those, and the readings again with the register's
/// values where the condition holds.
const SAMPLED: [[u32; 4]; 6] =
    [[0, 10, 0, 0], [0, 10, 0, 0], [13, 0, 1, 0], [7, 7, 2, 2], [14, 0, 1, 0], [15, 1, 3, 4]];

/// The condition holds at these ticks alone, more than a window apart: the register has the reading of the one before,
/// which is long gone.
fn far_apart(of: &[&Implementation], ticks: usize, holds: &[usize]) {
    let reading = |tick: usize| 500 + tick as u32;
    let log: Vec<u32> = (0..ticks).flat_map(|tick| [reading(tick), u32::from(holds.contains(&tick))]).collect();
    let kept = |place: usize| if place == 0 { 7 } else { reading(holds[place - 1]) };
    let (tens, last) = (ticks.div_ceil(10), (ticks - 1) / 10 * 10);
    let (passed, latest) = (holds.len(), holds[holds.len() - 1]);
    let merged = if latest == last { kept(passed - 1) } else { reading(last) };
    let left_out = if latest == last { last - 10 } else { last };
    let tallies = [
        [tens as u32, reading(last)],
        [tens as u32, u32::from(latest == last)],
        [passed as u32, reading(latest)],
        [passed as u32, kept(passed - 1)],
        [(tens - passed) as u32, reading(left_out)],
        [tens as u32, merged],
    ];
    leaves(of, &SAMPLED, &log, ticks, &tallies.concat(), |tick, flow| {
        let place = holds.iter().position(|&holds| holds == tick);
        match (flow, place) {
            _ if tick % 10 > 0 => None,
            (0, _) | (2, Some(_)) | (4 | 5, None) => Some(reading(tick)),
            (1, _) => Some(u32::from(place.is_some())),
            (3 | 5, Some(place)) => Some(kept(place)),
            _ => None,
        }
    });
}

#[test]
fn sources_of_long_ago() {
    far_apart(&FOUR, 140_000, &[30, 131_110, 131_120, 137_000]);
    far_apart(&THREE, 600_000, &[30, 300_030, 300_040, 570_000]);
    far_apart(&THREE, 280_001, &[0, 140_000, 280_000]);
    far_apart(&THREE, 4_194_291, &[0, 4_194_290]);
    far_apart(&THREE, 4_194_303, &[131_070, 4_000_000]);
}

/// Each of the three buffers one short, exact and one long, however few the ticks.
#[test]
fn lengths() {
    let plan = Plan::of(&[[0, 4, 0, 0], [1, 7, 3, 2], [10, 0, 5, 0]]);
    let Lengths { bytes, words, tallies, .. } = window(3);
    for ticks in [0, 1, 9, 131_071] {
        let log = counting(ticks as usize);
        let trace = run_exactly(&[&LIBRARY], &plan, &log, ticks);
        for case in 0..27 {
            let more = [case % 3, case / 3 % 3, case / 9];
            let [bytes, words, tallies] = [bytes + more[0] - 1, words + more[1] - 1, tallies + more[2] - 1];
            let lengths = Lengths { bytes, words, tallies, sets: 0 };
            let outcome = long_run(quick_enough(ticks as usize), &plan, &log, ticks, lengths);
            if more.contains(&0) {
                assert_eq!(outcome.parts, (35, 0, 0, 0), "{lengths:?}");
                assert!(outcome.is_untouched(), "{lengths:?}");
            } else {
                keeps(&outcome, lengths, &trace, 3, ticks as usize);
            }
        }
    }
}

/// A long run is refused with these parts, and leaves all three buffers as they were.
fn refused(plan: &Plan, log: usize, ticks: u32, lengths: Lengths, parts: Parts) {
    let outcome = long_run(&ALL, plan, &vec![1; log], ticks, lengths);
    assert_eq!(outcome.parts, parts, "{plan:?}, log of {log} words, {ticks} ticks, {lengths:?}");
    assert!(outcome.is_untouched(), "{plan:?}");
}

/// Of two causes the earlier one is told: the table's, the check's, the ticks, the log, the buffers.
#[test]
fn order_of_refusals() {
    let none = Lengths::default();
    for (log, ticks, lengths) in [(0, u32::MAX, none), (1, 1, window(3)), (2, 1, none), (2, 1, window(3))] {
        for (plan, parts) in refused_plans() {
            refused(&plan, log, ticks, lengths, parts);
        }
    }
    for (log, ticks, lengths, number) in [
        (1, 4_194_304, none, 31),
        (1, u32::MAX, window(1), 31),
        (1, 4_194_303, none, 32),
        (2, 1, none, 32),
        (0, 1, window(1), 32),
        (1, 0, window(1), 32),
        (1, 1, none, 35),
        (0, 0, none, 35),
    ] {
        refused(&Plan::of(&[[0, 1, 0, 0]]), log, ticks, lengths, (number, 0, 0, 0));
    }
}

/// Around as many ticks as a plain run may have, and past them.
#[test]
fn ticks_past_those_of_a_run() {
    let rows = [[0, 5, 2, 0], [9, 0, 2, 0]];
    for ticks in [TICKS as usize, TICKS as usize + 1, TICKS as usize + 2] {
        let log = counting(ticks);
        let (fives, tens) = ((ticks + 2) / 5, (ticks + 7) / 10);
        let tallies = [fives, 5 * fives - 3 + 1_000, tens, 10 * tens - 8 + 1_000].map(|word| word as u32);
        leaves(&THREE, &rows, &log, ticks, &tallies, |tick, flow| {
            let period = if flow == 0 { 5 } else { 10 };
            (tick % period == 2).then(|| log[tick])
        });
    }
}
