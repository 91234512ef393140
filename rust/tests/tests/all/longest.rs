//! Long runs of as many ticks as there may be, and around the window's edges: every kind of row, and views that look
//! back as far as there is. A plan that the check accepts has no clash in any of them.

use std::collections::BTreeSet;

use tests::compare::{check, long_run_exactly, Outcome};
use tests::implementation::{Implementation, LIBRARY};
use tests::rng::Rng;
use tests::{is_view, Plan, CLOCK_WORDS, DERIVED, WINDOW};

use crate::endurance::{FOUR, THREE};

/// Around the window's edges, in the middle of the window's last turn, and the most there may be.
const COUNTS: [u32; 7] = [131_071, 131_072, 131_073, 262_144, 4_128_768, 4_194_302, 4_194_303];

/// Long runs of an accepted plan over the same log end, whatever the count of ticks; one with a tick too many is
/// refused. Gives how many looks of views went back over the window's edge.
fn lasts(rng: &mut Rng, of: &[&Implementation], rows: &[[u32; 4]]) -> usize {
    let (plan, mut over) = (Plan::of(rows), 0);
    let log = rng.log(4_194_304 * plan.inputs());
    for ticks in COUNTS {
        let outcome = long_run_exactly(of, &plan, &log[..ticks as usize * plan.inputs()], ticks);
        assert_eq!(outcome.parts, (0, 0, 0, ticks), "{rows:?}");
        over += looks_over_the_edge(&plan, &outcome, ticks as usize);
        for (flow, row) in rows.iter().enumerate().filter(|_| ticks > 4_000_000) {
            let count = |flow: usize| outcome.tallies[2 * flow];
            assert!(count(flow) > 0, "flow {flow} of {rows:?}");
            assert!(!is_view(row) || count(flow) < count(row[1] as usize), "flow {flow} of {rows:?}");
        }
    }
    let outcome = long_run_exactly(of, &plan, &log, 4_194_304);
    assert_eq!(outcome.parts, (31, 0, 0, 0), "{rows:?}");
    assert!(outcome.is_untouched(), "{rows:?}");
    over
}

/// What the views of a long run have in its window, worked out again from a and c in the request's own words where c is
/// still there. Gives how many looks went back over the window's edge.
fn looks_over_the_edge(plan: &Plan, outcome: &Outcome, ticks: usize) -> usize {
    let (rows, flows) = (plan.words.as_chunks::<4>().0, plan.words.len() / 4);
    let clocks = check(&[&LIBRARY], plan, CLOCK_WORDS * flows).words;
    let first = |flow: u32| clocks[CLOCK_WORDS * flow as usize + 1] as usize;
    let cell = |flow: u32, tick: usize| {
        let place = tick % WINDOW * flows + flow as usize;
        (outcome.bytes[place] == 1).then(|| outcome.words[place])
    };
    let (kept, mut over) = (ticks.saturating_sub(WINDOW)..ticks, 0);
    for (flow, &[kind, a, c, w]) in (0..).zip(rows).filter(|(_, row)| is_view(&row[..])) {
        for tick in kept.clone() {
            let Some(value) = cell(a, tick) else {
                assert_eq!(cell(flow, tick), None, "tick {tick}, flow {flow}: {plan:?}");
                continue;
            };
            let start = tick - (tick - first(a)) % w as usize;
            let read = start - first(a) + first(c);
            if kept.contains(&read) {
                let seen = cell(c, read).expect("c is there where it is looked at");
                let expected = ((seen != 0) == (kind == 17)).then_some(value);
                assert_eq!(cell(flow, tick), expected, "tick {tick}, flow {flow}: {plan:?}");
                over += usize::from(read / WINDOW < start / WINDOW);
            }
        }
    }
    over
}

/// Plans that have every kind of row: a reading, the sum so far, and comparisons; a reading while a switch is off, and
/// what it was before while it is on, also 4095 ticks later; a slow recorder, and what moves its clock; and readings
/// from tick 65,535 on under a switch that began at once.
const NARROW: [&[[u32; 4]]; 4] = [
    &[[0, 1, 0, 0], [7, 5, 0, 2], [2, 0, 1, 0], [3, 2, 0, 0], [1, 1, 1, 0], [4, 0, 4, 0], [5, 0, 4, 0], [6, 0, 4, 0]],
    &[[0, 1, 0, 0], [0, 1, 0, 0], [13, 0, 1, 0], [14, 0, 1, 0], [7, 7, 2, 2], [15, 1, 4, 3], [10, 5, 4095, 0]],
    &[[0, 3855, 0, 0], [9, 0, 17, 0], [12, 1, 0, 0], [11, 2, 77, 0], [10, 3, 4095, 0], [7, 4, 1, 3], [12, 5, 0, 0]],
    &[
        [0, 1, 0, 0],
        [0, 3855, 0, 0],
        [9, 1, 17, 0],
        [12, 2, 0, 0],
        [8, 3, 17, 3855],
        [17, 4, 0, 3855],
        [18, 4, 0, 3855],
    ],
];

/// Plans that are narrow enough for the paper word by word, which keeps every tick: more than a second for each run.
#[test]
fn every_kind_word_by_word() {
    let kinds: BTreeSet<u32> = NARROW.iter().flat_map(|rows| rows.iter().map(|row| row[0])).collect();
    assert!(kinds.into_iter().eq((0..=15).chain(17..=18)));
    let mut rng = Rng::new(161);
    for rows in NARROW {
        lasts(&mut rng, &FOUR, rows);
    }
}

/// Readings that begin at tick 65,535, by delays, by tails and by copies of a slow recorder, under switches that began
/// at once, at the same pace and at others, looked at as often as can be and as seldom. They are held against the quick
/// implementation, as the paper word by word would take too long and too much memory.
#[test]
fn late_views() {
    // Every tick: 16 times 4095 ticks later and 15.
    let mut delayed = vec![[0, 1, 0, 0], [0, 1, 0, 0]];
    delayed.extend((1..17).map(|before| [10, before, 4095, 0]));
    delayed.extend([[10, 17, 15, 0], [17, 18, 0, 1], [18, 18, 0, 2], [17, 18, 0, 64], [18, 18, 0, 4095]]);
    // Every 4095 ticks: without the first 16 of them.
    let mut shortened = vec![[0, 4095, 0, 0], [0, 63, 0, 0], [0, 65, 0, 0], [0, 4095, 15, 0]];
    shortened.extend((3..19).map(|before| [12, before, 0, 0]));
    shortened.extend([[17, 19, 0, 4095], [18, 19, 0, 4095], [17, 19, 1, 4095], [18, 19, 2, 4095]]);
    // Every tick, every 32 and every 1024: copies of a recorder of period 64,512 without its first value; and the head
    // of a reading every 5 ticks.
    let mut copied = vec![[0, 5, 5, 0], [11, 0, 9, 0], [0, 1, 0, 0], [0, 1024, 1023, 0], [9, 3, 63, 0], [12, 4, 0, 0]];
    copied.extend([[8, 5, 63, 1024], [8, 6, 32, 32], [8, 7, 32, 1]]);
    copied.extend([[17, 8, 1, 5], [18, 8, 1, 4095], [17, 7, 1, 160], [18, 6, 2, 2048]]);
    let mut rng = Rng::new(162);
    for (rows, least) in [(delayed, 200_000), (shortened, 50), (copied, 120_000)] {
        let clocks = check(&[&LIBRARY], &Plan::of(&rows), CLOCK_WORDS * rows.len());
        let clock = |flow: u32| &clocks.words[CLOCK_WORDS * flow as usize..][..CLOCK_WORDS];
        for row in rows.iter().filter(|row| is_view(&row[..])) {
            assert_eq!(clock(row[1])[1] - clock(row[2])[1], DERIVED, "{row:?}");
        }
        let over = lasts(&mut rng, &THREE, &rows);
        assert!(over > least, "{over} looks over the edge: {rows:?}");
    }
}
