//! The benchmark's run and archive in the library's own steps, held against the paper word by word: the benchmark
//! compares equal work.

use tests::compare::{run, run_exactly, written_up_to};
use tests::faults::{any_rows, plant};
use tests::generate::{accepted, Shape};
use tests::implementation::{Implementation, MIRROR, PEER, REFERENCE};
use tests::rng::Rng;
use tests::{rounds, Plan, TICKS};

use crate::archives;
use crate::short::{faulty, sound};

static BOTH: [&Implementation; 2] = [&REFERENCE, &MIRROR];

/// Short runs of sound plans, plans with faults and rows that were not made to fit, with logs and traces of right and
/// wrong lengths; every cell compared, and where each kind clashes.
#[test]
fn short_runs() {
    let mut rng = Rng::new(75);
    let (mut ended, mut refused, mut clashed) = (0, [0; 34], [0; 19]);
    let plans = rounds(120_000);
    for round in 0..plans {
        let plan = match round % 4 {
            0 => sound(&mut rng).0,
            1 => faulty(&mut rng),
            _ => any_rows(&mut rng),
        };
        let flows = plan.words.len() / 4;
        let ticks = rng.range(0, 40);
        let words = ticks as usize * plan.inputs();
        let log_len = if rng.percent(95) { words } else { rng.around(words) };
        let log = rng.log(log_len);
        let cells = ticks as usize * flows;
        let outcome = run(&BOTH, &plan, &log, ticks, (rng.around(cells), rng.around(cells)));
        match outcome.parts {
            (0, _, _, count) => {
                assert_eq!(count, ticks);
                assert!(written_up_to(&outcome, cells));
                ended += 1;
            }
            (34, flow, ..) => clashed[plan.words[4 * flow as usize] as usize] += 1,
            (number, ..) => {
                assert!(outcome.is_untouched());
                refused[number as usize] += 1;
            }
        }
    }
    assert!(ended > plans / 4, "{ended}");
    for number in [11, 13, 14, 15, 32, 33] {
        assert!(refused[number] > plans / 1_000, "number {number} occurs: {refused:?}");
    }
    for (kind, &count) in clashed.iter().enumerate() {
        assert_eq!(count > 0, matches!(kind, 2..=8 | 11 | 13..=15 | 17 | 18), "clashes by kind: {clashed:?}");
    }
}

/// Some hundred ticks against the paper; as many as there may be, against the quick run.
#[test]
fn longer_runs() {
    let mut rng = Rng::new(76);
    for _ in 0..rounds(300) {
        let scale = rng.pick(&[6, 40, 100]);
        let (mut plan, _) = accepted(&mut rng, Shape { flows: 10, scale, sampling: true });
        if rng.percent(30) {
            plant(&mut rng, &mut plan);
        }
        let log = rng.log(300 * plan.inputs());
        run_exactly(&BOTH, &plan, &log, 300);
    }
    for flows in [1, 16, 64] {
        let (plan, _) = accepted(&mut rng, Shape { flows, scale: 40, sampling: true });
        let log = rng.log(TICKS as usize * plan.inputs());
        assert_eq!(run_exactly(&[&PEER, &MIRROR], &plan, &log, TICKS).parts, (0, 0, 0, TICKS));
    }
    let plan = Plan::of(&[[0, 1, 0, 0]]);
    assert_eq!(run(&BOTH, &plan, &[], TICKS + 1, (0, 0)).parts, (31, 0, 0, 0));
}

/// Traces stored and restored, of plans of every sort.
#[test]
fn archives_of_few_ticks() {
    archives::few_ticks(Rng::new(77), &BOTH, rounds(10_000));
}
