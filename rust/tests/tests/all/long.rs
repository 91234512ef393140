//! Runs of many ticks: the library against the quick implementation, which the short runs hold against the paper.

use tests::compare::{run, run_exactly};
use tests::faults::plant;
use tests::generate::{accepted, Shape};
use tests::implementation::{ALL, QUICK};
use tests::rng::Rng;
use tests::tally::Tally;
use tests::{rounds, TICKS, WRITTEN};

/// Thousands of ticks, sound plans and plans with faults.
#[test]
fn thousands_of_ticks() {
    let mut rng = Rng::new(21);
    let mut tally = Tally::default();
    for _ in 0..rounds(3_000) {
        let shape = Shape::long(&mut rng);
        let (mut plan, _) = accepted(&mut rng, shape);
        if rng.percent(40) {
            plant(&mut rng, &mut plan);
        }
        let ticks = rng.range(1, 6_000);
        let log = rng.log(ticks as usize * plan.inputs());
        let outcome = run_exactly(&QUICK, &plan, &log, ticks);
        tally.add("run", outcome.parts.0);
    }
    assert!(tally.count("run", 0) > 1_000 && tally.count("run", 34) > 100, "{tally}");
}

/// As many ticks as a run may have.
#[test]
fn all_ticks() {
    let mut rng = Rng::new(22);
    for flows in [1, 2, 7, 16, 33, 64, 64] {
        for scale in [6, WRITTEN] {
            let (plan, _) = accepted(&mut rng, Shape { flows, scale, sampling: true });
            let log = rng.log(TICKS as usize * plan.inputs());
            let outcome = run_exactly(&QUICK, &plan, &log, TICKS);
            assert_eq!(outcome.parts, (0, 0, 0, TICKS));
        }
    }
}

/// Some hundred ticks against the paper word by word, whose work grows with the square of the ticks.
#[test]
fn hundreds_of_ticks_word_by_word() {
    let mut rng = Rng::new(23);
    for _ in 0..rounds(600) {
        let scale = rng.pick(&[6, 40, 100]);
        let (mut plan, _) = accepted(&mut rng, Shape { flows: 10, scale, sampling: true });
        if rng.percent(30) {
            plant(&mut rng, &mut plan);
        }
        let log = rng.log(400 * plan.inputs());
        let cells = 100 * plan.words.len();
        run(&ALL, &plan, &log, 400, (cells + 3, cells + 1));
    }
}
