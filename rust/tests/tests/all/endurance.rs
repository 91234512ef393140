//! Long runs of random plans: the implementations against each other, and against the trace of a plain run.

use tests::compare::{check, keeps, long_run, long_run_exactly, read, run, run_exactly, window, Lengths, Outcome};
use tests::faults::{any_rows, break_clocks, damage};
use tests::generate::{accepted, Shape};
use tests::implementation::{Implementation, ALL, LIBRARY, MIRROR, PEER, QUICK, REFERENCE};
use tests::rng::Rng;
use tests::tally::Tally;
use tests::{rounds, Plan, CLOCK_WORDS, TICKS, WINDOW, WRITTEN};

use crate::packed::packed;
use crate::short::{faulty, sound};
use crate::views::viewing;

/// All, with the one that takes the library's own steps.
pub static FOUR: [&Implementation; 4] = [&REFERENCE, &LIBRARY, &PEER, &MIRROR];

/// Those that are quick enough for thousands of ticks.
pub static THREE: [&Implementation; 3] = [&PEER, &LIBRARY, &MIRROR];

/// The trace of an accepted plan over any count of ticks: that of the library's run, or the windows of its long runs one
/// after the other, which begin as that run does.
fn traced(plan: &Plan, log: &[u32], ticks: u32) -> Outcome {
    let (flows, inputs) = (plan.words.len() / 4, plan.inputs());
    let until = |ticks: u32| &log[..ticks as usize * inputs];
    let most = ticks.min(TICKS);
    let run = run_exactly(&[&LIBRARY], plan, until(most), most);
    if ticks == most {
        return run;
    }
    let mut trace = Outcome { parts: (0, 0, 0, ticks), bytes: vec![], words: vec![], tallies: vec![], sets: vec![] };
    for first in (0..ticks).step_by(WINDOW) {
        let end = ticks.min(first + WINDOW as u32);
        let window = long_run_exactly(&[&LIBRARY], plan, until(end), end);
        let cells = (end - first) as usize * flows;
        trace.bytes.extend(&window.bytes[..cells]);
        trace.words.extend(&window.words[..cells]);
    }
    let cells = most as usize * flows;
    assert!(trace.bytes[..cells] == run.bytes[..cells] && trace.words[..cells] == run.words[..cells], "{plan:?}");
    trace
}

/// A long run that has to be accepted, and that keeps of the trace what it has to keep. Gives the trace.
pub fn ends(of: &[&Implementation], plan: &Plan, log: &[u32], ticks: u32) -> Outcome {
    let (flows, outcome) = (plan.words.len() / 4, long_run_exactly(of, plan, log, ticks));
    assert_eq!(outcome.parts, (0, 0, 0, ticks), "{plan:?}");
    let trace = traced(plan, log, ticks);
    keeps(&outcome, window(flows), &trace, flows, ticks as usize);
    trace
}

/// A plan of any sort: made to be accepted, with faults or with clocks that differ in it, of rows that were not made to
/// fit, or what is read from damaged bytes.
fn of_any_sort(rng: &mut Rng) -> Plan {
    match rng.below(8) {
        0..=2 => sound(rng).0,
        3 => faulty(rng),
        4 => {
            let (mut plan, _) = sound(rng);
            break_clocks(rng, &mut plan);
            plan
        }
        5 | 6 => any_rows(rng),
        _ => loop {
            let mut bytes = packed(rng);
            damage(rng, &mut bytes);
            if let Outcome { parts: (0, _, _, count), words, .. } = read(&[&LIBRARY], &bytes, 256) {
                return Plan { count, words: words[..4 * count as usize].to_vec() };
            }
        },
    }
}

/// The most of few ticks.
const FEW: u32 = 300;

/// Few ticks, often around the 64 of a stretch that the library works out at once, now and then too many; and a log for
/// the first of them, now and then of the wrong length.
fn few_ticks_and_log(rng: &mut Rng, plan: &Plan) -> (u32, Vec<u32>) {
    let ticks = match rng.below(40) {
        0 => rng.pick(&[4_194_304, u32::MAX]),
        1..=5 => rng.pick(&[0, 1, 63, 64, 65, 127, 128, 129, 192]),
        6..=9 => rng.range(0, FEW),
        _ => rng.range(0, 48),
    };
    let words = ticks.min(FEW) as usize * plan.inputs();
    let log_len = if rng.percent(95) { words } else { rng.around(words) };
    (ticks, rng.log(log_len))
}

/// Few ticks of plans of any sort, with logs and buffers of right and wrong lengths: the number is what the paper says,
/// and never a clash. The check's refusals are handed on, and a plan whose run clashes has one, whichever row it is at.
#[test]
fn few_ticks() {
    let mut rng = Rng::new(101);
    let mut tally = Tally::default();
    let (mut clashed, plans) = ([0; 19], rounds(4_000));
    for _ in 0..plans {
        let plan = of_any_sort(&mut rng);
        let (ticks, log) = few_ticks_and_log(&mut rng, &plan);
        let flows = plan.words.len() / 4;
        let Lengths { bytes, words, tallies, .. } = window(flows);
        let lengths = match rng.percent(60) {
            true => window(flows),
            false => {
                let [bytes, words, tallies] = [bytes, words, tallies].map(|len| rng.around(len));
                Lengths { bytes, words, tallies, sets: 0 }
            }
        };
        let outcome = long_run(&FOUR, &plan, &log, ticks, lengths);
        let number = outcome.parts.0;
        tally.add("long run", number);
        let checked = check(&[&LIBRARY], &plan, CLOCK_WORDS * flows).parts;
        assert!(checked.0 == 0 || outcome.parts == checked, "{plan:?}");
        let trace = run(&[&LIBRARY], &plan, &log, ticks, (FEW as usize * flows, FEW as usize * flows));
        if number == 0 {
            keeps(&outcome, lengths, &trace, flows, ticks as usize);
        } else {
            assert!(outcome.is_untouched(), "{plan:?}");
        }
        if let (34, flow, ..) = trace.parts {
            assert!(matches!(number, 21..=23 | 40), "{plan:?}");
            clashed[plan.words[4 * flow as usize] as usize] += 1;
        }
    }
    every_number_but_a_clash(&tally, plans);
    many_clashed(&clashed, plans);
}

/// Each number of a long run occurred, and no other: 34 neither.
fn every_number_but_a_clash(tally: &Tally, plans: usize) {
    for number in [0, 11, 13, 14, 15, 21, 22, 23, 31, 32, 35, 40] {
        assert!(tally.count("long run", number) > plans / 1_000, "number {number} occurs: {tally}");
    }
    for number in [10, 12, 16, 33, 34].into_iter().chain(36..=39).chain(41..=43) {
        assert_eq!(tally.count("long run", number), 0, "{tally}");
    }
}

/// Many runs clashed, by the kind of the row: every kind that can.
fn many_clashed(clashed: &[usize; 19], plans: usize) {
    for (kind, &count) in clashed.iter().enumerate() {
        assert_eq!(count > 0, matches!(kind, 2..=8 | 11 | 13..=15 | 17 | 18), "clashes by kind: {clashed:?}");
    }
    assert!(clashed.iter().sum::<usize>() > plans / 10, "clashes by kind: {clashed:?}");
}

/// Plans whose runs go on for thousands of ticks before they clash: long runs of them are refused at once.
#[test]
fn late_clashes() {
    let mut rng = Rng::new(105);
    let (mut late, plans) = (0, rounds(3_000));
    for _ in 0..plans {
        let flows = 2 + rng.below(6);
        let (mut plan, _) = accepted(&mut rng, Shape { flows, scale: WRITTEN, sampling: true });
        break_clocks(&mut rng, &mut plan);
        let log = rng.log(TICKS as usize * plan.inputs());
        let (number, _, tick, _) = run_exactly(&QUICK, &plan, &log, TICKS).parts;
        if number == 34 && tick > WRITTEN {
            let outcome = long_run_exactly(&FOUR, &plan, &log, TICKS);
            assert!(matches!(outcome.parts.0, 21..=23 | 40), "{plan:?}");
            assert!(outcome.is_untouched(), "{plan:?}");
            late += 1;
        }
    }
    assert!(late > plans / 20, "{late} of {plans}");
}

/// Once and more often round the window: sound plans of all sizes.
#[test]
fn round_the_window() {
    let mut rng = Rng::new(102);
    for _ in 0..rounds(40) {
        let shape = Shape::long(&mut rng);
        let (plan, _) = accepted(&mut rng, shape);
        let ticks = match rng.below(3) {
            0 => rng.pick(&[131_071, 131_072, 131_073, 196_607, 196_608, 262_143, 262_144, 262_145]),
            1 => rng.range(10_000, 131_071),
            _ => rng.range(131_072, 300_000),
        };
        let log = rng.log(ticks as usize * plan.inputs());
        ends(&THREE, &plan, &log, ticks);
    }
}

/// The paper word by word, whose work grows with the square of the ticks: long clocks, around the window's end.
#[test]
fn round_the_window_word_by_word() {
    let mut rng = Rng::new(103);
    for _ in 0..rounds(10) {
        let flows = 2 + rng.below(4);
        let (plan, _) = accepted(&mut rng, Shape { flows, scale: WRITTEN, sampling: true });
        let ticks = rng.pick(&[131_071, 131_072, 131_073, 150_000]);
        let log = rng.log(ticks as usize * plan.inputs());
        ends(&ALL, &plan, &log, ticks);
    }
}

/// Millions of ticks, and as many as there may be, with views.
#[test]
fn millions_of_ticks() {
    let mut rng = Rng::new(104);
    for (flows, scale) in [(3, 2), (5, 6), (8, 100), (16, WRITTEN)] {
        for ticks in [rng.range(1_000_000, 4_194_302), 4_194_303] {
            let (plan, _) = viewing(&mut rng, |_| Shape { flows, scale, sampling: true });
            let log = rng.log(ticks as usize * plan.inputs());
            assert_eq!(long_run_exactly(&THREE, &plan, &log, ticks).parts, (0, 0, 0, ticks));
        }
    }
}
