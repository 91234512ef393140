//! Less and larger read signed numbers: values on both sides of the places where the sign changes.

use tests::compare::run_exactly;
use tests::faults::any_rows;
use tests::generate::{accepted, Shape};
use tests::rng::Rng;
use tests::{rounds, Plan};

use crate::endurance::{ends, FOUR, THREE};
use crate::short::{faulty, sound};

/// The least number, -2, -1, 0, 1 and the greatest.
const ASCENDING: [u32; 6] = [2_147_483_648, 4_294_967_294, 4_294_967_295, 0, 1, 2_147_483_647];

/// A log of those values, and now and then of any.
fn log(rng: &mut Rng, words: usize) -> Vec<u32> {
    (0..words).map(|_| if rng.percent(20) { rng.word() } else { rng.pick(&ASCENDING) }).collect()
}

/// Every pair of those values, one a tick: their places tell which is less, whether they are equal, which is larger.
#[test]
fn every_pair() {
    let input = [0, 1, 0, 0];
    let plan = Plan::of(&[input, input, [4, 0, 1, 0], [5, 0, 1, 0], [6, 0, 1, 0]]);
    let pairs: Vec<(usize, usize)> = (0..36).map(|pair| (pair / 6, pair % 6)).collect();
    let log: Vec<u32> = pairs.iter().flat_map(|&(a, b)| [ASCENDING[a], ASCENDING[b]]).collect();
    let outcome = run_exactly(&FOUR, &plan, &log, 36);
    assert_eq!(outcome.parts, (0, 0, 0, 36));
    for (tick, &(a, b)) in pairs.iter().enumerate() {
        let cells = [ASCENDING[a], ASCENDING[b], u32::from(a < b), u32::from(a == b), ASCENDING[a.max(b)]];
        assert_eq!(outcome.words[5 * tick..][..5], cells);
    }
}

/// Sound plans, plans with faults and rows that were not made to fit, over logs of those values; every cell compared.
/// The cells of less and larger whose operands differ in sign, at which another order shows, are counted.
#[test]
fn random_plans() {
    let mut rng = Rng::new(121);
    let (mut less, mut larger, plans) = (0, 0, rounds(60_000));
    for round in 0..plans {
        let plan = match round % 3 {
            0 => sound(&mut rng).0,
            1 => any_rows(&mut rng),
            _ => faulty(&mut rng),
        };
        let (flows, ticks) = (plan.words.len() / 4, rng.range(1, 40));
        let log = log(&mut rng, ticks as usize * plan.inputs());
        let outcome = run_exactly(&FOUR, &plan, &log, ticks);
        if outcome.parts.0 != 0 {
            continue;
        }
        for place in 0..ticks as usize * flows {
            let [kind, a, b, _] = plan.words[place % flows * 4..][..4] else { panic!("a row has four words") };
            let operand = |flow: u32| outcome.words[place / flows * flows + flow as usize];
            if outcome.bytes[place] == 1 && matches!(kind, 4 | 6) && (operand(a) ^ operand(b)) >> 31 == 1 {
                *if kind == 4 { &mut less } else { &mut larger } += 1;
            }
        }
    }
    assert!(less > plans / 4 && larger > plans / 4, "{less} and {larger} cells of {plans} plans");
}

/// Long runs, once and more often round the window.
#[test]
fn long_runs() {
    let mut rng = Rng::new(122);
    for _ in 0..rounds(10) {
        let shape = Shape::long(&mut rng);
        let (plan, _) = accepted(&mut rng, shape);
        let ticks = rng.range(131_073, 300_000);
        let log = log(&mut rng, ticks as usize * plan.inputs());
        ends(&THREE, &plan, &log, ticks);
    }
}
