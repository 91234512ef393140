//! The inputs that flows feel, in the Rust forms.

use baarqidho::{Answer, Plan, Refusal, Row};
use tests::compare::{felt_inputs, sets_are};
use tests::faults::any_rows;
use tests::implementation::LIBRARY;
use tests::rng::Rng;
use tests::rounds;

use crate::feels::looped;
use crate::short::{faulty, sound};
use crate::wrapper::refused;

/// A torque, a limit, an angle, whether the torque is below the limit, the angle where it is, a register of the sum of
/// these angles, that sum, a mode switch, and the torque while that is seen on.
fn governed() -> Plan {
    Plan::from_rows([
        Row::Input { period: 2, phase: 0 },
        Row::Constant { value: 70, period: 2, phase: 0 },
        Row::Input { period: 2, phase: 0 },
        Row::Less { a: 0, b: 1 },
        Row::When { a: 2, c: 3 },
        Row::Register { initial: 0, beat: 4, source: 6 },
        Row::Add { a: 4, b: 5 },
        Row::Input { period: 3, phase: 0 },
        Row::WhenSeen { a: 0, c: 7, w: 6 },
    ])
}

#[test]
fn inputs() {
    let felt = governed().felt_inputs().expect("accepted");
    let expected: [&[u32]; 9] = [&[0], &[], &[2], &[0], &[0, 2], &[0, 2], &[0, 2], &[7], &[0, 7]];
    assert_eq!(felt, expected);
    let all = Plan::from_rows((1..=64).map(|period| Row::Input { period, phase: 0 })).felt_inputs().expect("accepted");
    assert_eq!(all, (0..64).map(|input| vec![input]).collect::<Vec<_>>());
    assert_eq!(Plan::new([1, 5, 1, 0]).felt_inputs(), Ok(vec![vec![]]));
    assert_eq!(Plan::new([0, 5, 1, 0]).felt_inputs(), Ok(vec![vec![0]]));
}

/// Another sensor for flow 2: the flows that do not feel it have the same values, and all others have other ones.
#[test]
fn a_swapped_sensor() {
    let plan = governed();
    let [torque, seen] = [|tick| 60 + tick, |tick| u32::from(tick % 2 == 0)];
    let run = |angle: fn(u32) -> u32| {
        let log: Vec<u32> = (0..30).flat_map(|tick| [torque(tick), angle(tick), seen(tick)]).collect();
        plan.run(&log, 30).expect("accepted")
    };
    let (before, after) = (run(|tick| 3 * tick + 1), run(|tick| 5 * tick + 2));
    for (flow, inputs) in plan.felt_inputs().expect("accepted").iter().enumerate() {
        let values = |trace: &baarqidho::Trace| (0..30).map(|tick| trace.value(tick, flow)).collect::<Vec<_>>();
        assert_eq!(values(&before) == values(&after), !inputs.contains(&2), "flow {flow}");
    }
}

#[test]
fn errors() {
    for (plan, refusal) in refused() {
        assert_eq!(plan.felt_inputs(), Err(refusal), "{plan:?}");
    }
    let short = baarqidho::felt_inputs(9, governed().words(), &mut [0; 8]);
    assert_eq!(short.result(), Err(Refusal::OutputTooShort));
}

#[test]
fn inputs_of_random_plans() {
    let mut rng = Rng::new(191);
    let (mut felt, plans) = (0, rounds(6_000));
    for round in 0..plans {
        let mut plan = match round % 4 {
            0 => any_rows(&mut rng),
            1 => faulty(&mut rng),
            2 => sound(&mut rng).0,
            _ => looped(&mut rng, 30),
        };
        plan.count = plan.words.len() as u32 / 4;
        let outcome = felt_inputs(&[&LIBRARY], &plan, plan.count as usize);
        let (number, flow, tick, count) = outcome.parts;
        match Plan::new(&plan.words[..]).felt_inputs() {
            Ok(inputs) => {
                assert_eq!((number, inputs.len()), (0, count as usize), "{plan:?}");
                assert!(inputs.iter().all(|inputs| inputs.is_sorted_by(|input, next| input < next)), "{plan:?}");
                let sets: Vec<u64> = inputs.iter().map(|inputs| inputs.iter().map(|input| 1 << input).sum()).collect();
                assert!(sets_are(&outcome, &sets), "{plan:?}");
                felt += usize::from(inputs.iter().any(|inputs| inputs.len() > 1));
            }
            Err(refusal) => assert_eq!(Err(refusal), Answer { number, flow, tick, count }.result(), "{plan:?}"),
        }
    }
    assert!(felt > plans / 20, "{felt} with two inputs and more");
}
