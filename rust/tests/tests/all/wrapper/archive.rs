//! Traces in the archive, in the Rust forms.

use baarqidho::{Answer, Plan, Refusal, Row, RunError};
use tests::compare::{restore, store, stored_words, words_are};
use tests::faults::any_rows;
use tests::implementation::LIBRARY;
use tests::rng::Rng;
use tests::{rounds, TICKS};

use crate::short::{faulty, sound};
use crate::wrapper::refused;

/// A reading every 3 ticks from tick 1 on, every second of them, and each of these 4 ticks later.
fn recorder() -> Plan {
    Plan::from_rows([Row::Input { period: 3, phase: 1 }, Row::Slower { a: 0, k: 2 }, Row::Later { a: 1, d: 4 }])
}

#[test]
fn traces() {
    let plan = recorder();
    let log: Vec<u32> = (100..113).collect();
    let trace = plan.run(&log, 13).expect("accepted");
    assert_eq!(plan.stored_words(13), Ok(8));
    let stored = plan.store(&trace).expect("on its calendar");
    assert_eq!(stored, [101, 104, 107, 110, 101, 107, 101, 107]);
    let restored = plan.restore(&stored, 13).expect("eight words");
    assert_eq!(restored, trace);
    assert_eq!((restored.flows(), restored.ticks(), restored.cells()), (3, 13, 39));
    assert_eq!((restored.value(5, 2), restored.value(11, 2), restored.value(6, 2)), (Some(101), Some(107), None));

    let none = plan.run(&[], 0).expect("accepted");
    assert_eq!((plan.stored_words(0), plan.store(&none)), (Ok(0), Ok(vec![])));
    assert_eq!(plan.restore(&[], 0), Ok(none));
    // No flow has begun by tick 1.
    let first = plan.run(&[9], 1).expect("accepted");
    assert_eq!((plan.store(&first), plan.restore(&[], 1)), (Ok(vec![]), Ok(first)));
}

/// As many ticks as there may be, of as many flows.
#[test]
fn all_ticks() {
    let plan = Plan::from_rows([Row::Constant { value: 8, period: 1, phase: 0 }; 64]);
    let words = 64 * TICKS as usize;
    assert_eq!(plan.stored_words(TICKS), Ok(words));
    let trace = plan.run(&[], TICKS).expect("accepted");
    let stored = plan.store(&trace).expect("on its calendar");
    assert!(stored.len() == words && stored.iter().all(|&word| word == 8));
    assert!(plan.restore(&stored, TICKS) == Ok(trace));
}

#[test]
fn errors() {
    let plan = recorder();
    let trace = plan.run(&[5; 7], 7).expect("accepted");
    for ticks in [TICKS + 1, u32::MAX] {
        assert_eq!(plan.stored_words(ticks), Err(Refusal::TooManyTicks));
        assert_eq!(plan.restore(&[], ticks), Err(Refusal::TooManyTicks));
    }
    for words in [0, 3, 5, 8] {
        assert_eq!(plan.restore(&vec![1; words], 7), Err(Refusal::WrongLength), "{words} words");
    }
    assert_eq!(plan.restore(&[1], 0), Err(Refusal::WrongLength));

    // Plans that refuse a trace however long it is.
    let sampled = Plan::from_rows([Row::Input { period: 4095, phase: 0 }, Row::When { a: 0, c: 0 }]);
    for (plan, refusal) in refused().into_iter().chain([(sampled, Refusal::HasConditions)]) {
        assert_eq!(plan.stored_words(7), Err(refusal), "{plan:?}");
        assert_eq!((plan.store(&trace), plan.restore(&[1; 9], 7)), (Err(refusal), Err(refusal)), "{plan:?}");
    }
    let texts = [Refusal::HasConditions, Refusal::WrongLength, Refusal::OffCalendar].map(|refusal| refusal.to_string());
    let expected = [
        "a plan with conditions or merges, whose traces the archive does not take (41)",
        "marks, values or stored words are not exactly as many as plan and ticks ask (42)",
        "the marks are not the clocks', or an absent value is not 0 (43)",
    ];
    assert_eq!(texts, expected);
}

/// Traces of other plans, and one that a clash cut off.
#[test]
fn other_traces() {
    let plan = recorder();
    let of = |rows: &[Row]| Plan::from_rows(rows.iter().copied()).run(&vec![5; 7 * rows.len()], 7).expect("accepted");
    let input = |phase| Row::Input { period: 3, phase };
    assert_eq!(plan.store(&of(&[input(1)])), Err(Refusal::WrongLength));
    assert_eq!(plan.store(&of(&[input(1); 4])), Err(Refusal::WrongLength));
    assert_eq!(plan.store(&of(&[input(1); 3])), Err(Refusal::OffCalendar));
    assert_eq!(plan.store(&of(&[input(2); 3])), Err(Refusal::OffCalendar));

    // The first three of these flows end within tick 10, at the sum.
    let rows = [[0, 10, 0, 0], [0, 20, 0, 0], [2, 0, 1, 0]];
    let Err(RunError::Clash(clash)) = Plan::new(rows.concat()).run(&[1; 22], 11) else { panic!("a clash") };
    assert_eq!((clash.trace.ticks(), clash.trace.cells()), (10, 32));
    let same = Plan::new([[0, 10, 0, 0], [0, 20, 0, 0], [0, 10, 0, 0]].concat());
    assert_eq!(same.store(&clash.trace), Err(Refusal::WrongLength));
}

/// The same as the calls over slices give.
#[test]
fn random_plans() {
    let mut rng = Rng::new(100);
    let (mut archived, plans) = (0, rounds(5_000));
    for round in 0..plans {
        let mut plan = match round % 3 {
            0 => any_rows(&mut rng),
            1 => sound(&mut rng).0,
            _ => faulty(&mut rng),
        };
        plan.count = plan.words.len() as u32 / 4;
        let (whole, ticks) = (Plan::new(&plan.words[..]), rng.range(0, 30));
        let (number, flow, tick, count) = stored_words(&[&LIBRARY], &plan, ticks).parts;
        let counted = Answer { number, flow, tick, count }.result();
        assert_eq!(whole.stored_words(ticks), counted, "{plan:?}");
        let stored_len = rng.around(count as usize);
        let stored = rng.log(stored_len);
        let cells = ticks as usize * whole.flows();
        let outcome = restore(&[&LIBRARY], &plan, ticks, &stored, (cells, cells));
        match whole.restore(&stored, ticks) {
            Ok(trace) => {
                assert_eq!((trace.flows(), trace.cells(), outcome.parts.0), (whole.flows(), cells, 0), "{plan:?}");
                assert_eq!((trace.marks(), trace.values()), (&outcome.bytes[..cells], &outcome.words[..cells]));
                assert_eq!(whole.store(&trace).as_ref(), Ok(&stored), "{plan:?}");
                let words = store(&[&LIBRARY], &plan, ticks, (trace.marks(), trace.values()), stored.len());
                assert!(words_are(&words, &stored), "{plan:?}");
                archived += 1;
            }
            Err(refusal) => {
                let (number, flow, tick, count) = outcome.parts;
                assert_eq!(Err(refusal), Answer { number, flow, tick, count }.result(), "{plan:?}");
            }
        }
    }
    assert!(archived > plans / 10, "{archived}");
}
