//! Demand 3 on random plans: check and run share one calendar.

use tests::compare::{check, fill_rates, run_exactly, Outcome};
use tests::faults::{any_rows, disturb, plant};
use tests::generate::{accepted, Shape};
use tests::implementation::{Implementation, ALL, LIBRARY, QUICK};
use tests::rng::Rng;
use tests::{rounds, Plan, CLOCK_WORDS, TICKS, WRITTEN};

use crate::rates::erased;

/// Whether a flow has to have a value at a tick, by the clock words of all flows. A condition is read from that tick's
/// cells, one that is viewed at the tick that lies as many whole view periods behind the first tick of its own flow as
/// this tick does behind the flow's.
fn on_calendar(clocks: &[u32], trace: &Outcome, flow: usize, tick: usize) -> bool {
    let flows = clocks.len() / CLOCK_WORDS;
    let clock_of = |flow: usize| &clocks[CLOCK_WORDS * flow..][..CLOCK_WORDS];
    let clock = clock_of(flow);
    let (period, phase, conditions) = (clock[0] as usize, clock[1] as usize, clock[2] as usize);
    let holds = |place: usize| {
        let (condition, view) = (clock[3 + place] as usize, clock[7 + place] as usize);
        let c = condition / 2;
        let read = if view == 0 { tick } else { clock_of(c)[1] as usize + view * ((tick - phase) / view) };
        let place = read * flows + c;
        trace.bytes[place] == 1 && (trace.words[place] != 0) == (condition % 2 == 1)
    };
    tick >= phase && (tick - phase).is_multiple_of(period) && (0..conditions).all(holds)
}

/// If the check accepts the plan, the run ends and each mark is that of the calendar. Gives the number of cells whose mark
/// would be another if views were sampled directly, or nothing if the plan is refused.
fn first_half(rng: &mut Rng, of: &[&Implementation], plan: &Plan, ticks: u32) -> Option<usize> {
    let flows = plan.words.len() / 4;
    let checked = check(of, plan, CLOCK_WORDS * flows);
    if checked.parts.0 != 0 {
        return None;
    }
    let clocks = &checked.words[..CLOCK_WORDS * flows];
    let mut direct = clocks.to_vec();
    direct.chunks_mut(CLOCK_WORDS).for_each(|clock| clock[7..].fill(0));
    let log = rng.log(ticks as usize * plan.inputs());
    let trace = run_exactly(of, plan, &log, ticks);
    assert_eq!(trace.parts, (0, 0, 0, ticks), "{plan:?}");
    let mut viewed = 0;
    for tick in 0..ticks as usize {
        for flow in 0..flows {
            let expected = on_calendar(clocks, &trace, flow, tick);
            let mark = trace.bytes[tick * flows + flow];
            assert_eq!(mark, u8::from(expected), "tick {tick}, flow {flow} of {plan:?}");
            viewed += usize::from(expected != on_calendar(&direct, &trace, flow, tick));
        }
    }
    Some(viewed)
}

#[test]
fn marks_are_the_calendar_short() {
    let mut rng = Rng::new(51);
    let (mut taken, mut viewed, plans) = (0, 0, rounds(60_000));
    for round in 0..plans {
        let shape = Shape::short(&mut rng);
        let (mut plan, _) = accepted(&mut rng, shape);
        match round % 3 {
            0 => plant(&mut rng, &mut plan),
            1 => plan = any_rows(&mut rng),
            _ => {}
        }
        let ticks = rng.range(0, 40);
        if let Some(cells) = first_half(&mut rng, &[&LIBRARY], &plan, ticks) {
            taken += 1;
            viewed += usize::from(cells > 0);
        }
    }
    assert!(taken > plans * 2 / 5, "{taken} of {plans} accepted");
    assert!(viewed > plans / 50, "{viewed} of {plans} accepted, and seen at other ticks");
}

#[test]
fn marks_are_the_calendar_long() {
    let mut rng = Rng::new(52);
    let mut viewed = 0;
    for round in 0..rounds(160) {
        let shape = Shape::long(&mut rng);
        let (plan, _) = accepted(&mut rng, shape);
        let ticks = if round % 8 == 0 { TICKS } else { 8_191 };
        viewed += first_half(&mut rng, &QUICK, &plan, ticks).expect("an accepted plan");
    }
    assert!(viewed > 10_000, "{viewed} cells that are seen at other ticks");
}

/// The calendar is about filled plans: one that lacks rates is refused by check and run, and filled in it is on it.
#[test]
fn marks_are_the_calendar_of_filled_plans() {
    let mut rng = Rng::new(54);
    let (mut lacking, plans) = (0, rounds(10_000));
    for _ in 0..plans {
        let (_, plan) = erased(&mut rng, 16);
        let first = plan.words.chunks(4).position(|row| row[0] == 16);
        if let Some(row) = first {
            let refusal = (13, row as u32, 0, 0);
            assert_eq!(check(&[&LIBRARY], &plan, CLOCK_WORDS * 64).parts, refusal, "{plan:?}");
            assert_eq!(run_exactly(&[&LIBRARY], &plan, &[], 0).parts, refusal, "{plan:?}");
            lacking += 1;
        }
        let outcome = fill_rates(&[&LIBRARY], &plan, plan.words.len());
        let filled = Plan { count: plan.count, words: outcome.words[..plan.words.len()].to_vec() };
        assert!(first_half(&mut rng, &[&LIBRARY], &filled, 40).is_some(), "{plan:?}");
    }
    assert!(lacking > plans / 4, "{lacking} of {plans}");
}

/// A plan without sampling, views and merging that the check answers by 0 or 21: accepted exactly when a run of
/// 131,071 ticks ends. Gives the answer's number, if the plan is such a one.
fn second_half(rng: &mut Rng, plan: &Plan) -> Option<u32> {
    let number = check(&ALL, plan, CLOCK_WORDS * plan.words.len() / 4).parts.0;
    if !plan.free_of_sampling() || !matches!(number, 0 | 21) {
        return None;
    }
    let log = rng.log(TICKS as usize * plan.inputs());
    let ended = run_exactly(&[&LIBRARY], plan, &log, TICKS).parts.0;
    assert!(matches!(ended, 0 | 34));
    assert_eq!(number == 0, ended == 0, "{plan:?}");
    Some(number)
}

#[test]
fn accepted_exactly_when_the_run_ends() {
    let mut rng = Rng::new(53);
    let (mut yes, mut no) = (0, 0);
    let plans = rounds(3_000);
    for round in 0..plans {
        let flows = 1 + rng.below(9);
        let scale = rng.pick(&[2, 6, 100, WRITTEN, WRITTEN]);
        let (mut plan, _) = accepted(&mut rng, Shape { flows, scale, sampling: false });
        match round % 8 {
            0 => {}
            1 | 2 => plan = any_rows(&mut rng),
            3 => plant(&mut rng, &mut plan),
            _ => disturb(&mut rng, &mut plan),
        }
        match second_half(&mut rng, &plan) {
            Some(0) => yes += 1,
            Some(_) => no += 1,
            None => {}
        }
    }
    assert!(yes > plans / 10 && no > plans / 10, "{yes} accepted, {no} refused by 21");
}

/// 131,071 ticks are needed: these clash in the last of them, or where two periods differ by one, in the one before.
#[test]
fn the_last_of_131071_ticks() {
    // Every 17th reading from the second on: (65535, 65535). Beside it a constant that is as late: (65534, 65535).
    let slow = [[0, 3855, 0, 0], [9, 0, 17, 0], [12, 1, 0, 0]];
    let beside = [[1, 3, 1057, 1], [9, 3, 62, 0], [12, 4, 0, 0]];
    let plans = [
        (&[][..], [8, 2, 1, 1], 131_070),
        (&[][..], [8, 2, 1, 4095], 131_070),
        (&[][..], [8, 2, 63, 1040], 131_070),
        (&[][..], [8, 2, 63, 4095], 131_070),
        (&[][..], [11, 2, 5, 1], 131_070),
        (&[][..], [11, 2, 5, 4095], 131_070),
        (&beside[..], [2, 2, 5, 0], 131_069),
        (&beside[..], [7, 5, 2, 5], 131_069),
    ];
    for (others, row, tick) in plans {
        let plan = Plan::of(&[&slow[..], others, &[row]].concat());
        let last = plan.count - 1;
        assert_eq!(check(&ALL, &plan, CLOCK_WORDS * plan.count as usize).parts, (21, last, 0, 0), "{plan:?}");
        let log = vec![1; tick as usize + 1];
        assert_eq!(run_exactly(&ALL, &plan, &log, tick + 1).parts, (34, last, tick, 0), "{plan:?}");
        assert_eq!(run_exactly(&ALL, &plan, &log[1..], tick).parts, (0, 0, 0, tick), "{plan:?}");
    }
}
