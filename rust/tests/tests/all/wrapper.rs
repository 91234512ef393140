//! The Rust forms over the library: plans, clocks, traces, and refusals as errors.

use std::error::Error;

use baarqidho::{list, Answer, Clash, LongRun, Plan, Refusal, Row, RunError};
use tests::compare::{fill_rates, least_flows, least_part, load_page_exactly, long_run_exactly, run_exactly};
use tests::compare::{words_are, written_up_to, Outcome};
use tests::faults::any_rows;
use tests::generate::erase_rates;
use tests::implementation::LIBRARY;
use tests::rng::Rng;
use tests::{rounds, TICKS, WINDOW};

use crate::short::faulty;

mod archive;
mod felt;
mod views;

/// I's plan: two inputs, sampled and merged again.
fn merged() -> Plan {
    Plan::new([0, 4, 0, 0, 0, 4, 0, 0, 13, 0, 1, 0, 14, 0, 1, 0, 15, 1, 2, 3])
}

/// Plans that the check refuses, for each of its causes.
fn refused() -> [(Plan, Refusal); 10] {
    let (slow, when) = (Row::Input { period: 4095, phase: 0 }, Row::When { a: 0, c: 0 });
    [
        (Plan::new([0; 4 * 65]), Refusal::BadCount),
        (Plan::new([]), Refusal::BadCount),
        (Plan::new([0, 1, 0]), Refusal::BadCount),
        (Plan::from_rows([slow, Row::Unrated]), Refusal::UnknownKind { row: 1 }),
        (Plan::from_rows([slow, Row::Slower { a: 0, k: 64 }]), Refusal::FieldOutOfRange { row: 1 }),
        (Plan::from_rows([slow, Row::Tail { a: 1 }]), Refusal::BadOperand { row: 1 }),
        (Plan::from_rows([slow, when, Row::Add { a: 0, b: 1 }]), Refusal::ClocksDiffer { flow: 2 }),
        (Plan::from_rows([slow, Row::Slower { a: 0, k: 17 }]), Refusal::BeyondLimits { flow: 1 }),
        (Plan::from_rows([slow, when, Row::Tail { a: 1 }]), Refusal::NotPlain { flow: 2 }),
        (Plan::from_rows([slow, Row::WhenSeen { a: 0, c: 0, w: 1 }]), Refusal::BadView { flow: 1 }),
    ]
}

#[test]
fn clocks_with_conditions() {
    let clocks = merged().clocks().expect("accepted");
    let parts = |flow: usize| (clocks[flow].period, clocks[flow].phase, clocks[flow].conditions.len());
    assert_eq!((parts(2), parts(3), parts(4)), ((4, 0, 1), (4, 0, 1), (4, 0, 0)));
    let condition = |flow: usize| (clocks[flow].conditions[0].flow, clocks[flow].conditions[0].truth);
    assert_eq!((condition(2), condition(3)), ((1, true), (1, false)));
    assert_eq!([2, 3].map(|flow: usize| clocks[flow].conditions[0].view), [0, 0]);
}

/// Clocks are displayed as the listing has them, whatever their conditions.
#[test]
fn clocks_in_a_listing() {
    let rows = [[0, 4095, 12, 0], [13, 0, 0, 0], [14, 1, 1, 0], [13, 2, 2, 0], [14, 3, 3, 0], [10, 0, 7, 0]];
    let plan = Plan::new(rows.concat());
    let clocks = plan.clocks().expect("accepted");
    let lines = clocks.iter().enumerate().map(|(flow, clock)| format!("{flow} {clock}\n"));
    assert_eq!(format!("ok 6\n{}", lines.collect::<String>()), list(&plan.to_packed().expect("a table")));
    assert_eq!((clocks[4].to_string(), clocks[5].to_string()), ("4095 12 c0+c1-c2+c3-".into(), "4095 19 -".into()));
    assert_eq!(clocks[2].conditions[1].to_string(), "c1-");
}

/// Each kind of row, its fields told apart by their numbers.
#[test]
fn rows_and_words() {
    let rows = [
        (Row::Input { period: 1, phase: 2 }, [0, 1, 2, 0]),
        (Row::Constant { value: 1, period: 2, phase: 3 }, [1, 1, 2, 3]),
        (Row::Add { a: 1, b: 2 }, [2, 1, 2, 0]),
        (Row::Subtract { a: 1, b: 2 }, [3, 1, 2, 0]),
        (Row::Less { a: 1, b: 2 }, [4, 1, 2, 0]),
        (Row::Equal { a: 1, b: 2 }, [5, 1, 2, 0]),
        (Row::Larger { a: 1, b: 2 }, [6, 1, 2, 0]),
        (Row::Register { initial: 1, beat: 2, source: 3 }, [7, 1, 2, 3]),
        (Row::Faster { a: 1, k: 2, gap: 3 }, [8, 1, 2, 3]),
        (Row::Slower { a: 1, k: 2 }, [9, 1, 2, 0]),
        (Row::Later { a: 1, d: 2 }, [10, 1, 2, 0]),
        (Row::Head { a: 1, value: 2, tick: 3 }, [11, 1, 2, 3]),
        (Row::Tail { a: 1 }, [12, 1, 0, 0]),
        (Row::When { a: 1, c: 2 }, [13, 1, 2, 0]),
        (Row::WhenNot { a: 1, c: 2 }, [14, 1, 2, 0]),
        (Row::Merge { c: 1, a: 2, b: 3 }, [15, 1, 2, 3]),
        (Row::Unrated, [16, 0, 0, 0]),
        (Row::WhenSeen { a: 1, c: 2, w: 3 }, [17, 1, 2, 3]),
        (Row::WhenNotSeen { a: 1, c: 2, w: 3 }, [18, 1, 2, 3]),
    ];
    for (row, words) in rows {
        assert_eq!(row.words(), words);
        assert_eq!(Row::from_words(words), Some(row));
        let unused = (1..4).filter(|&place| words[place] == 0);
        for place in unused {
            let mut words = words;
            words[place] = 1;
            assert_eq!(Row::from_words(words), None, "{words:?}");
        }
    }
    assert_eq!(Row::from_words([19, 0, 0, 0]), None);
    let plan: Plan = rows.iter().map(|(row, _)| *row).collect();
    assert_eq!(plan.words(), rows.map(|(_, words)| words).concat());
    assert_eq!(plan.rows().collect::<Option<Vec<Row>>>(), Some(rows.map(|(row, _)| row).to_vec()));
    assert_eq!(Plan::new([12, 0, 0, 0, 99, 0, 0, 0, 1]).rows().collect::<Vec<_>>(), [Some(Row::Tail { a: 0 }), None]);
}

#[test]
fn packed_and_listed() {
    let packed = merged().to_packed().expect("a table");
    assert_eq!(Plan::from_packed(&packed).expect("packed just now"), merged());
    assert_eq!(list(&packed), "ok 5\n0 4 0 -\n1 4 0 -\n2 4 0 c1+\n3 4 0 c1-\n4 4 0 -\n");
    assert_eq!(list(&packed[1..]), "no 11 0\n");
    assert_eq!(list(&packed[..3]), "no 12 0\n");
}

#[test]
fn traces() {
    let plan = merged();
    assert_eq!((plan.flows(), plan.inputs()), (5, 2));
    let log: Vec<u32> = (0..10).flat_map(|tick| [100 + tick, tick % 8]).collect();
    let trace = plan.run(&log, 10).expect("accepted");
    assert_eq!(trace.ticks(), 10);
    assert_eq!((trace.value(4, 2), trace.value(4, 3), trace.value(4, 4)), (Some(104), None, Some(104)));
    assert_eq!((trace.value(8, 2), trace.value(8, 3), trace.value(8, 4)), (None, Some(108), Some(108)));
    assert_eq!((trace.value(5, 0), trace.value(3, 5), trace.value(10, 0)), (None, None, None));
    assert_eq!((trace.marks().len(), trace.values().len()), (50, 50));
    assert_eq!((trace.flows(), trace.cells()), (5, 50));
    assert!(trace.has(9, 4) && !trace.has(8, 5) && !trace.has(10, 0) && !trace.has(usize::MAX, 0));
    assert_eq!(plan.run(&log, 9), Err(Refusal::BadLogLength.into()));
    assert_eq!(plan.run(&log, TICKS + 1), Err(Refusal::TooManyTicks.into()));
    assert_eq!(Plan::new([0; 4 * 65]).run(&log, 10), Err(Refusal::BadCount.into()));
    assert_eq!(Plan::new([]).run(&log, 10), Err(Refusal::BadCount.into()));
    assert_eq!(Plan::new([0, 1, 0]).clocks(), Err(Refusal::BadCount));
}

/// A plan's run and the call over slices give the same number, and the trace has exactly the cells that the call
/// wrote. Gives the number.
fn same_as_slices(plan: &tests::Plan, log: &[u32], ticks: u32) -> u32 {
    let outcome = run_exactly(&[&LIBRARY], plan, log, ticks);
    let (number, flow, tick, _) = outcome.parts;
    let (refusal, marks, values) = match Plan::new(&plan.words[..]).run(log, ticks) {
        Ok(trace) => (None, trace.marks().to_vec(), trace.values().to_vec()),
        Err(RunError::Clash(Clash { trace, tick, flow, .. })) => {
            (Some(Refusal::Clash { tick, flow }), trace.marks().to_vec(), trace.values().to_vec())
        }
        Err(error) => (Some(error.refusal()), vec![], vec![]),
    };
    assert_eq!(refusal, Answer { number, flow, tick, count: 0 }.result().err(), "{plan:?}");
    assert!(written_up_to(&outcome, marks.len()), "{plan:?}");
    assert_eq!((&marks[..], &values[..]), (&outcome.bytes[..marks.len()], &outcome.words[..values.len()]));
    number
}

#[test]
fn traces_of_random_plans() {
    let mut rng = Rng::new(95);
    let mut clashes = 0;
    for round in 0..rounds(10_000) {
        let mut plan = if round % 2 == 0 { any_rows(&mut rng) } else { faulty(&mut rng) };
        plan.count = plan.words.len() as u32 / 4;
        let log = rng.log(12 * plan.inputs());
        clashes += usize::from(same_as_slices(&plan, &log, 12) == 34);
    }
    assert!(clashes > 1_000, "{clashes}");
}

#[test]
fn long_runs() {
    // Flow 0 has values at ticks 1, 4, 7 and so on, by turns 0 and 3; flows 2 and 3 where they are 3; flow 4 never.
    let rows = [[0, 3, 1, 0], [10, 0, 4, 0], [13, 0, 0, 0], [13, 2, 2, 0], [14, 3, 3, 0]];
    let plan = Plan::new(rows.concat());
    let log: Vec<u32> = (0..200_000).map(|tick| if tick % 2 == 0 { 3 } else { 0 }).collect();
    let run = plan.long_run(&log, 200_000).expect("accepted");
    assert_eq!((run.flows(), run.ticks(), run.first_tick()), (5, 200_000, 68_928));
    assert_eq!([0, 1, 2, 3, 4, 5].map(|flow| run.count(flow)), [66_667, 66_665, 33_333, 33_333, 0, 0]);
    assert_eq!([0, 1, 2, 3].map(|flow| run.last(flow)), [Some(0), Some(0), Some(3), Some(3)]);
    assert_eq!((run.last(4), run.last(5), run.last(usize::MAX)), (None, None, None));
    assert_eq!((run.value(199_999, 0), run.value(199_996, 0), run.value(199_998, 0)), (Some(0), Some(3), None));
    assert_eq!((run.value(68_929, 0), run.value(68_930, 1), run.value(68_932, 2)), (Some(0), Some(3), Some(3)));
    assert_eq!((run.value(68_928, 0), run.value(68_929, 2), run.value(68_926, 0)), (None, None, None));
    assert!(run.has(68_928, 0) && run.has(199_999, 4) && !run.has(68_927, 0) && !run.has(200_000, 0));
    assert!(!run.has(199_999, 5) && !run.has(usize::MAX, 0) && !run.has(70_000, usize::MAX));

    let few = plan.long_run(&log[..5], 5).expect("accepted");
    assert_eq!((few.ticks(), few.first_tick(), few.count(0), few.last(1)), (5, 0, 2, None));
    assert!(few.has(0, 0) && few.has(4, 4) && !few.has(5, 0) && !few.has(WINDOW, 0));
    let none = plan.long_run(&[], 0).expect("accepted");
    assert_eq!((none.ticks(), none.first_tick(), none.count(0), none.last(0)), (0, 0, 0, None));
    assert!(!none.has(0, 0));
    let all = Plan::new([1, 8, 1, 0]).long_run(&[], 4_194_303).expect("accepted");
    assert_eq!((all.ticks(), all.first_tick(), all.count(0), all.last(0)), (4_194_303, 4_063_231, 4_194_303, Some(8)));
}

#[test]
fn errors_of_a_long_run() {
    let plan = merged();
    assert_eq!(plan.long_run(&[0; 20], 9), Err(Refusal::BadLogLength));
    assert_eq!(plan.long_run(&[0; 20], 4_194_304), Err(Refusal::TooManyTicks));
    assert_eq!(plan.long_run(&[], u32::MAX), Err(Refusal::TooManyTicks));
    assert_eq!(Plan::new([0; 4 * 65]).long_run(&[], 0), Err(Refusal::BadCount));
    assert_eq!(Plan::new([]).long_run(&[], 0), Err(Refusal::BadCount));
    assert_eq!(Plan::new([0, 1, 0]).long_run(&[], 0), Err(Refusal::BadCount));
    let differing = Plan::new([0, 10, 0, 0, 0, 20, 0, 0, 2, 0, 1, 0]);
    assert_eq!(differing.long_run(&[0; 22], 11), Err(Refusal::ClocksDiffer { flow: 2 }));
    let short = baarqidho::long_run(1, &[1, 5, 1, 0], &[], 0, &mut [], &mut [], &mut []);
    assert_eq!(short.result(), Err(Refusal::WindowTooShort));
}

/// The same as the call over slices left: each cell of the window, each count and each last value.
fn same_window(run: &LongRun, outcome: &Outcome) {
    let (flows, ticks) = (run.flows(), run.ticks());
    for tick in run.first_tick()..ticks {
        for flow in 0..flows {
            let place = tick % WINDOW * flows + flow;
            let value = (outcome.bytes[place] == 1).then_some(outcome.words[place]);
            assert_eq!((run.value(tick, flow), run.has(tick, flow)), (value, true), "tick {tick}, flow {flow}");
        }
    }
    for flow in 0..flows {
        let tally = [run.count(flow) as u32, run.last(flow).unwrap_or(0)];
        assert_eq!(tally, outcome.tallies[2 * flow..][..2], "flow {flow}");
    }
    assert!(ticks <= WINDOW || !run.has(ticks - WINDOW - 1, 0));
    assert!(!run.has(ticks, 0) && !run.has(ticks.saturating_sub(1), flows));
}

#[test]
fn long_runs_of_random_plans() {
    let mut rng = Rng::new(96);
    let (mut ended, plans) = (0, rounds(400));
    for round in 0..plans {
        let mut plan = if round % 2 == 0 { any_rows(&mut rng) } else { faulty(&mut rng) };
        plan.count = plan.words.len() as u32 / 4;
        let ticks = if round % 20 == 0 { rng.range(131_070, 270_000) } else { rng.range(0, 20) };
        let log = rng.log(ticks as usize * plan.inputs());
        let outcome = long_run_exactly(&[&LIBRARY], &plan, &log, ticks);
        let (number, flow, tick, count) = outcome.parts;
        match Plan::new(&plan.words[..]).long_run(&log, ticks) {
            Ok(run) => {
                assert_eq!((number, run.ticks()), (0, count as usize));
                same_window(&run, &outcome);
                ended += 1;
            }
            Err(refusal) => {
                assert_eq!(Err(refusal), Answer { number, flow, tick, count }.result(), "{plan:?}");
                assert!(!matches!(refusal, Refusal::Clash { .. }), "{plan:?}");
            }
        }
    }
    assert!(ended > plans / 10, "{ended}");
}

#[test]
fn load_pages() {
    let page = merged().load_page(&[0, 1, 2, 3, 65_535]).expect("accepted");
    let lines = [
        " 0     4     0 0        0\n",
        " 1     4     0 0      250\n",
        " 2     4     0 1      500\n",
        " 3     4     0 1      750\n",
        " 4     4     0 0 16383750\n",
        "total            16385250\n",
    ];
    assert_eq!(page, lines.concat());
    let all = Plan::new([1, 8, 4095, 0].repeat(64)).load_page(&[0; 64]).expect("accepted");
    assert_eq!((all.len(), all.lines().count()), (baarqidho::PAGE_MAX, 65));
}

#[test]
fn errors_of_a_load_page() {
    for times in [&[][..], &[1; 4], &[1; 6], &[1; 65]] {
        assert_eq!(merged().load_page(times), Err(Refusal::BadTimesLength));
    }
    assert_eq!(Plan::new([0; 4 * 65]).load_page(&[1; 65]), Err(Refusal::BadCount));
    assert_eq!(Plan::new([]).load_page(&[]), Err(Refusal::BadCount));
    assert_eq!(Plan::new([0, 1, 0]).load_page(&[1]), Err(Refusal::BadCount));
    let differing = Plan::new([0, 10, 0, 0, 0, 20, 0, 0, 2, 0, 1, 0]);
    assert_eq!(differing.load_page(&[]), Err(Refusal::ClocksDiffer { flow: 2 }));
    let short = baarqidho::load_page(1, &[1, 5, 1, 0], &[1], &mut [0; 51]);
    assert_eq!(short.result(), Err(Refusal::PageTooShort));
    let text = "the page has less than a line for each flow and the total (37)";
    assert_eq!(Refusal::PageTooShort.to_string(), text);
    assert_eq!(Refusal::BadTimesLength.to_string(), "the worst times are not one a flow (36)");
}

#[test]
fn load_pages_of_random_plans() {
    let mut rng = Rng::new(97);
    let (mut printed, plans) = (0, rounds(5_000));
    for round in 0..plans {
        let mut plan = if round % 2 == 0 { any_rows(&mut rng) } else { faulty(&mut rng) };
        plan.count = plan.words.len() as u32 / 4;
        let times_len = rng.around(plan.count as usize);
        let times = rng.times(times_len);
        let outcome = load_page_exactly(&[&LIBRARY], &plan, &times);
        let (number, flow, tick, count) = outcome.parts;
        match Plan::new(&plan.words[..]).load_page(&times) {
            Ok(page) => {
                assert_eq!((number, page.as_bytes()), (0, &outcome.bytes[..count as usize]));
                printed += 1;
            }
            Err(refusal) => assert_eq!(Err(refusal), Answer { number, flow, tick, count }.result(), "{plan:?}"),
        }
    }
    assert!(printed > plans / 10, "{printed}");
}

/// I's plan with its last two swapped, between rows that do not matter.
fn swapped() -> Plan {
    let rows = [[0, 9, 0, 0], [0, 4, 0, 0], [0, 4, 0, 0], [9, 0, 2, 0], [13, 1, 2, 0], [14, 1, 2, 0], [15, 2, 5, 4]];
    Plan::new(rows.concat())
}

#[test]
fn least_parts() {
    let least = swapped().least_part().expect("clocks that differ");
    let part = [[0, 4, 0, 0], [0, 4, 0, 0], [13, 0, 1, 0], [14, 0, 1, 0], [15, 1, 3, 2]];
    assert_eq!((least.plan(), least.flows()), (&Plan::new(part.concat()), &[1, 2, 4, 5, 6][..]));
    let rows: Vec<(u32, Row)> = least.rows().collect();
    assert_eq!(rows[..2], [1, 2].map(|flow| (flow, Row::Input { period: 4, phase: 0 })));
    assert_eq!(rows[2..4], [(4, Row::When { a: 1, c: 2 }), (5, Row::WhenNot { a: 1, c: 2 })]);
    assert_eq!(rows[4..], [(6, Row::Merge { c: 2, a: 5, b: 4 })]);
    let again = least.plan().least_part().expect("clocks that differ");
    assert_eq!((again.plan(), again.flows()), (least.plan(), &[0, 1, 2, 3, 4][..]));
}

#[test]
fn errors_of_a_least_part() {
    assert_eq!(merged().least_part(), Err(Refusal::NotDiffering));
    assert_eq!(Plan::new([0, 4095, 1, 0, 9, 0, 17, 0]).least_part(), Err(Refusal::NotDiffering));
    assert_eq!(Plan::new([0, 1, 1, 0, 13, 0, 0, 0, 12, 1, 0, 0]).least_part(), Err(Refusal::NotDiffering));
    assert_eq!(Plan::new([0; 4 * 65]).least_part(), Err(Refusal::BadCount));
    assert_eq!(Plan::new([]).least_part(), Err(Refusal::BadCount));
    assert_eq!(Plan::new([0, 1, 0]).least_part(), Err(Refusal::BadCount));
    assert_eq!(Plan::new([0, 1, 0, 0, 16, 0, 0, 0]).least_part(), Err(Refusal::UnknownKind { row: 1 }));
    assert_eq!(Plan::new([0, 1, 0, 0, 12, 0, 0, 1]).least_part(), Err(Refusal::FieldOutOfRange { row: 1 }));
    assert_eq!(Plan::new([0, 1, 0, 0, 12, 1, 0, 0]).least_part(), Err(Refusal::BadOperand { row: 1 }));
    let plan = swapped();
    let short = baarqidho::least_part(7, plan.words(), &mut [0; 19]);
    assert_eq!(short.result(), Err(Refusal::OutputTooShort));
    let short = baarqidho::least_flows(7, plan.words(), &mut [0; 4]);
    assert_eq!(short.result(), Err(Refusal::OutputTooShort));
    assert_eq!(Refusal::NotDiffering.to_string(), "the check does not answer the plan with 21 (38)");
}

#[test]
fn least_parts_of_random_plans() {
    let mut rng = Rng::new(98);
    let (mut found, plans) = (0, rounds(5_000));
    for round in 0..plans {
        let mut plan = if round % 2 == 0 { any_rows(&mut rng) } else { faulty(&mut rng) };
        plan.count = plan.words.len() as u32 / 4;
        let part = least_part(&[&LIBRARY], &plan, plan.words.len());
        let flows = least_flows(&[&LIBRARY], &plan, plan.words.len());
        let whole = Plan::new(&plan.words[..]);
        let (number, flow, tick, count) = part.parts;
        match whole.least_part() {
            Ok(least) => {
                assert_eq!((number, flows.parts, least.flows().len()), (0, part.parts, count as usize), "{plan:?}");
                assert!(words_are(&part, least.plan().words()) && words_are(&flows, least.flows()), "{plan:?}");
                let rows: Vec<Option<Row>> = whole.rows().collect();
                assert!(least.rows().all(|(flow, row)| rows[flow as usize] == Some(row)), "{plan:?}");
                assert!(least.rows().map(|(flow, _)| flow).eq(least.flows().iter().copied()), "{plan:?}");
                found += 1;
            }
            Err(refusal) => assert_eq!(Err(refusal), Answer { number, flow, tick, count }.result(), "{plan:?}"),
        }
    }
    assert!(found > plans / 5, "{found}");
}

#[test]
fn filled_plans() {
    let rows = [Row::Unrated, Row::Input { period: 4, phase: 2 }, Row::When { a: 0, c: 1 }, Row::Unrated];
    let plan = Plan::from_rows(
        rows.into_iter().chain([Row::Later { a: 3, d: 2 }, Row::Register { initial: 7, beat: 4, source: 1 }]),
    );
    assert_eq!((plan.flows(), plan.inputs()), (6, 1));
    assert_eq!(Plan::from_packed(&plan.to_packed().expect("a table")).expect("packed just now"), plan);
    assert_eq!(plan.clocks(), Err(Refusal::UnknownKind { row: 0 }));
    let filled = plan.fill_rates().expect("one filling");
    assert_eq!(filled.inputs(), 3);
    assert_eq!(filled.rows().next(), Some(Some(Row::Input { period: 4, phase: 2 })));
    assert_eq!(filled.rows().nth(3), Some(Some(Row::Input { period: 4, phase: 0 })));
    assert_eq!(filled.words()[4..12], plan.words()[4..12]);
    assert_eq!(filled.words()[16..], plan.words()[16..]);
    assert_eq!(filled.fill_rates(), Ok(filled.clone()));
    assert_eq!(filled.clocks().expect("accepted")[5].to_string(), "4 2 -");
}

#[test]
fn errors_of_filling() {
    let open = [16, 0, 0, 0];
    assert_eq!(Plan::from_rows([Row::Unrated]).fill_rates(), Err(Refusal::Unjoined { flow: 0 }));
    assert_eq!(Plan::new([[0, 1, 0, 0], open].concat()).fill_rates(), Err(Refusal::Unjoined { flow: 1 }));
    let differing = Plan::new([0, 10, 0, 0, 0, 20, 0, 0, 2, 0, 1, 0]);
    assert_eq!(differing.fill_rates(), Err(Refusal::ClocksDiffer { flow: 0 }));
    assert_eq!(Plan::new([0; 4 * 65]).fill_rates(), Err(Refusal::BadCount));
    assert_eq!(Plan::new([]).fill_rates(), Err(Refusal::BadCount));
    assert_eq!(Plan::new([16, 0, 0]).fill_rates(), Err(Refusal::BadCount));
    assert_eq!(Plan::new([[0, 1, 0, 0], [19, 0, 0, 0]].concat()).fill_rates(), Err(Refusal::UnknownKind { row: 1 }));
    assert_eq!(
        Plan::new([[0, 1, 0, 0], [16, 0, 0, 1]].concat()).fill_rates(),
        Err(Refusal::FieldOutOfRange { row: 1 })
    );
    assert_eq!(Plan::new([open, [12, 1, 0, 0]].concat()).fill_rates(), Err(Refusal::BadOperand { row: 1 }));
    let short = baarqidho::fill_rates(1, &[0, 1, 0, 0], &mut [0; 3]);
    assert_eq!(short.result(), Err(Refusal::OutputTooShort));
    let text = "flow 3: no chain joins it to an input or constant that has a rate (39)";
    assert_eq!(Refusal::Unjoined { flow: 3 }.to_string(), text);
    let text = "row 2: the kind is above 18, or 16 where rates have to be written (13)";
    assert_eq!(Refusal::UnknownKind { row: 2 }.to_string(), text);
}

#[test]
fn filled_random_plans() {
    let mut rng = Rng::new(99);
    let (mut filled, plans) = (0, rounds(5_000));
    for round in 0..plans {
        let mut plan = if round % 2 == 0 { any_rows(&mut rng) } else { faulty(&mut rng) };
        plan.count = plan.words.len() as u32 / 4;
        erase_rates(&mut rng, &mut plan, 30);
        let outcome = fill_rates(&[&LIBRARY], &plan, plan.words.len());
        let (number, flow, tick, count) = outcome.parts;
        match Plan::new(&plan.words[..]).fill_rates() {
            Ok(plan) => {
                assert_eq!((number, plan.flows()), (0, count as usize), "{plan:?}");
                assert!(words_are(&outcome, plan.words()), "{plan:?}");
                filled += 1;
            }
            Err(refusal) => assert_eq!(Err(refusal), Answer { number, flow, tick, count }.result(), "{plan:?}"),
        }
    }
    assert!(filled > plans / 10, "{filled}");
}

#[test]
fn errors_of_a_run() {
    let plan = Plan::new([0, 10, 0, 0, 0, 20, 0, 0, 2, 0, 1, 0]);
    let error = plan.run(&[0; 22], 11).expect_err("a clash");
    assert_eq!(error.to_string(), "tick 10, flow 2: its operands do not fit together: clash (34)");
    assert_eq!(Refusal::from(error.clone()), Refusal::Clash { tick: 10, flow: 2 });
    let RunError::Clash(clash) = &error else { panic!("a clash") };
    assert_eq!((clash.to_string(), RunError::from(clash.clone())), (error.to_string(), error.clone()));
    let error: Box<dyn Error> = Box::new(error);
    assert!(error.source().is_none());
    let error = plan.run(&[], 1).expect_err("no log");
    assert_eq!(error.to_string(), "the log has not one word per tick and input (32)");
    assert_eq!(Refusal::from(error), Refusal::BadLogLength);
}

/// Each number has its own refusal, which gives the number back.
#[test]
fn numbers_and_refusals() {
    let mut meanings = Vec::new();
    for number in (10..=16).chain(21..=23).chain(31..=43) {
        let refusal = Answer { number, flow: 3, tick: 5, count: 0 }.result().expect_err("a refusal");
        assert_eq!(refusal.number(), number);
        assert!(!matches!(refusal, Refusal::Other { .. }));
        assert!(!meanings.contains(&refusal.meaning()), "{number}");
        meanings.push(refusal.meaning());
    }
    assert_eq!(Answer { number: 0, flow: 0, tick: 0, count: 9 }.result(), Ok(9));
    assert_eq!(Answer { number: 99, ..Answer::default() }.result(), Err(Refusal::Other { number: 99 }));
}
