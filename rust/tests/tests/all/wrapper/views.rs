//! Conditions seen at a slower pace, in the Rust forms.

use baarqidho::{list, Plan, Refusal, Row};

/// A signal every 10 ticks from tick 5 on, a mode switch every 15 from tick 2 on, seen on and seen off, and the signal
/// seen on where it is not zero.
fn governed() -> Plan {
    Plan::from_rows([
        Row::Input { period: 10, phase: 5 },
        Row::Input { period: 15, phase: 2 },
        Row::WhenSeen { a: 0, c: 1, w: 30 },
        Row::WhenNotSeen { a: 0, c: 1, w: 4080 },
        Row::When { a: 2, c: 2 },
    ])
}

#[test]
fn clocks() {
    let clocks = governed().clocks().expect("accepted");
    let conditions = |flow: usize| {
        let of = clocks[flow].conditions.iter();
        of.map(|condition| (condition.flow, condition.truth, condition.view)).collect::<Vec<_>>()
    };
    assert_eq!((conditions(2), conditions(3)), (vec![(1, true, 30)], vec![(1, false, 4080)]));
    assert_eq!(conditions(4), [(1, true, 30), (2, true, 0)]);
    let texts = [2, 3, 4].map(|flow: usize| clocks[flow].to_string());
    assert_eq!(texts, ["10 5 c1+@30", "10 5 c1-@4080", "10 5 c1+@30c2+"]);
    let listed = list(&governed().to_packed().expect("a table"));
    let lines: Vec<String> = (2..5).map(|flow| format!("{flow} {}", clocks[flow])).collect();
    assert_eq!(listed.lines().skip(3).collect::<Vec<_>>(), lines);
}

/// The switch is seen at ticks 2, 32 and 62, for the signal's ticks from 5, 35 and 65 on.
#[test]
fn runs() {
    let log: Vec<u32> = (0..70).flat_map(|tick| [100 + tick, u32::from(tick != 32)]).collect();
    let trace = governed().run(&log, 70).expect("accepted");
    let values = |flow| (0..70).filter_map(|tick| trace.value(tick, flow)).collect::<Vec<_>>();
    assert_eq!(values(2), [105, 115, 125, 165]);
    assert_eq!((values(3), values(4)), (vec![], values(2)));
    let run = governed().long_run(&log, 70).expect("accepted");
    assert_eq!([2, 3, 4].map(|flow| (run.count(flow), run.last(flow))), [(4, Some(165)), (0, None), (4, Some(165))]);
}

#[test]
fn errors() {
    let with = |row: Row| Plan::from_rows(governed().rows().flatten().take(4).chain([row]));
    let bad = Refusal::BadView { flow: 4 };
    for (a, c, w) in [(0, 1, 10), (0, 1, 15), (0, 1, 29), (1, 0, 30)] {
        for row in [Row::WhenSeen { a, c, w }, Row::WhenNotSeen { a, c, w }] {
            let plan = with(row);
            assert_eq!(plan.clocks(), Err(bad), "{row:?}");
            assert_eq!((plan.long_run(&[], 0), plan.load_page(&[])), (Err(bad), Err(bad)), "{row:?}");
            assert_eq!(plan.least_part(), Err(Refusal::NotDiffering), "{row:?}");
            assert_eq!(plan.fill_rates(), Err(Refusal::ClocksDiffer { flow: 0 }), "{row:?}");
        }
    }
    for (a, c, w) in [(2, 1, 30), (0, 3, 30), (2, 3, 29)] {
        assert_eq!(with(Row::WhenSeen { a, c, w }).clocks(), Err(Refusal::NotPlain { flow: 4 }), "{a} {c} {w}");
    }
    for w in [0, 4096, u32::MAX] {
        assert_eq!(with(Row::WhenNotSeen { a: 0, c: 1, w }).to_packed(), Err(Refusal::FieldOutOfRange { row: 4 }));
    }
    assert_eq!(with(Row::WhenSeen { a: 0, c: 4, w: 30 }).to_packed(), Err(Refusal::BadOperand { row: 4 }));
    let text = "flow 4: the view period is not a multiple of both periods, or c begins after a (40)";
    assert_eq!(bad.to_string(), text);
}

/// A part has, with a view, both of its operands.
#[test]
fn least_parts() {
    let governed = governed();
    let rows = governed.rows().flatten().take(4).chain([Row::Slower { a: 0, k: 2 }, Row::Add { a: 0, b: 3 }]);
    let least = Plan::from_rows(rows).least_part().expect("clocks that differ");
    assert_eq!(least.flows(), [0, 1, 3, 5]);
    let seen = Row::WhenNotSeen { a: 0, c: 1, w: 4080 };
    assert_eq!(least.plan().rows().flatten().skip(2).collect::<Vec<_>>(), [seen, Row::Add { a: 0, b: 2 }]);
}

/// A view joins its result with the signal, and not with the switch.
#[test]
fn filled_plans() {
    let (signal, switch) = (Row::Input { period: 4, phase: 2 }, Row::Input { period: 6, phase: 0 });
    let seen = |a| Row::WhenSeen { a, c: 1, w: 12 };
    let plan = Plan::from_rows([Row::Unrated, switch, seen(0), signal, seen(3), Row::Add { a: 2, b: 4 }]);
    let filled = plan.fill_rates().expect("one filling");
    assert_eq!(filled.words(), [&signal.words(), &plan.words()[4..]].concat());
    assert_eq!(filled.clocks().expect("accepted")[5].to_string(), "4 2 c1+@12");
    let open = Plan::from_rows([signal, Row::Unrated, seen(0)]);
    assert_eq!(open.fill_rates(), Err(Refusal::Unjoined { flow: 1 }));
}
