//! Clashes: where each is found, what is written before it, and that nothing is written after it.

use tests::compare::{run, run_exactly, written_up_to};
use tests::faults::any_rows;
use tests::implementation::ALL;
use tests::rng::Rng;
use tests::{rounds, Plan};

use crate::short::faulty;
use crate::traces::{clashes_with, ends_with};

/// A run of some ticks over a log of zeros clashes at this tick and flow, with so many cells written.
fn clashes(rows: &[[u32; 4]], ticks: u32, tick: u32, flow: u32, written: usize) {
    let plan = Plan::of(rows);
    let log = vec![0; ticks as usize * plan.inputs()];
    let outcome = run_exactly(&ALL, &plan, &log, ticks);
    assert_eq!(outcome.parts, (34, flow, tick, 0), "{rows:?}");
    assert!(written_up_to(&outcome, written), "{rows:?}");
}

/// A run of some ticks over a log of zeros ends without a clash.
fn ends(rows: &[[u32; 4]], ticks: u32) {
    let plan = Plan::of(rows);
    let log = vec![0; ticks as usize * plan.inputs()];
    assert_eq!(run_exactly(&ALL, &plan, &log, ticks).parts, (0, 0, 0, ticks), "{rows:?}");
}

#[test]
fn two_operands() {
    for kind in [2, 3, 4, 5, 6, 13, 14] {
        clashes(&[[0, 2, 0, 0], [0, 3, 0, 0], [kind, 0, 1, 0], [0, 1, 0, 0]], 9, 2, 2, 10);
        clashes(&[[0, 3, 0, 0], [0, 2, 0, 0], [kind, 0, 1, 0], [0, 1, 0, 0]], 9, 2, 2, 10);
        ends(&[[0, 2, 0, 0], [0, 3, 0, 0], [kind, 0, 1, 0], [0, 1, 0, 0]], 2);
        clashes_with(&[[0, 1, 0, 0], [0, 1, 1, 0], [kind, 0, 1, 0]], &[3, 1], 0, 2, "3 . _");
        clashes_with(&[[0, 1, 1, 0], [0, 1, 0, 0], [kind, 0, 1, 0]], &[3, 1], 0, 2, ". 1 _");
    }
}

#[test]
fn faster() {
    clashes(&[[0, 5, 1, 0], [8, 0, 2, 3]], 20, 6, 1, 13);
    clashes(&[[0, 7, 1, 0], [8, 0, 2, 3]], 20, 8, 1, 17);
    clashes(&[[0, 3, 0, 0], [8, 0, 2, 3]], 20, 3, 1, 7);
    ends(&[[0, 6, 1, 0], [8, 0, 2, 3]], 40);
    ends(&[[0, 5, 1, 0], [8, 0, 2, 3]], 6);
    let log = [10, 11, 12, 13];
    clashes_with(&[[0, 2, 0, 0], [8, 0, 3, 1]], &log, 2, 1, "10 10 | . 10 | 12 _ | _ _");
    clashes_with(&[[0, 3, 0, 0], [8, 0, 2, 1]], &log, 3, 1, "10 10 | . 10 | . . | 13 _");
}

#[test]
fn head() {
    // Present before s, at s, and too early or too late after it.
    clashes(&[[0, 9, 1, 0], [11, 0, 5, 3]], 20, 1, 1, 3);
    clashes(&[[0, 9, 3, 0], [11, 0, 5, 3]], 20, 3, 1, 7);
    clashes(&[[0, 3, 5, 0], [11, 0, 5, 3]], 20, 8, 1, 17);
    clashes(&[[0, 3, 7, 0], [11, 0, 5, 3]], 20, 10, 1, 21);
    ends(&[[0, 3, 6, 0], [11, 0, 5, 3]], 40);
    ends(&[[0, 3, 5, 0], [11, 0, 5, 3]], 8);
    let log = [10, 11, 12, 13];
    clashes_with(&[[0, 4, 1, 0], [11, 0, 42, 3]], &log, 1, 1, ". . | 11 _ | _ _ | _ _");
    clashes_with(&[[0, 1, 0, 0], [11, 0, 42, 0]], &log, 0, 1, "10 _ | _ _ | _ _ | _ _");
    clashes_with(&[[0, 1, 2, 0], [11, 0, 42, 0]], &log, 3, 1, ". 42 | . . | 12 12 | 13 _");
    clashes_with(&[[0, 2, 1, 0], [11, 0, 42, 0]], &log, 3, 1, ". 42 | 11 11 | . . | 13 _");
}

#[test]
fn merge() {
    // c, a and b at tick 0, and the merge where they fit together: three of the twelve cases.
    let cases = [
        (". . .", Some(".")),
        (". 8 .", None),
        (". . 9", None),
        (". 8 9", None),
        ("4 . .", None),
        ("4 8 .", Some("8")),
        ("4 . 9", None),
        ("4 8 9", None),
        ("0 . .", None),
        ("0 8 .", None),
        ("0 . 9", Some("9")),
        ("0 8 9", None),
    ];
    let constant = |cell: &str| match cell.parse() {
        Ok(value) => [1, value, 1, 0],
        Err(_) => [1, 7, 1, 1],
    };
    for (operands, merged) in cases {
        let mut rows: Vec<[u32; 4]> = operands.split(' ').map(constant).collect();
        rows.push([15, 0, 1, 2]);
        match merged {
            Some(cell) => ends_with(&rows, &[], &format!("{operands} {cell}")),
            None => clashes_with(&rows, &[], 0, 3, &format!("{operands} _")),
        }
    }
    // A tail lacks the value that c's truth names at tick 1.
    let rows = [[0, 1, 0, 0], [13, 0, 0, 0], [14, 0, 0, 0], [12, 1, 0, 0], [15, 0, 3, 2]];
    clashes_with(&rows, &[0, 7], 1, 4, "0 . 0 . 0 | 7 7 . . _");
}

#[test]
fn views() {
    for kind in [17, 18] {
        let clash = |a, c, w, tick, trace: &str| clashes_with(&[a, c, [kind, 0, 1, w]], &[], tick, 2, trace);
        let at = |period, phase| [1, if kind == 17 { 1 } else { 0 }, period, phase];
        let one = if kind == 17 { "1" } else { "0" };
        let with = |trace: &str| trace.replace('1', one);
        // c has not begun at a's first tick, however soon it begins.
        clash(at(1, 0), at(1, 1), 1, 0, &with("1 . _ | _ _ _"));
        clash(at(1, 1), at(1, 2), 5, 1, &with(". . . | 1 . _"));
        clash(at(4, 2), at(1, 4095), 4, 2, &with(". . . | . . . | 1 . _ | _ _ _"));
        // c is absent where it is looked at: at a later start, both beginning together, and c before.
        clash(at(2, 0), at(3, 0), 2, 2, &with("1 1 1 | . . . | 1 . _ | _ _ _"));
        clash(at(2, 1), at(3, 0), 2, 3, &with(". 1 . | 1 . 1 | . . . | 1 1 _"));
        // The start is at tick 3, where a is absent, and the clash at tick 4.
        clash(at(3, 1), at(3, 0), 2, 4, &with(". 1 . | 1 . 1 | . . . | . 1 . | 1 . _"));
        // A start with c absent that a never meets is none: it is present at ticks 0, 4 and 8, the starts are 2 apart.
        ends(&[at(4, 0), at(4, 0), [kind, 0, 1, 2]], 30);
        // c absent where it is looked at, although present at the tick.
        clash(at(1, 1), at(2, 0), 1, 2, &with(". 1 . | 1 . 1 | 1 1 _"));
        ends(&[at(1, 1), at(2, 0), [kind, 0, 1, 2]], 30);
    }
}

#[test]
fn registers() {
    // The tick is filled; the lowest register is named, whichever way round source and beat differ.
    let rows = [[0, 2, 0, 0], [0, 3, 0, 0], [7, 5, 0, 1], [7, 6, 1, 0], [0, 1, 0, 0]];
    clashes(&rows, 9, 2, 2, 15);
    let rows = [[0, 2, 0, 0], [0, 3, 0, 0], [7, 5, 0, 0], [7, 6, 1, 0], [0, 1, 0, 0]];
    clashes(&rows, 9, 2, 3, 15);
    // A source above the register.
    clashes(&[[0, 2, 0, 0], [7, 5, 0, 2], [0, 2, 1, 0]], 9, 0, 1, 3);
    ends(&[[0, 2, 0, 0], [7, 5, 0, 2], [0, 2, 0, 0]], 9);
    ends(&[[0, 2, 0, 0], [7, 5, 0, 1]], 9);
    // A clash at a higher flow comes before that of a register in the same tick.
    clashes(&[[0, 2, 0, 0], [0, 3, 0, 0], [7, 5, 0, 1], [2, 0, 1, 0]], 9, 2, 3, 11);
}

/// Registers over the inputs (2, 0) and (1, 0), with the traces that they leave.
#[test]
fn ticks_of_registers() {
    let leaves = |over: &[[u32; 4]], flow: u32, trace: &str| {
        let rows = [&[[0, 2, 0, 0], [0, 1, 0, 0]], over].concat();
        clashes_with(&rows, &[3, 1, 4, 0, 5, 2], 1, flow, trace);
    };
    leaves(&[[7, 7, 0, 1]], 2, "3 1 7 | . 0 . | _ _ _");
    leaves(&[[7, 7, 1, 0]], 2, "3 1 7 | . 0 3 | _ _ _");
    leaves(&[[7, 7, 1, 0], [7, 8, 0, 1]], 2, "3 1 7 8 | . 0 3 . | _ _ _ _");
    leaves(&[[7, 7, 0, 0], [7, 8, 0, 1]], 3, "3 1 7 8 | . 0 . . | _ _ _ _");
    leaves(&[[7, 7, 0, 1], [2, 0, 1, 0]], 3, "3 1 7 4 | . 0 . _ | _ _ _ _");
}

/// Random clashes: exactly the cells before it are written, and they are those of a run that stops before its tick.
#[test]
fn what_a_clash_leaves() {
    let mut rng = Rng::new(41);
    let mut seen = [0; 19];
    for round in 0..rounds(60_000) {
        let plan = match round % 2 {
            0 => any_rows(&mut rng),
            _ => faulty(&mut rng),
        };
        let log = rng.log(30 * plan.inputs());
        let flows = plan.words.len() / 4;
        let extra = rng.below(5);
        let outcome = run(&ALL, &plan, &log, 30, (30 * flows + extra, 30 * flows + 4 - extra));
        let (number, flow, tick, count) = outcome.parts;
        if number != 34 {
            continue;
        }
        assert!(count == 0 && (flow as usize) < flows && tick < 30);
        let kind = plan.words[4 * flow as usize] as usize;
        seen[kind] += 1;
        let before = tick as usize * flows;
        let written = before + if kind == 7 { flows } else { flow as usize };
        assert!(written_up_to(&outcome, written), "{plan:?}");
        let shorter = run_exactly(&ALL[..2], &plan, &log[..tick as usize * plan.inputs()], tick);
        assert_eq!(shorter.parts, (0, 0, 0, tick));
        assert_eq!(shorter.bytes[..before], outcome.bytes[..before]);
        assert_eq!(shorter.words[..before], outcome.words[..before]);
    }
    for (kind, &count) in seen.iter().enumerate() {
        assert_eq!(count > 0, matches!(kind, 2..=8 | 11 | 13..=15 | 17 | 18), "clashes by kind: {seen:?}");
    }
}
