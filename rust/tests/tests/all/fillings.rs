//! Rates filled in on every plan of few rows, against all fillings within small limits.

use reference::Limits;
use tests::implementation::ALL;

use crate::parts::{every_plan, of_several};
use crate::rates::{all_fillings_agree, fill, Seen, OF_VIEWS, OPEN};

/// All rows over lower flows, an open row, and three rated ones; with few choices of copies, gaps, delays and ticks.
fn any_kind(flow: u32, count: u32) -> Vec<[u32; 4]> {
    let mut rows = vec![OPEN, [0, 2, 2, 0], [0, 4, 0, 0], [1, 5, 1, 1]];
    for a in 0..flow {
        rows.extend([[8, a, 2, 1], [8, a, 2, 2], [9, a, 2, 0], [9, a, 63, 0]]);
        rows.extend([[10, a, 1, 0], [10, a, 2, 0], [10, a, 4094, 0], [11, a, 9, 0], [11, a, 9, 1], [12, a, 0, 0]]);
        rows.extend(of_several(a, flow, count));
    }
    rows
}

/// Fewer kinds, for one row more: so that two open rows can be joined to a rated one.
fn few_kinds(flow: u32, count: u32) -> Vec<[u32; 4]> {
    let mut rows = vec![OPEN, [0, 2, 2, 0], [1, 5, 4, 0]];
    for a in 0..flow {
        rows.extend([[8, a, 2, 2], [9, a, 2, 0], [10, a, 2, 0], [12, a, 0, 0]]);
        rows.extend((flow..count).map(|source| [7, 5, a, source]));
        rows.extend((0..a).map(|b| [2, a, b, 0]));
    }
    rows
}

/// Few kinds with sampling, and merges in the last row.
fn sampling_kinds(flow: u32, count: u32) -> Vec<[u32; 4]> {
    let mut rows = vec![OPEN, [0, 2, 2, 0]];
    for a in 0..flow {
        rows.push([9, a, 2, 0]);
        rows.extend((0..a).map(|b| [2, a, b, 0]));
        for b in 0..flow {
            match flow + 1 == count {
                true => rows.extend((0..flow).map(|c| [15, c, a, b])),
                false => rows.extend([[13, a, b, 0], [14, a, b, 0]]),
            }
        }
    }
    rows
}

/// Every plan of so many rows, against all fillings with periods and phases up to 6.
fn every_plan_of(count: u32, rows_of: fn(u32, u32) -> Vec<[u32; 4]>, seen: &mut Seen) {
    every_plan(count, rows_of, &mut Vec::new(), &mut |plan| {
        let filled = fill(&ALL, plan).expect("a table");
        all_fillings_agree(Limits { period: 6, phase: 6 }, &filled);
        seen.add(&filled);
    });
}

/// Of any kind.
#[test]
fn every_plan_of_four_rows() {
    let mut seen = Seen::default();
    (1..=4).for_each(|count| every_plan_of(count, any_kind, &mut seen));
    assert_eq!(seen.plans, 4 + 4 * 22 + 4 * 23 * 58 + 4 * 24 * 60 * 118);
    // Two open rows and a rated one are joined by two further rows.
    seen.assert_all(8_000, &["filled in, two rows", "filled in, three rows and more"]);
}

/// Of few kinds.
#[test]
fn every_plan_of_five_rows() {
    let mut seen = Seen::default();
    every_plan_of(5, few_kinds, &mut seen);
    assert_eq!(seen.plans, 3 * 11 * 18 * 24 * 29);
    seen.assert_all(2_000, &[&OF_VIEWS[..], &["filled in, three rows and more"]].concat());
}

/// Of few kinds, with sampling and merges.
#[test]
fn every_plan_of_five_rows_that_sample() {
    let mut seen = Seen::default();
    every_plan_of(5, sampling_kinds, &mut seen);
    assert_eq!(seen.plans, 2 * 5 * 13 * 26 * 76);
    let phases = ["a phase above all written ones", "a phase below all written ones"];
    seen.assert_all(10_000, &[&phases[..], &OF_VIEWS, &["filled in, three rows and more"]].concat());
}
