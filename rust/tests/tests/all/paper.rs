//! The paper's own plans, with the answers it gives.

use tests::compare::{check, listing, read, run, run_exactly, write, Outcome};
use tests::implementation::{Parts, ALL};
use tests::{Plan, LISTING_MAX};

use crate::traces::{clashes_with, ends_with};

/// What the check answers, and period and phase of the last flow where it accepts. It writes nothing where it refuses.
fn checked(rows: &[[u32; 4]]) -> (Parts, Option<(u32, u32)>) {
    let outcome = check(&ALL, &Plan::of(rows), 11 * rows.len());
    assert!(outcome.parts.0 == 0 || outcome.is_untouched(), "{rows:?}");
    let last = &outcome.words[11 * (rows.len() - 1)..];
    (outcome.parts, (outcome.parts.0 == 0).then_some((last[0], last[1])))
}

/// The check accepts, and the last flow has this period and phase.
fn accepts(rows: &[[u32; 4]], period: u32, phase: u32) {
    assert_eq!(checked(rows), ((0, 0, 0, rows.len() as u32), Some((period, phase))), "{rows:?}");
}

/// The check refuses with this number at this flow.
fn refuses(rows: &[[u32; 4]], number: u32, flow: u32) {
    assert_eq!(checked(rows), ((number, flow, 0, 0), None), "{rows:?}");
}

/// The cells of a flow in a run, present or absent.
pub fn cells(outcome: &Outcome, flows: usize, flow: usize, ticks: usize) -> Vec<Option<u32>> {
    let place = |tick: usize| tick * flows + flow;
    (0..ticks).map(|tick| (outcome.bytes[place(tick)] == 1).then(|| outcome.words[place(tick)])).collect()
}

#[test]
fn cases_a_to_c() {
    accepts(&[[0, 3, 0, 0], [8, 0, 3, 1]], 1, 0);
    accepts(&[[0, 3, 0, 0], [9, 0, 2, 0]], 6, 0);
    accepts(&[[0, 3, 0, 0], [9, 0, 2, 0], [8, 1, 3, 2]], 2, 0);
}

#[test]
fn case_d() {
    let rows = [[0, 10, 0, 0], [0, 20, 0, 0], [2, 0, 1, 0]];
    refuses(&rows, 21, 2);
    let log = [&[5, 7][..], &[0; 18], &[8, 0]].concat();
    let ten_ticks = format!("5 7 12{}", " | . . .".repeat(9));
    ends_with(&rows, &log[..20], &ten_ticks);
    clashes_with(&rows, &log, 10, 2, &format!("{ten_ticks} | 8 . _"));
}

#[test]
fn cases_e_to_h() {
    refuses(&[[0, 11, 0, 0], [8, 0, 2, 5]], 21, 1);
    accepts(&[[0, 65, 0, 0], [9, 0, 63, 0]], 4095, 0);
    accepts(&[[0, 66, 0, 0], [9, 0, 63, 0]], 4158, 0);
    accepts(&[[0, 5, 10, 0], [11, 0, 77, 5]], 5, 5);
    refuses(&[[0, 5, 9, 0], [11, 0, 77, 5]], 21, 1);
    accepts(&[[0, 1, 0, 0], [10, 0, 4095, 0]], 1, 4095);
    accepts(&[[0, 1, 1, 0], [10, 0, 4095, 0]], 1, 4096);
}

#[test]
fn cases_i_and_j() {
    let merged = [[0, 4, 0, 0], [0, 4, 0, 0], [13, 0, 1, 0], [14, 0, 1, 0], [15, 1, 2, 3]];
    accepts(&merged, 4, 0);
    let clocks = check(&ALL, &Plan::of(&merged), 55);
    assert_eq!(clocks.words[22..33], [4, 0, 1, 3, 0, 0, 0, 0, 0, 0, 0]);
    assert_eq!(clocks.words[33..44], [4, 0, 1, 2, 0, 0, 0, 0, 0, 0, 0]);
    let log = [5, 1, 0, 0, 0, 0, 0, 0, 6, 0];
    ends_with(&merged, &log, "5 1 5 . 5 | . . . . . | . . . . . | . . . . . | 6 0 . 6 6");
    let mut swapped = merged;
    swapped[4] = [15, 1, 3, 2];
    refuses(&swapped, 21, 4);
    let mut tail = merged;
    tail[4] = [12, 2, 0, 0];
    refuses(&tail, 23, 4);
}

#[test]
fn case_k() {
    let rows = [[0, 2, 0, 0], [7, 7, 0, 0]];
    ends_with(&rows, &[10, 11, 12, 13, 14], "10 7 | . . | 12 10 | . . | 14 12");
}

#[test]
fn zero_subtract_one() {
    let plan = Plan::of(&[[1, 0, 1, 0], [1, 1, 1, 0], [3, 0, 1, 0], [2, 2, 1, 0]]);
    let outcome = run_exactly(&ALL, &plan, &[], 1);
    assert_eq!(outcome.words[..4], [0, 1, 4_294_967_295, 0]);
}

/// The request that less and larger read signed numbers, with its own values.
#[test]
fn torque_below_zero() {
    let plan = Plan::of(&[[1, 4_294_967_295, 1, 0], [1, 0, 1, 0], [4, 0, 1, 0], [6, 0, 1, 0]]);
    let outcome = run_exactly(&ALL, &plan, &[], 1);
    assert_eq!(outcome.words[..4], [4_294_967_295, 0, 1, 0]);
}

#[test]
fn the_listing() {
    let packed = [0x02, 0x00, 0x05, 0x00, 0x02, 0x40, 0x08];
    let outcome = listing(&ALL, &packed, LISTING_MAX);
    let text = b"ok 2\n0 10 0 -\n1 20 0 -\n";
    assert_eq!(outcome.parts, (0, 0, 0, text.len() as u32));
    assert_eq!(&outcome.bytes[..text.len()], text);

    let plain = read(&ALL, &packed, 8);
    assert_eq!((plain.parts, &plain.words[..8]), ((0, 0, 0, 2), &[0, 10, 0, 0, 9, 0, 2, 0][..]));
    let plan = Plan { count: 2, words: plain.words[..8].to_vec() };
    let again = write(&ALL, &plan, 7);
    assert_eq!((again.parts, &again.bytes[..7]), ((0, 0, 0, 7), &packed[..]));
}

/// The listing of a plan in plain form.
fn listed(rows: &[[u32; 4]]) -> (Parts, String) {
    let written = write(&ALL, &Plan::of(rows), 489);
    assert_eq!(written.parts.0, 0);
    let outcome = listing(&ALL, &written.bytes[..written.parts.3 as usize], LISTING_MAX);
    let text = &outcome.bytes[..outcome.parts.3 as usize];
    (outcome.parts, String::from_utf8(text.to_vec()).expect("a listing is text"))
}

#[test]
fn listings_of_conditions_and_refusals() {
    let rows = [[0, 4, 1, 0], [13, 0, 0, 0], [14, 1, 1, 0]];
    assert_eq!(listed(&rows).1, "ok 3\n0 4 1 -\n1 4 1 c0+\n2 4 1 c0+c1-\n");
    let refused = [[0, 10, 0, 0], [0, 20, 0, 0], [2, 0, 1, 0]];
    assert_eq!(listed(&refused), ((0, 0, 0, 8), "no 21 2\n".to_string()));
    let outcome = listing(&ALL, &[], LISTING_MAX);
    assert_eq!((outcome.parts, &outcome.bytes[..8]), ((0, 0, 0, 8), &b"no 12 0\n"[..]));
    let outcome = listing(&ALL, &[65], LISTING_MAX);
    assert_eq!((outcome.parts, &outcome.bytes[..8]), ((0, 0, 0, 8), &b"no 11 0\n"[..]));
}

/// The mistakes on the paper's shelf, each with the cells that it would spoil.
#[test]
fn mistakes_on_the_shelf() {
    let (on, off) = (Some, None);
    // Every copy is there at its own tick, and none past the k-th, even if nothing follows.
    let plan = Plan::of(&[[0, 6, 0, 0], [8, 0, 3, 2]]);
    let log: Vec<u32> = (50..59).collect();
    let outcome = run(&ALL, &plan, &log, 9, (18, 18));
    let expected = [on(50), off, on(50), off, on(50), off, on(56), off, on(56)];
    assert_eq!(cells(&outcome, 2, 1, 9), expected);
    // A source that ends: an input is present once in these ticks, and the copies stop after three.
    let plan = Plan::of(&[[0, 4095, 1, 0], [8, 0, 3, 1]]);
    let outcome = run(&ALL, &plan, &log, 9, (18, 18));
    assert_eq!(cells(&outcome, 2, 1, 9), [off, on(51), on(51), on(51), off, off, off, off, off]);
    // Slower keeps the phase.
    let plan = Plan::of(&[[0, 2, 1, 0], [9, 0, 2, 0]]);
    let outcome = run(&ALL, &plan, &log, 9, (18, 18));
    assert_eq!(cells(&outcome, 2, 1, 9), [off, on(51), off, off, off, on(55), off, off, off]);
    // A merge does not let a and b both through.
    let plan = Plan::of(&[[1, 1, 1, 0], [15, 0, 0, 0]]);
    assert_eq!(run(&ALL, &plan, &[], 1, (2, 2)).parts, (34, 1, 0, 0));
    // A register's first value is not repeated after a gap.
    let plan = Plan::of(&[[0, 3, 0, 0], [7, 9, 0, 0]]);
    let outcome = run(&ALL, &plan, &log, 9, (18, 18));
    assert_eq!(cells(&outcome, 2, 1, 9), [on(9), off, off, on(50), off, off, on(53), off, off]);
}

/// The words that the check gives a flow of an accepted plan.
fn clock(rows: &[[u32; 4]], flow: usize) -> [u32; 11] {
    let outcome = check(&ALL, &Plan::of(rows), 11 * rows.len());
    assert_eq!(outcome.parts, (0, 0, 0, rows.len() as u32), "{rows:?}");
    outcome.words[11 * flow..][..11].try_into().expect("eleven words")
}

/// A trace in writing of so many ticks and flows: those written, and absent cells at all other ticks.
fn at_ticks(ticks: usize, flows: usize, written: &[(usize, &str)]) -> String {
    let absent = vec!["."; flows].join(" ");
    let mut cells = vec![&absent[..]; ticks];
    written.iter().for_each(|&(tick, text)| cells[tick] = text);
    cells.join(" | ")
}

/// The log of a signal, 100 plus the tick, and of a switch that has these values, at other ticks 55.
fn switched(ticks: u32, values: &[(u32, u32)]) -> Vec<u32> {
    let switch = |tick| values.iter().find(|value| value.0 == tick).map_or(55, |value| value.1);
    (0..ticks).flat_map(|tick| [100 + tick, switch(tick)]).collect()
}

/// The request for conditions seen at a slower pace, with its own rates: a mode switch read every 15 ticks governs a
/// signal read every 10. With w 30 it is seen at ticks 0, 30 and 60, and what it has at 15 and 45 counts for nothing.
#[test]
fn mode_switch() {
    let rows = [[0, 10, 0, 0], [0, 15, 0, 0], [17, 0, 1, 30], [18, 0, 1, 30]];
    assert_eq!(clock(&rows, 2), [10, 0, 1, 3, 0, 0, 0, 30, 0, 0, 0]);
    assert_eq!(clock(&rows, 3), [10, 0, 1, 2, 0, 0, 0, 30, 0, 0, 0]);
    assert_eq!(listed(&rows).1, "ok 4\n0 10 0 -\n1 15 0 -\n2 10 0 c1+@30\n3 10 0 c1-@30\n");
    let trace = [
        (0, "100 1 100 ."),
        (10, "110 . 110 ."),
        (15, ". 0 . ."),
        (20, "120 . 120 ."),
        (30, "130 0 . 130"),
        (40, "140 . . 140"),
        (45, ". 7 . ."),
        (50, "150 . . 150"),
        (60, "160 3 160 ."),
        (70, "170 . 170 ."),
    ];
    let log = switched(71, &[(0, 1), (15, 0), (30, 0), (45, 7), (60, 3)]);
    ends_with(&rows, &log, &at_ticks(71, 4, &trace));
}

/// A signal at 5, 7, 9 and so on, a switch at 1, 4, 7 and so on. With w 6 the signal's ticks from 5, 11 and 17 on have
/// what the switch has at 1, 7 and 13: as far after its first tick.
#[test]
fn views_with_phases() {
    let rows = [[0, 2, 5, 0], [0, 3, 1, 0], [17, 0, 1, 6], [18, 0, 1, 6]];
    assert_eq!(clock(&rows, 2), [2, 5, 1, 3, 0, 0, 0, 6, 0, 0, 0]);
    assert_eq!(clock(&rows, 3), [2, 5, 1, 2, 0, 0, 0, 6, 0, 0, 0]);
    let trace = [
        (1, ". 0 . ."),
        (4, ". 9 . ."),
        (5, "105 . . 105"),
        (7, "107 4 . 107"),
        (9, "109 . . 109"),
        (10, ". 0 . ."),
        (11, "111 . 111 ."),
        (13, "113 0 113 ."),
        (15, "115 . 115 ."),
        (16, ". 6 . ."),
        (17, "117 . . 117"),
    ];
    let log = switched(18, &[(1, 0), (4, 9), (7, 4), (10, 0), (13, 0), (16, 6)]);
    ends_with(&rows, &log, &at_ticks(18, 4, &trace));
}

/// Each way in which a view breaks its rules; 23 comes before, for either operand.
#[test]
fn views_refused() {
    let inputs = [[0, 10, 6, 0], [0, 15, 6, 0], [0, 15, 7, 0], [13, 0, 0, 0], [17, 1, 1, 15]];
    let last = |row| [&inputs[..], &[row]].concat();
    for kind in [17, 18] {
        // Multiples of 10 and of 15 alone, of neither, and below both.
        for w in [10, 20, 4090, 15, 45, 4095, 7, 31, 1] {
            refuses(&last([kind, 0, 1, w]), 40, 5);
            refuses(&last([kind, 1, 0, w]), 40, 5);
        }
        // The condition begins one tick later than the signal, and the other way round.
        refuses(&last([kind, 0, 2, 30]), 40, 5);
        refuses(&last([kind, 1, 2, 15]), 40, 5);
        accepts(&last([kind, 2, 0, 30]), 15, 7);
        for w in [30, 60, 4080] {
            accepts(&last([kind, 0, 1, w]), 10, 6);
            accepts(&last([kind, 1, 0, w]), 15, 6);
        }
        for flow in [3, 4] {
            for w in [30, 7] {
                refuses(&last([kind, flow, 1, w]), 23, 5);
                refuses(&last([kind, 0, flow, w]), 23, 5);
                refuses(&last([kind, flow, 2, w]), 23, 5);
                refuses(&last([kind, flow, flow, w]), 23, 5);
            }
        }
        assert_eq!(listed(&last([kind, 0, 1, 31])).1, "no 40 5\n");
    }
}

/// A view period is part of a condition: where clocks have to be equal it tells them apart.
#[test]
fn views_and_other_rows() {
    let rows = [[0, 1, 0, 0], [13, 0, 0, 0], [17, 0, 0, 1], [17, 0, 0, 1], [17, 0, 0, 2], [18, 0, 0, 1]];
    let last = |row| [&rows[..], &[row]].concat();
    // The same cells with the views 0 and 1, but not the same clock; equal views; another view; another truth.
    ends_with(&rows[..3], &[5, 0, 6], "5 5 5 | 0 . . | 6 6 6");
    refuses(&last([2, 1, 2, 0]), 21, 6);
    assert_eq!(clock(&last([2, 2, 3, 0]), 6), [1, 0, 1, 1, 0, 0, 0, 1, 0, 0, 0]);
    refuses(&last([2, 2, 4, 0]), 21, 6);
    refuses(&last([2, 2, 5, 0]), 21, 6);
    // When adds a direct condition behind a view, if both operands have it.
    assert_eq!(clock(&last([14, 2, 3, 0]), 6), [1, 0, 2, 1, 6, 0, 0, 1, 0, 0, 0]);
    assert_eq!(listed(&last([14, 2, 3, 0])).1.lines().last(), Some("6 1 0 c0+@1c3-"));
    refuses(&last([13, 2, 1, 0]), 21, 6);
    refuses(&last([13, 2, 4, 0]), 21, 6);
    // A register's source, and a merge, which needs direct conditions.
    refuses(&last([7, 0, 2, 4]), 21, 6);
    accepts(&[&rows[..2], &[[14, 0, 0, 0], [15, 0, 1, 2]]].concat(), 1, 0);
    refuses(&last([15, 0, 2, 5]), 21, 6);
    refuses(&last([15, 0, 1, 5]), 21, 6);
    // The result has a condition, so that neither kinds 8 to 12 nor another view stand over it.
    for row in [[8, 2, 1, 1], [9, 2, 1, 0], [10, 2, 0, 0], [11, 2, 0, 0], [12, 2, 0, 0], [17, 2, 0, 1], [18, 0, 2, 1]] {
        refuses(&last(row), 23, 6);
    }
}

/// Runs of plans that the check refuses, which end or clash by the cells alone.
#[test]
fn runs_of_refused_views() {
    // The condition has not begun at the signal's first tick.
    let rows = [[0, 2, 1, 0], [0, 1, 2, 0], [17, 0, 1, 2]];
    refuses(&rows, 40, 2);
    clashes_with(&rows, &[9; 4], 1, 2, ". . . | 9 . _");
    // It is absent at tick 4, at which it would be seen for tick 5, although it is present at 3 and at 6.
    let rows = [[0, 2, 1, 0], [0, 3, 0, 0], [18, 0, 1, 4]];
    refuses(&rows, 40, 2);
    let log = switched(6, &[(0, 0), (3, 1)]);
    clashes_with(&rows, &log, 5, 2, ". 0 . | 101 . 101 | . . . | 103 1 103 | . . . | 105 . _");
    // The signal is absent at tick 2, from which on tick 3 counts: the condition is seen at tick 2 all the same.
    let rows = [[0, 3, 0, 0], [0, 1, 0, 0], [17, 0, 1, 2]];
    refuses(&rows, 40, 2);
    let log = switched(7, &[(0, 1), (1, 0), (2, 0), (3, 1), (4, 1), (5, 0), (6, 8)]);
    ends_with(&rows, &log, "100 1 100 | . 0 . | . 0 . | 103 1 . | . 1 . | . 0 . | 106 8 106");
    // A signal that is sampled itself has its first tick where it has its first value, here 1. Ticks 1, 3 and 5 begin a
    // view each, for which the condition is seen at 0, 2 and 4.
    let rows = [[0, 1, 0, 0], [13, 0, 0, 0], [0, 1, 0, 0], [18, 1, 2, 2]];
    refuses(&rows, 23, 3);
    let log = [0, 0, 5, 1, 6, 7, 7, 1, 0, 0, 8, 1];
    ends_with(&rows, &log, "0 . 0 . | 5 5 1 5 | 6 6 7 6 | 7 7 1 . | 0 . 0 . | 8 8 1 8");
    // A condition that is sampled itself begins with its first value too, here at 1; it has none at 3.
    let rows = [[0, 1, 1, 0], [0, 1, 0, 0], [13, 1, 1, 0], [17, 0, 2, 2]];
    refuses(&rows, 23, 3);
    let log = switched(4, &[(0, 0), (1, 4), (2, 5), (3, 0)]);
    clashes_with(&rows, &log, 3, 3, ". 0 . . | 101 4 4 101 | 102 5 5 102 | 103 0 . _");
}
