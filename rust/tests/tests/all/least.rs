//! The least part: by hand, in every room, and refused in the right order.

use tests::compare::{check, least_flows, least_part, words_are};
use tests::implementation::{Parts, ALL};
use tests::{Plan, CLOCK_WORDS};

/// The check answers rows with 21 at a flow, and they come down to the part of these flows, which has these rows. All
/// of it is worked out by hand.
fn comes_down_to(rows: &[[u32; 4]], named: u32, flows: &[u32], part: &[[u32; 4]]) {
    let (plan, count) = (Plan::of(rows), flows.len() as u32);
    assert_eq!(check(&ALL, &plan, CLOCK_WORDS * rows.len()).parts, (21, named, 0, 0), "{rows:?}");
    let found = least_part(&ALL, &plan, 4 * rows.len());
    assert_eq!(found.parts, (0, 0, 0, count), "{rows:?}");
    assert!(words_are(&found, &part.concat()), "{rows:?}: {:?}", found.words);
    let found = least_flows(&ALL, &plan, rows.len());
    assert_eq!(found.parts, (0, 0, 0, count), "{rows:?}");
    assert!(words_are(&found, flows), "{rows:?}: {:?}", found.words);
}

/// The same of rows that are all needed.
fn are_all_needed(rows: &[[u32; 4]], named: u32) {
    let flows: Vec<u32> = (0..rows.len() as u32).collect();
    comes_down_to(rows, named, &flows, rows);
}

/// The input of a clock.
fn at(period: u32, phase: u32) -> [u32; 4] {
    [0, period, phase, 0]
}

/// A part that has fewer flows than what the named flow needs; and parts with still fewer that are answered with 22, 23
/// or 40.
#[test]
fn fewest_flows() {
    let rows = [at(6, 0), [4, 0, 0, 0], [15, 0, 0, 1], [8, 0, 3, 3]];
    comes_down_to(&rows, 2, &[0, 3], &[at(6, 0), [8, 0, 3, 3]]);
    are_all_needed(&rows[..3], 2);

    let rows = [at(1, 1), at(2, 0), [9, 0, 1, 0], [2, 2, 1, 0], [13, 0, 0, 0], [12, 4, 0, 0]];
    comes_down_to(&rows, 3, &[0, 1, 2, 3], &rows[..4]);
    let rows = [at(1, 1), at(2, 0), [9, 0, 1, 0], [2, 2, 1, 0], [17, 0, 1, 1]];
    comes_down_to(&rows, 3, &[0, 1, 2, 3], &rows[..4]);
}

/// Of two parts with equally many flows the one drawn from the lower flow: whatever else its flows are, and whatever
/// flow the check names.
#[test]
fn ties() {
    // Flows 1 and 2, drawn from 2, and flows 0 and 3, drawn from 3.
    let rows = [at(6, 0), at(4, 0), [8, 1, 3, 3], [8, 0, 4, 4]];
    comes_down_to(&rows, 2, &[1, 2], &[at(4, 0), [8, 0, 3, 3]]);
    // The same with a third part before both, of three flows.
    let rows = [at(6, 0), at(4, 0), [2, 0, 1, 0], [8, 1, 3, 3], [8, 0, 4, 4]];
    comes_down_to(&rows, 2, &[1, 3], &[at(4, 0), [8, 0, 3, 3]]);
    // The check names the sum, since a register's source comes after all rows.
    let rows = [at(2, 0), at(3, 0), [7, 5, 0, 1], [2, 0, 1, 0]];
    comes_down_to(&rows, 3, &[0, 1, 2], &rows[..3]);
    // The check names flow 3, and flow 4 of the part with flows 0, 1 and 4; but flow 1 leads to all of that part.
    let rows = [at(2, 0), [7, 5, 0, 4], at(3, 0), [2, 0, 2, 0], [8, 1, 3, 3]];
    comes_down_to(&rows, 3, &[0, 1, 4], &[at(2, 0), [7, 5, 0, 2], [8, 1, 3, 3]]);
    // Two sums of the same flows.
    let rows = [at(2, 0), at(3, 0), [2, 0, 1, 0], [2, 1, 0, 0]];
    comes_down_to(&rows, 2, &[0, 1, 2], &rows[..3]);
}

/// Sources of registers: later than the register, itself, and needed where the clash is another one.
#[test]
fn sources() {
    are_all_needed(&[at(4, 0), [7, 5, 0, 2], [9, 0, 2, 0]], 1);
    let rows = [at(4, 0), at(1, 0), [7, 5, 0, 4], at(1, 0), [9, 0, 2, 0]];
    comes_down_to(&rows, 2, &[0, 2, 4], &[at(4, 0), [7, 5, 0, 2], [9, 0, 2, 0]]);
    are_all_needed(&[at(4, 0), [7, 5, 0, 1], [8, 1, 3, 3]], 2);
    // The faster of the register clashes; its part has the register's source, and what that is of.
    are_all_needed(&[at(4, 0), [7, 5, 0, 4], [8, 1, 3, 3], at(4, 0), [2, 0, 3, 0]], 2);
    // Registers that are each other's sources, a third one on their clock, and one on another.
    let rows = [at(4, 0), [7, 5, 0, 2], [7, 6, 1, 1], [7, 7, 2, 2], at(5, 0), [7, 8, 2, 4]];
    comes_down_to(&rows, 5, &[0, 1, 2, 4, 5], &[at(4, 0), [7, 5, 0, 2], [7, 6, 1, 1], at(5, 0), [7, 8, 2, 3]]);
}

/// Each kind that can clash over flows 1 and 3 or one of them, of which the part has other numbers: operands, beat and
/// source move, and values, copies and ticks that look like them do not.
#[test]
fn numbers_that_move() {
    let other = at(1, 0);
    let over = |row, moved| {
        let rows = [other, at(6, 3), other, at(7, 3), other, row, other];
        comes_down_to(&rows, 5, &[1, 3, 5], &[at(6, 3), at(7, 3), moved]);
    };
    for kind in [2, 3, 4, 5, 6, 13, 14] {
        over([kind, 1, 3, 0], [kind, 0, 1, 0]);
        over([kind, 3, 1, 0], [kind, 1, 0, 0]);
    }
    over([7, 3, 1, 3], [7, 3, 0, 1]);
    over([7, 1, 3, 1], [7, 1, 1, 0]);
    over([15, 1, 3, 3], [15, 0, 1, 1]);
    over([15, 3, 1, 3], [15, 1, 0, 1]);
    over([15, 3, 3, 1], [15, 1, 1, 0]);
    let over_one = |row, moved| {
        let rows = [other, other, other, at(7, 3), other, row, other];
        comes_down_to(&rows, 5, &[3, 5], &[at(7, 3), moved]);
    };
    over_one([8, 3, 3, 3], [8, 0, 3, 3]);
    over_one([11, 3, 3, 3], [11, 0, 3, 3]);
    over_one([15, 3, 3, 3], [15, 0, 0, 0]);
    // Kinds 9, 10 and 12 on the way to a clash.
    for (row, moved) in [([9, 3, 3, 0], [9, 0, 3, 0]), ([10, 3, 3, 0], [10, 0, 3, 0]), ([12, 3, 0, 0], [12, 0, 0, 0])] {
        let rows = [other, other, other, at(7, 3), other, row, [8, 5, 3, 3]];
        comes_down_to(&rows, 6, &[3, 5, 6], &[at(7, 3), moved, [8, 1, 3, 3]]);
    }
    // Views on the way to one: a and c move, and w does not.
    for kind in [17, 18] {
        let rows = [other, at(3, 3), other, at(3, 1), other, [kind, 1, 3, 3], [2, 5, 1, 0]];
        comes_down_to(&rows, 6, &[1, 3, 5, 6], &[at(3, 3), at(3, 1), [kind, 0, 1, 3], [2, 2, 0, 0]]);
    }
    // I's plan with its last two swapped.
    let rows = [other, at(4, 0), other, at(4, 0), [13, 1, 3, 0], other, [14, 1, 3, 0], [15, 3, 6, 4]];
    let part = [at(4, 0), at(4, 0), [13, 0, 1, 0], [14, 0, 1, 0], [15, 1, 3, 2]];
    comes_down_to(&rows, 7, &[1, 3, 4, 6, 7], &part);
}

/// No part of one flow is answered with 21: operands and beat are lower flows, so that its row is an input or a
/// constant, and neither asks for a clock. Two flows are enough; three where a register's source is what differs, as
/// itself and its beat have its clock.
#[test]
fn the_smallest_parts() {
    for kind in (0..=15).chain(17..=18) {
        for fields in [[0, 0, 0], [1, 0, 0], [0, 1, 0], [0, 1, 1], [1, 1, 0], [1, 1, 1]] {
            let plan = Plan::of(&[[kind, fields[0], fields[1], fields[2]]]);
            let (number, ..) = check(&ALL, &plan, CLOCK_WORDS).parts;
            assert!(matches!((kind, number), (0 | 1, 0 | 14) | (2.., 14 | 15)), "{plan:?}: {number}");
            let refused = if number == 0 { 38 } else { number };
            assert_eq!(least_part(&ALL, &plan, 4).parts, (refused, 0, 0, 0), "{plan:?}");
        }
    }
    for row in [[8, 0, 2, 5], [11, 0, 9, 9], [15, 0, 0, 0]] {
        are_all_needed(&[at(11, 9), row], 1);
    }
    for source in [0, 1] {
        assert_eq!(least_part(&ALL, &Plan::of(&[at(11, 9), [7, 0, 0, source]]), 8).parts, (38, 0, 0, 0));
    }
    are_all_needed(&[at(11, 9), at(11, 8), [7, 0, 0, 1]], 2);
}

/// 64 rows that are all needed, up to the last one and from a register's source back to it; and 64 of which two are.
#[test]
fn the_greatest_plans() {
    let mut rows = vec![at(1, 0)];
    rows.extend((0..62).map(|before| [10, before, 1, 0]));
    rows.push([2, 0, 62, 0]);
    are_all_needed(&rows, 63);

    let mut rows = vec![at(1, 0), [7, 5, 0, 63]];
    rows.extend((1..63).map(|before| [10, before, 1, 0]));
    are_all_needed(&rows, 1);

    let mut rows = vec![at(9, 0); 64];
    rows[63] = [8, 62, 2, 4];
    comes_down_to(&rows, 63, &[62, 63], &[at(9, 0), [8, 0, 2, 4]]);
    rows[1] = [8, 0, 2, 4];
    comes_down_to(&rows, 1, &[0, 1], &[at(9, 0), [8, 0, 2, 4]]);
}

/// Plans that the check answers with 0, 22, 23 or 40, although it answers a part of them with 21.
#[test]
fn not_differing() {
    let refused = |rows: &[[u32; 4]], parts: Parts| {
        let plan = Plan::of(rows);
        assert_eq!(check(&ALL, &plan, CLOCK_WORDS * rows.len()).parts, parts, "{rows:?}");
        for len in [0, 1, 4 * rows.len(), 300] {
            for outcome in [least_part(&ALL, &plan, len), least_flows(&ALL, &plan, len)] {
                assert_eq!(outcome.parts, (38, 0, 0, 0), "{rows:?}");
                assert!(outcome.is_untouched(), "{rows:?}");
            }
        }
    };
    refused(&[at(6, 0)], (0, 0, 0, 1));
    refused(&[at(2, 0), [7, 5, 0, 2], [2, 0, 1, 0]], (0, 0, 0, 3));
    refused(&[at(2048, 0), [9, 0, 32, 0]], (22, 1, 0, 0));
    refused(&[at(2048, 0), [9, 0, 32, 0], at(2, 0), [2, 0, 2, 0]], (22, 1, 0, 0));
    refused(&[at(2048, 0), at(2, 0), [7, 5, 0, 1], [9, 0, 32, 0]], (22, 3, 0, 0));
    refused(&[at(1, 0), [13, 0, 0, 0], [12, 1, 0, 0], [8, 0, 2, 2]], (23, 2, 0, 0));
    refused(&[at(2, 0), at(3, 0), [17, 0, 1, 2], [2, 0, 1, 0]], (40, 2, 0, 0));
    refused(&[at(2, 0), at(3, 0), [7, 5, 0, 1], [18, 0, 1, 3]], (40, 3, 0, 0));
    // The parts alone.
    are_all_needed(&[at(2, 0), at(3, 0), [2, 0, 1, 0]], 2);
    are_all_needed(&[at(1, 1), at(2, 0), [2, 0, 1, 0]], 2);
    are_all_needed(&[at(1, 1), at(2, 0), [7, 5, 0, 1]], 2);
    are_all_needed(&[at(1, 0), [8, 0, 2, 2]], 1);
}

/// Every room from none to more than the plan has: too little, and nothing is written; enough, and words behind the
/// part stay as they were.
#[test]
fn rooms() {
    let mut all_needed = vec![at(1, 0)];
    all_needed.extend((0..62).map(|before| [10, before, 1, 0]));
    all_needed.push([2, 0, 62, 0]);
    let merged = [at(4, 0), at(4, 0), at(1, 0), [13, 0, 1, 0], [14, 0, 1, 0], [15, 1, 4, 3]];
    let moved = [at(4, 0), at(4, 0), [13, 0, 1, 0], [14, 0, 1, 0], [15, 1, 3, 2]];
    let plans = [
        (vec![at(9, 0), at(9, 0), [8, 1, 2, 4]], vec![1, 2], vec![at(9, 0), [8, 0, 2, 4]]),
        (merged.to_vec(), vec![0, 1, 3, 4, 5], moved.to_vec()),
        (all_needed.clone(), (0..64).collect(), all_needed),
    ];
    for (rows, flows, part) in plans {
        let (plan, part, count) = (Plan::of(&rows), part.concat(), flows.len() as u32);
        for len in 0..4 * rows.len() + 9 {
            for (outcome, words) in [(least_part(&ALL, &plan, len), &part), (least_flows(&ALL, &plan, len), &flows)] {
                let is_enough = len >= words.len();
                assert_eq!(outcome.parts, if is_enough { (0, 0, 0, count) } else { (10, 0, 0, 0) }, "{len} words");
                assert!(words_are(&outcome, if is_enough { words } else { &[] }), "{len} words: {rows:?}");
            }
        }
    }
}

/// Of two causes the earlier one is told: the table's, 38, the room. Nothing is written.
#[test]
fn order_of_refusals() {
    let refused = |plan: &Plan, number: u32, row: u32| {
        for len in [0, 1, 7, 300] {
            for outcome in [least_part(&ALL, plan, len), least_flows(&ALL, plan, len)] {
                assert_eq!(outcome.parts, (number, row, 0, 0), "{plan:?} into {len} words");
                assert!(outcome.is_untouched(), "{plan:?}");
            }
        }
    };
    let beyond = [at(2048, 0), at(2, 0), [9, 0, 32, 0]];
    // Answered with 21, 0 and 22 as they are.
    for rows in [[at(1, 0), at(2, 0), [2, 0, 1, 0]], [at(1, 0), at(2, 0), [2, 0, 0, 0]], beyond] {
        let with = |row: [u32; 4]| Plan::of(&[&rows[..], &[row]].concat());
        refused(&with([16, 0, 0, 0]), 13, 3);
        refused(&with([19, 0, 0, 0]), 13, 3);
        refused(&with([9, 0, 64, 0]), 14, 3);
        refused(&with([17, 0, 0, 0]), 14, 3);
        refused(&with([18, 0, 3, 1]), 15, 3);
        refused(&with([12, 3, 0, 0]), 15, 3);
        refused(&with([7, 0, 0, 4]), 15, 3);
        refused(&Plan::of(&[&rows[..], &[at(1, 0); 62]].concat()), 11, 0);
        for (count, words) in [(0, 12), (2, 12), (4, 12), (3, 11), (3, 8), (3, 0), (65, 12), (u32::MAX, 12)] {
            refused(&Plan { count, words: rows.concat()[..words].to_vec() }, 11, 0);
        }
        refused(&Plan { count: (1 << 30) + 3, words: rows.concat() }, 11, 0);
        refused(&Plan { count: 3, words: [rows.concat(), vec![0]].concat() }, 11, 0);
    }
    refused(&Plan::of(&[]), 11, 0);
    refused(&Plan::of(&beyond), 38, 0);
}
