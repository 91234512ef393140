//! Rates filled in: by hand, along every row both ways, at every limit, and refused in the right order.

use reference::{accepted_fillings, Limits};
use tests::compare::{check, fill_rates, words_are};
use tests::implementation::ALL;
use tests::{Plan, CLOCK_WORDS};

mod limits;
mod views;

/// An input without a rate.
const OPEN: [u32; 4] = [16, 0, 0, 0];

/// The input of a rate.
fn at(period: u32, phase: u32) -> [u32; 4] {
    [0, period, phase, 0]
}

/// Rows are filled in with these rates, one for each open row in order, and the check accepts them then.
fn are_filled(rows: &[[u32; 4]], rates: &[(u32, u32)]) {
    let (mut filled, count) = (rows.to_vec(), rows.len() as u32);
    let open = filled.iter_mut().filter(|row| **row == OPEN);
    assert_eq!(open.zip(rates).map(|(row, rate)| *row = at(rate.0, rate.1)).count(), rates.len(), "{rows:?}");
    assert!(!filled.contains(&OPEN), "{rows:?}");
    assert_eq!(check(&ALL, &Plan::of(&filled), CLOCK_WORDS * rows.len()).parts, (0, 0, 0, count), "{filled:?}");
    let outcome = fill_rates(&ALL, &Plan::of(rows), 4 * rows.len());
    assert_eq!(outcome.parts, (0, 0, 0, count), "{rows:?}");
    assert!(words_are(&outcome, &filled.concat()), "{rows:?}: {:?}", outcome.words);
}

/// Rows are refused by a number and a flow, whatever the room, and nothing is written.
fn are_refused(rows: &[[u32; 4]], number: u32, flow: u32) {
    is_refused(&Plan::of(rows), number, flow);
}

/// The same of a plan.
fn is_refused(plan: &Plan, number: u32, flow: u32) {
    for len in [0, 1, plan.words.len().saturating_sub(1), plan.words.len(), 300] {
        let outcome = fill_rates(&ALL, plan, len);
        assert_eq!(outcome.parts, (number, flow, 0, 0), "{plan:?} into {len} words");
        assert!(outcome.is_untouched(), "{plan:?} into {len} words");
    }
}

/// No filling is accepted.
fn has_none(rows: &[[u32; 4]]) {
    are_refused(rows, 21, 0);
}

/// A row over flow 0, with the open row under it or beside its result: the rate of the one by that of the other, both
/// ways. Also where the other two rows stand in the other order.
fn lead(row: [u32; 4], below: (u32, u32), above: (u32, u32)) {
    are_filled(&[OPEN, row, at(above.0, above.1), [2, 1, 2, 0]], &[below]);
    are_filled(&[OPEN, row, at(above.0, above.1), [2, 2, 1, 0]], &[below]);
    are_filled(&[at(below.0, below.1), row, OPEN, [2, 1, 2, 0]], &[above]);
    are_filled(&[at(below.0, below.1), row, OPEN, [2, 2, 1, 0]], &[above]);
}

/// The same rows have no filling: upwards, or downwards.
fn upwards_none(row: [u32; 4], above: (u32, u32)) {
    has_none(&[OPEN, row, at(above.0, above.1), [2, 1, 2, 0]]);
}

fn downwards_none(row: [u32; 4], below: (u32, u32)) {
    has_none(&[at(below.0, below.1), row, OPEN, [2, 1, 2, 0]]);
}

/// The wish's own sentence: an input known by what it feeds.
#[test]
fn an_input_and_what_it_feeds() {
    are_filled(&[at(40, 10), OPEN, [9, 1, 4, 0], [4, 2, 0, 0]], &[(10, 10)]);
    are_filled(&[[1, 7, 40, 10], OPEN, [9, 1, 4, 0], [4, 2, 0, 0]], &[(10, 10)]);
    are_refused(&[at(40, 10), OPEN, [9, 1, 4, 0]], 39, 1);
    has_none(&[at(40, 10), OPEN, [9, 1, 3, 0], [4, 2, 0, 0]]);
}

/// Kinds 2 to 6: each operand by the other, and by the result.
#[test]
fn sums_and_comparisons() {
    for kind in 2..=6 {
        are_filled(&[OPEN, at(6, 3), [kind, 0, 1, 0]], &[(6, 3)]);
        are_filled(&[OPEN, at(6, 3), [kind, 1, 0, 0]], &[(6, 3)]);
        are_filled(&[OPEN, OPEN, [kind, 0, 1, 0], [1, 9, 6, 3], [kind, 2, 3, 0]], &[(6, 3); 2]);
        lead([kind, 0, 0, 0], (6, 3), (6, 3));
    }
}

/// A register's beat, its source and its result, each by each other; the source lower, later and itself.
#[test]
fn registers() {
    lead([7, 5, 0, 0], (6, 3), (6, 3));
    lead([7, 5, 0, 1], (6, 3), (6, 3));
    lead([7, 5, 0, 2], (6, 3), (6, 3));
    // Source by beat, and beat by source.
    are_filled(&[OPEN, at(6, 3), [7, 5, 1, 0]], &[(6, 3)]);
    are_filled(&[at(6, 3), OPEN, [7, 5, 1, 0]], &[(6, 3)]);
    are_filled(&[at(6, 3), [7, 5, 0, 2], OPEN], &[(6, 3)]);
    are_filled(&[OPEN, [7, 5, 0, 2], at(6, 3)], &[(6, 3)]);
    // Through sources alone, later ones and their results.
    are_filled(&[OPEN, [7, 5, 0, 2], OPEN, [7, 6, 2, 4], [1, 8, 6, 3]], &[(6, 3); 2]);
    are_filled(&[OPEN, [7, 5, 0, 3], OPEN, [9, 2, 3, 0], [7, 6, 1, 5], at(6, 3)], &[(6, 3), (2, 3)]);
    has_none(&[OPEN, [7, 5, 0, 2], at(6, 3), at(6, 4), [2, 0, 3, 0]]);
}

/// Kinds 8 to 12, each both ways.
#[test]
fn rows_that_move_rates() {
    lead([8, 0, 3, 2], (6, 3), (2, 3));
    lead([9, 0, 3, 0], (2, 3), (6, 3));
    lead([10, 0, 5, 0], (6, 3), (6, 8));
    lead([11, 0, 9, 3], (6, 9), (6, 3));
    lead([12, 0, 0, 0], (6, 3), (6, 9));
    lead([8, 0, 1, 6], (6, 3), (6, 3));
    lead([9, 0, 1, 0], (6, 3), (6, 3));
    lead([10, 0, 0, 0], (6, 3), (6, 3));
    lead([11, 0, 9, 0], (1, 1), (1, 0));
}

/// When, when-not and merge: what is sampled and what it is sampled by, each by the other; and both through a merge.
#[test]
fn conditions() {
    for kind in [13, 14] {
        are_filled(&[OPEN, at(4, 1), [kind, 0, 1, 0]], &[(4, 1)]);
        are_filled(&[at(4, 1), OPEN, [kind, 0, 1, 0]], &[(4, 1)]);
        // Further down than that, by the same condition.
        are_filled(&[at(4, 1), OPEN, OPEN, [kind, 0, 2, 0], [kind, 1, 2, 0], [2, 3, 4, 0]], &[(4, 1); 2]);
    }
    let sampled = [[13, 1, 0, 0], [14, 2, 0, 0], [15, 0, 3, 4]];
    for rated in 0..3 {
        let mut rows = [&[OPEN; 3][..], &sampled].concat();
        rows[rated] = [1, 9, 4, 1];
        are_filled(&rows, &[(4, 1); 2]);
    }
    // By the merge's result, and from there further.
    let merged = [&[OPEN; 3][..], &sampled].concat();
    are_filled(&[&merged[..], &[at(4, 1), [6, 5, 6, 0]]].concat(), &[(4, 1); 3]);
    are_filled(&[&merged[..], &[at(8, 1), [9, 5, 2, 0], [6, 6, 7, 0]]].concat(), &[(4, 1); 3]);
    let further = [OPEN, [10, 6, 1, 0], [2, 5, 7, 0]];
    are_filled(&[&[at(4, 1), OPEN, OPEN][..], &sampled, &further].concat(), &[(4, 1), (4, 1), (4, 0)]);
}

/// Several chains to one open row: they agree, or they do not.
#[test]
fn several_chains() {
    let rows = [OPEN, at(2, 0), [9, 0, 2, 0], at(4, 0), [2, 0, 1, 0], [2, 2, 3, 0]];
    are_filled(&rows, &[(2, 0)]);
    for other in [at(4, 1), at(2, 0), at(8, 0), at(3, 0)] {
        let mut rows = rows;
        rows[3] = other;
        has_none(&rows);
    }
    has_none(&[OPEN, at(2, 0), at(2, 1), [2, 0, 1, 0], [2, 0, 2, 0]]);
    has_none(&[OPEN, at(2, 0), at(3, 0), [2, 0, 2, 0], [2, 0, 1, 0]]);
    // Two open rows that need each other at two rates, and at one.
    has_none(&[OPEN, OPEN, [9, 0, 2, 0], [2, 1, 2, 0], [5, 0, 1, 0], at(4, 0), [2, 5, 1, 0]]);
    are_filled(
        &[OPEN, OPEN, [9, 0, 2, 0], [2, 1, 2, 0], [9, 0, 2, 0], [5, 4, 1, 0], at(4, 0), [2, 6, 1, 0]],
        &[(2, 0), (4, 0)],
    );
    // A cycle through a source that would move the phase.
    has_none(&[OPEN, [7, 5, 0, 2], [10, 1, 1, 0], at(4, 2), [2, 3, 2, 0]]);
    are_filled(&[OPEN, [7, 5, 0, 2], [10, 1, 0, 0], at(4, 2), [2, 3, 2, 0]], &[(4, 2)]);
}

/// 21 also where the check would say 22 or 23, or 21 for conditions, of every filling; the flow is 0.
#[test]
fn other_causes() {
    let mut rows = vec![OPEN, at(4, 0), [2, 0, 1, 0]];
    rows.extend([[13, 0, 0, 0], [13, 3, 3, 0], [14, 4, 4, 0], [14, 5, 5, 0]]);
    are_filled(&rows, &[(4, 0)]);
    rows.push([13, 6, 6, 0]);
    has_none(&rows);
    rows[7] = [12, 6, 0, 0];
    has_none(&rows);
    rows[7] = [9, 2, 63, 0];
    are_filled(&rows, &[(4, 0)]);
    rows[7] = [9, 2, 17, 0];
    rows[1] = at(3855, 0);
    are_filled(&rows, &[(3855, 0)]);
    rows[1] = at(3856, 0);
    has_none(&rows);
    // Case I with an open row, its last two swapped, and one of them twice.
    let merged = |row| [OPEN, at(4, 0), [13, 0, 1, 0], [14, 0, 1, 0], row];
    are_filled(&merged([15, 1, 2, 3]), &[(4, 0)]);
    for row in [[15, 1, 3, 2], [15, 1, 2, 2], [15, 0, 2, 3], [2, 2, 3, 0], [12, 2, 0, 0], [7, 5, 0, 2]] {
        has_none(&merged(row));
    }
    // Kinds 8 to 12 over conditions, on the way from the rated row to the open one.
    for row in [[8, 1, 1, 4], [9, 1, 1, 0], [10, 1, 0, 0], [11, 1, 5, 0], [12, 1, 0, 0]] {
        has_none(&[at(4, 4), [13, 0, 0, 0], row, OPEN, [2, 2, 3, 0]]);
    }
}

/// A plan without an open row is its own filling.
#[test]
fn nothing_to_fill_in() {
    are_filled(&[at(6, 3)], &[]);
    are_filled(&[at(6, 3), at(7, 0)], &[]);
    are_filled(&[at(4, 0), [1, 9, 4, 0], [13, 0, 1, 0], [14, 0, 1, 0], [15, 1, 2, 3]], &[]);
    are_filled(&[[1, 9, 4, 0]; 64], &[]);
    has_none(&[at(10, 0), at(20, 0), [2, 0, 1, 0]]);
    has_none(&[at(10, 0), at(20, 0), [7, 5, 0, 1]]);
    are_filled(&[at(66, 0), [9, 0, 63, 0]], &[]);
    has_none(&[at(2048, 0), [9, 0, 32, 0]]);
    has_none(&[at(4, 0), [13, 0, 0, 0], [12, 1, 0, 0]]);
}

/// The lowest flow that no chain joins to a rated one, even where fillings would be accepted, and more than one.
#[test]
fn unjoined() {
    let fillings = |rows: &[[u32; 4]]| accepted_fillings(Limits { period: 3, phase: 2 }, &rows.concat()).len();
    for (rows, flow, accepted) in [
        (vec![OPEN], 0, 9),
        (vec![at(1, 0), OPEN], 1, 9),
        (vec![OPEN, at(1, 0)], 0, 9),
        (vec![OPEN, OPEN], 0, 81),
        (vec![OPEN, OPEN, [2, 0, 1, 0]], 0, 9),
        (vec![at(2, 0), OPEN, [9, 0, 2, 0], [9, 1, 2, 0]], 1, 9),
        (vec![[1, 9, 2, 0], [2, 0, 0, 0], OPEN, [7, 5, 2, 4], OPEN], 2, 9),
        (vec![OPEN, at(2, 0), OPEN, [2, 0, 1, 0], [12, 2, 0, 0]], 2, 9),
        (vec![at(2, 0), OPEN, OPEN, [2, 0, 2, 0]], 1, 9),
        (vec![at(2, 1), OPEN, [17, 0, 1, 2]], 1, 4),
        // Fewer fillings, and none.
        (vec![at(2, 0), OPEN, [8, 1, 3, 1]], 1, 3),
        (vec![OPEN, [8, 0, 63, 65], [11, 0, 5, 0], at(1, 0)], 0, 0),
        (vec![OPEN, [8, 0, 63, 66], at(1, 0)], 0, 0),
        (vec![OPEN, [13, 0, 0, 0], [12, 1, 0, 0], at(1, 0)], 0, 0),
    ] {
        are_refused(&rows, 39, flow);
        assert_eq!(fillings(&rows), accepted, "{rows:?}");
    }
    // Behind a cause for 21.
    are_refused(&[at(10, 0), at(20, 0), [2, 0, 1, 0], OPEN], 39, 3);
    are_refused(&[at(10, 0), OPEN, [9, 1, 3, 0], [2, 0, 2, 0], OPEN, [2, 4, 4, 0]], 39, 4);
    // The last flow, the first one, and all.
    let mut rows = vec![at(1, 0); 64];
    rows[63] = OPEN;
    are_refused(&rows, 39, 63);
    rows[0] = OPEN;
    are_refused(&rows, 39, 0);
    rows[1] = [7, 5, 0, 63];
    are_refused(&rows, 39, 0);
    are_refused(&[OPEN; 64], 39, 0);
}

/// 64 rows with one rated row at the far end of a chain, up and down, and to and fro; and 32 open rows.
#[test]
fn the_greatest_plans() {
    let chain = |first, last| {
        let later = (0..61).map(|before| [10, before, 1, 0]);
        let rows: Vec<[u32; 4]> = [first].into_iter().chain(later).chain([last, [2, 61, 62, 0]]).collect();
        assert_eq!(rows.len(), 64);
        rows
    };
    are_filled(&chain(OPEN, at(1, 61)), &[(1, 0)]);
    are_filled(&chain(at(1, 0), OPEN), &[(1, 61)]);
    has_none(&chain(OPEN, at(1, 60)));
    has_none(&chain(at(1, 4035), OPEN));
    are_filled(&chain(at(1, 4034), OPEN), &[(1, 4095)]);
    // Each sum joins an input with the next; the rated one is the first, the last, or between.
    for rated in [0, 13, 31] {
        let mut rows = vec![OPEN; 32];
        rows[rated] = [1, 9, 11, 2];
        rows.extend((0..31).map(|flow| [2, flow, flow + 1, 0]));
        are_filled(&rows, &[(11, 2); 31]);
        rows[31 - rated] = at(11, 3);
        are_refused(&rows, 21, 0);
    }
    // Each register joins the input before it with the one behind it, and the last of these is the rated one.
    let mut rows = vec![OPEN];
    rows.extend((0..31).flat_map(|pair| [[7, 5, 2 * pair, 2 * pair + 2], OPEN]));
    rows[62] = at(7, 4095);
    are_filled(&rows, &[(7, 4095); 31]);
}

/// Every room from none to more than the plan has: too little, and nothing is written; enough, and words behind the plan
/// stay as they were.
#[test]
fn rooms() {
    let mut chain = vec![OPEN];
    chain.extend((0..61).map(|before| [10, before, 1, 0]));
    chain.extend([at(1, 61), [2, 61, 62, 0]]);
    let plans = [
        (vec![at(9, 1)], vec![at(9, 1)]),
        (vec![OPEN, at(9, 1), [2, 0, 1, 0]], vec![at(9, 1), at(9, 1), [2, 0, 1, 0]]),
        (chain.clone(), [&[at(1, 0)], &chain[1..]].concat()),
    ];
    for (rows, filled) in plans {
        let (plan, words, count) = (Plan::of(&rows), filled.concat(), rows.len() as u32);
        for len in 0..words.len() + 9 {
            let outcome = fill_rates(&ALL, &plan, len);
            let is_enough = len >= words.len();
            assert_eq!(outcome.parts, if is_enough { (0, 0, 0, count) } else { (10, 0, 0, 0) }, "{len} words");
            assert!(words_are(&outcome, if is_enough { &words } else { &[] }), "{len} words: {rows:?}");
        }
    }
}

/// Of two causes the earlier one is told: the table's, 39, 21, the room. Nothing is written.
#[test]
fn order_of_refusals() {
    let joined = [at(1, 0), OPEN, [2, 0, 1, 0]];
    let differing = [at(1, 0), at(2, 0), [2, 0, 1, 0]];
    let unjoined = [at(1, 0), OPEN, [2, 0, 0, 0]];
    // Filled in, and answered with 21 and 39 as they are.
    are_filled(&joined, &[(1, 0)]);
    are_refused(&differing, 21, 0);
    are_refused(&unjoined, 39, 1);
    for rows in [joined, differing, unjoined] {
        let with = |row: [u32; 4]| Plan::of(&[&rows[..], &[row]].concat());
        is_refused(&with([19, 0, 0, 0]), 13, 3);
        is_refused(&with([19, 1, 0, 0]), 13, 3);
        is_refused(&with([u32::MAX, 0, 0, 0]), 13, 3);
        is_refused(&with([16, 0, 1, 0]), 14, 3);
        is_refused(&with([9, 0, 64, 0]), 14, 3);
        is_refused(&with([17, 0, 0, 0]), 14, 3);
        is_refused(&with([18, 0, 3, 1]), 15, 3);
        is_refused(&with([12, 3, 0, 0]), 15, 3);
        is_refused(&with([7, 0, 0, 4]), 15, 3);
        is_refused(&Plan::of(&[&rows[..], &[OPEN; 62]].concat()), 11, 0);
        for (count, words) in [(0, 12), (2, 12), (4, 12), (3, 11), (3, 8), (3, 0), (65, 12), (u32::MAX, 12)] {
            is_refused(&Plan { count, words: rows.concat()[..words].to_vec() }, 11, 0);
        }
        is_refused(&Plan { count: (1 << 30) + 3, words: rows.concat() }, 11, 0);
    }
    is_refused(&Plan::of(&[]), 11, 0);
    // Both, in one plan, without room.
    are_refused(&[&differing[..], &[OPEN]].concat(), 39, 3);
    assert_eq!(fill_rates(&ALL, &Plan::of(&joined), 11).parts, (10, 0, 0, 0));
}
