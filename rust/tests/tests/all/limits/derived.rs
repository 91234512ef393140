//! Derived periods and phases at their limit: by one row, and by chains of rows.

use tests::compare::check;
use tests::implementation::ALL;
use tests::{Plan, DERIVED};

use super::checked;

/// An input, and each of the other rows over the one before, which they name as flow 0.
pub fn chain(period: u32, phase: u32, others: &[[u32; 4]]) -> Vec<[u32; 4]> {
    let over = |(before, &[kind, _, y, z]): (u32, &[u32; 4])| [kind, before, y, z];
    [[0, period, phase, 0]].into_iter().chain((0..).zip(others).map(over)).collect()
}

/// The last clock of a chain, which is accepted.
fn last_clock(rows: &[[u32; 4]]) -> (u32, u32) {
    assert_eq!(checked(rows), (0, 0, 0, rows.len() as u32), "{rows:?}");
    let words = check(&ALL, &Plan::of(rows), 11 * rows.len()).words;
    let last = 11 * (rows.len() - 1);
    (words[last], words[last + 1])
}

/// A chain is beyond the limits in its last row, and not before.
fn beyond(rows: &[[u32; 4]]) {
    assert_eq!(checked(rows), (22, rows.len() as u32 - 1, 0, 0), "{rows:?}");
    assert_eq!(checked(&rows[..rows.len() - 1]).0, 0, "{rows:?}");
}

/// What one row derives from a clock that is written.
#[test]
fn derived_clocks() {
    let slower = |k| [9, 0, k, 0];
    assert_eq!(last_clock(&chain(4095, 0, &[slower(16)])), (65_520, 0));
    beyond(&chain(4095, 0, &[slower(17)]));
    beyond(&chain(4095, 4095, &[slower(63)]));
    assert_eq!(last_clock(&chain(3855, 9, &[slower(17)])), (DERIVED, 9));
    assert_eq!(last_clock(&chain(1285, 4095, &[slower(51)])), (DERIVED, 4095));
    beyond(&chain(2048, 0, &[slower(32)]));
    beyond(&chain(1024, 0, &[slower(32), slower(2)]));
    assert_eq!(last_clock(&chain(1057, 0, &[slower(62)])), (65_534, 0));
    assert_eq!(last_clock(&chain(66, 0, &[slower(63)])), (4158, 0));
    assert_eq!(last_clock(&chain(4095, 4095, &[[10, 0, 4095, 0]])), (4095, 8190));
    assert_eq!(last_clock(&chain(4095, 4095, &[[12, 0, 0, 0]])), (4095, 8190));
    assert_eq!(last_clock(&chain(4032, 0, &[[8, 0, 63, 64]])), (64, 0));
    assert_eq!(last_clock(&chain(4095, 4095, &[[8, 0, 1, 4095]])), (4095, 4095));
    assert_eq!(checked(&chain(4095, 4095, &[[8, 0, 63, 4095]])), (21, 1, 0, 0));
    assert_eq!(last_clock(&chain(4095, 4095, &[[11, 0, 9, 0]])), (4095, 0));
    assert_eq!(last_clock(&chain(1, 4095, &[[11, 0, 9, 4094]])), (1, 4094));
    assert_eq!(checked(&chain(1, 4095, &[[11, 0, 9, 4095]])), (21, 1, 0, 0));
}

/// Chains that come up to the limits of clocks, and one past them.
#[test]
fn chains_of_derived_clocks() {
    let (slower, later, tail) = (|k| [9, 0, k, 0], |d| [10, 0, d, 0], [12, 0, 0, 0]);
    // Periods: 257 × 5 × 51, 63 × 63 × 16, and three times 41.
    assert_eq!(last_clock(&chain(257, 3, &[slower(5), slower(51)])), (DERIVED, 3));
    beyond(&chain(257, 3, &[slower(5), slower(51), slower(2)]));
    assert_eq!(last_clock(&chain(1, 0, &[slower(63), slower(63), slower(16)])), (63_504, 0));
    beyond(&chain(1, 0, &[slower(63), slower(63), slower(17)]));
    beyond(&chain(1, 0, &[slower(41), slower(41), slower(41)]));
    // Phases by delays: 15 × 4095 and 15 after 4095.
    let delays = [&[later(4095); 15][..], &[later(15)]].concat();
    assert_eq!(last_clock(&chain(1, 4095, &delays)), (1, DERIVED));
    assert_eq!(last_clock(&chain(1, 4095, &[&delays[..], &[later(0)]].concat())), (1, DERIVED));
    beyond(&chain(1, 4095, &[&delays[..], &[later(1)]].concat()));
    beyond(&chain(1, 4095, &[&delays[..], &[tail]].concat()));
    beyond(&chain(4095, 4095, &[&delays[..15], &[later(16)]].concat()));
    // By tails: 16 × 4095 after 15; and the longest period once, since twice is 131,070.
    assert_eq!(last_clock(&chain(4095, 15, &[tail; 16])), (4095, DERIVED));
    beyond(&chain(4095, 16, &[tail; 16]));
    assert_eq!(last_clock(&chain(3855, 0, &[slower(17), tail])), (DERIVED, DERIVED));
    beyond(&chain(3855, 0, &[slower(17), tail, tail]));
    beyond(&chain(3855, 0, &[slower(17), later(1), tail]));
    beyond(&chain(3855, 1, &[slower(17), tail]));
    assert_eq!(last_clock(&chain(1057, 1, &[slower(62), tail])), (65_534, DERIVED));
    beyond(&chain(1057, 2, &[slower(62), tail]));
    // What can be done with them: no more than copies, heads and delays by nothing.
    let slow = [slower(17), tail];
    let with = |row| chain(3855, 0, &[&slow[..], &[row]].concat());
    assert_eq!(last_clock(&with([11, 0, 9, 0])), (DERIVED, 0));
    assert_eq!(last_clock(&with([8, 0, 17, 3855])), (3855, DERIVED));
    assert_eq!(last_clock(&with(later(0))), (DERIVED, DERIVED));
    assert_eq!(last_clock(&with(slower(1))), (DERIVED, DERIVED));
    for row in [[8, 0, 1, 4095], [8, 0, 63, 1040], [11, 0, 9, 1], [11, 0, 9, 4095]] {
        assert_eq!(checked(&with(row)), (21, 3, 0, 0));
    }
    beyond(&with(slower(2)));
    beyond(&with(slower(63)));
    beyond(&with(later(4095)));
}
