//! Rates at the limits of what is filled in, and on the way to them at the limits of clocks.

use super::{are_filled, at, downwards_none, has_none, lead, upwards_none, OPEN};

/// Periods and phases at the limits of what is filled in, and one past them: above 4095, below 0, and fractions.
#[test]
fn of_what_is_filled_in() {
    for rate in [(1, 0), (1, 4095), (4095, 0), (4095, 4095)] {
        lead([3, 0, 0, 0], rate, rate);
        lead([8, 0, 1, rate.0], rate, rate);
    }
    lead([9, 0, 63, 0], (65, 0), (4095, 0));
    downwards_none([9, 0, 63, 0], (66, 0));
    upwards_none([9, 0, 63, 0], (4094, 0));
    upwards_none([9, 0, 2, 0], (1, 0));
    upwards_none([9, 0, 2, 0], (4095, 0));

    lead([8, 0, 63, 65], (4095, 7), (65, 7));
    upwards_none([8, 0, 63, 66], (66, 7));
    lead([8, 0, 1, 4095], (4095, 7), (4095, 7));
    upwards_none([8, 0, 2, 2048], (2048, 7));
    downwards_none([8, 0, 2, 5], (11, 0));
    upwards_none([8, 0, 2, 5], (6, 0));

    lead([10, 0, 4095, 0], (1, 0), (1, 4095));
    downwards_none([10, 0, 4095, 0], (1, 1));
    upwards_none([10, 0, 4095, 0], (1, 4094));
    lead([10, 0, 3, 0], (5, 0), (5, 3));
    upwards_none([10, 0, 3, 0], (5, 2));
    lead([10, 0, 0, 0], (5, 4095), (5, 4095));
    downwards_none([10, 0, 1, 0], (5, 4095));

    lead([12, 0, 0, 0], (4095, 0), (4095, 4095));
    lead([12, 0, 0, 0], (1, 4094), (1, 4095));
    downwards_none([12, 0, 0, 0], (4095, 1));
    downwards_none([12, 0, 0, 0], (1, 4095));
    upwards_none([12, 0, 0, 0], (4095, 4094));
    lead([12, 0, 0, 0], (5, 0), (5, 5));
    upwards_none([12, 0, 0, 0], (5, 4));

    lead([11, 0, 9, 0], (4095, 4095), (4095, 0));
    lead([11, 0, 9, 4094], (1, 4095), (1, 4094));
    upwards_none([11, 0, 9, 4095], (1, 4095));
    upwards_none([11, 0, 9, 1], (4095, 1));
    upwards_none([11, 0, 9, 5], (5, 6));
    downwards_none([11, 0, 9, 5], (5, 9));
}

/// A way to a rate that can be filled in which leads past those that can: up to the limits of clocks, and past them too.
#[test]
fn on_the_way() {
    for (period, k) in [(2000, 2), (2048, 2), (4095, 16), (3855, 17), (1285, 51)] {
        are_filled(&[at(period, 0), [9, 0, k, 0], OPEN, [9, 2, k, 0], [2, 1, 3, 0]], &[(period, 0)]);
    }
    for (period, k) in [(4095, 17), (2048, 32), (1041, 63)] {
        has_none(&[at(period, 0), [9, 0, k, 0], OPEN, [9, 2, k, 0], [2, 1, 3, 0]]);
    }
    are_filled(&[at(1, 2), [10, 0, 4093, 0], OPEN, [10, 2, 4094, 0], [2, 1, 3, 0]], &[(1, 1)]);
    are_filled(&[at(1, 2), [10, 0, 4094, 0], OPEN, [10, 2, 4095, 0], [2, 1, 3, 0]], &[(1, 1)]);
    // Up to (65535, 65535) and down again, from the rated row and from the open one; and a tick too late.
    let there = |phase| vec![[9, 0, 17, 0], [12, 1, 0, 0], [11, 2, 9, phase], [8, 3, 17, 3855]];
    let joined = |first, phase, last| [&[first][..], &there(phase), &[last, [2, 4, 5, 0]]].concat();
    are_filled(&joined(at(3855, 0), 0, OPEN), &[(3855, 0)]);
    are_filled(&joined(OPEN, 0, at(3855, 0)), &[(3855, 0)]);
    has_none(&joined(at(3855, 1), 1, OPEN));
    has_none(&joined(OPEN, 1, at(3855, 1)));
    // The open row itself would be past what can be filled in, although a clock may be there.
    for row in [[9, 0, 17, 0], [9, 0, 2, 0], [12, 0, 0, 0], [10, 0, 4095, 0]] {
        has_none(&[at(3855, 2000), row, OPEN, [2, 1, 2, 0]]);
    }
    has_none(&[OPEN, [8, 0, 17, 3855], at(3855, 0), [2, 1, 2, 0]]);
    has_none(&[OPEN, [11, 0, 9, 4095], at(3855, 4095), [2, 1, 2, 0]]);
    // The open row would be faster than that, or would begin before tick 0.
    has_none(&[OPEN, [9, 0, 2, 0], [9, 1, 2, 0], at(6, 0), [2, 2, 3, 0]]);
    has_none(&[OPEN, [12, 0, 0, 0], [8, 1, 2, 3], at(3, 5), [2, 2, 3, 0]]);
}
