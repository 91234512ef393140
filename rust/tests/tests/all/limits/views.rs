//! When-seen and when-not-seen at their limits. The ranges of their fields are among those of all rows.

use tests::compare::{read, run_exactly, write};
use tests::implementation::ALL;
use tests::{Plan, TICKS};

use super::derived::chain;
use super::{checked, is_table, refused};

/// Operands are lower flows, at the table's first and last row; ranges come before places.
#[test]
fn operands() {
    let base = [0, 1, 0, 0];
    let last = |row| [vec![base; 63], vec![row]].concat();
    for kind in [17, 18] {
        refused(&[[kind, 0, 0, 1], base], 15, 0);
        refused(&[base, [kind, 1, 0, 1], base], 15, 1);
        refused(&[base, [kind, 0, 1, 1], base], 15, 1);
        refused(&[base, [kind, 0, 63, 4095], base], 15, 1);
        refused(&[base, [kind, 1, 1, 0], base], 14, 1);
        refused(&[base, [kind, 1, 1, 4096], base], 14, 1);
        assert_eq!(checked(&last([kind, 62, 62, 1])), (0, 0, 0, 64));
        is_table(&last([kind, 62, 62, 4095]));
        refused(&last([kind, 63, 62, 1]), 15, 63);
        refused(&last([kind, 62, 63, 1]), 15, 63);
        refused(&last([kind, 62, 64, 1]), 14, 63);
    }
}

/// The rule of multiples and that of phases, at the limits of w, of periods and of phases.
#[test]
fn periods_and_phases() {
    let seen = |a: [u32; 2], c: [u32; 2], w| {
        let numbers = [17, 18].map(|kind| checked(&[[0, a[0], a[1], 0], [0, c[0], c[1], 0], [kind, 0, 1, w]]));
        assert_eq!(numbers[0], numbers[1], "{a:?} {c:?} {w}");
        assert_eq!(numbers[0].1, if numbers[0].0 == 0 { 0 } else { 2 }, "{a:?} {c:?} {w}");
        numbers[0].0
    };
    assert_eq!([1, 2, 4095].map(|w| seen([1, 0], [1, 0], w)), [0, 0, 0]);
    assert_eq!([1, 2, 4094, 4095].map(|w| seen([2, 0], [1, 0], w)), [40, 0, 0, 40]);
    assert_eq!([1, 2, 4094, 4095].map(|w| seen([1, 0], [2, 0], w)), [40, 0, 0, 40]);
    assert_eq!([4094, 4095].map(|w| seen([4095, 0], [1, 0], w)), [40, 0]);
    assert_eq!([4094, 4095].map(|w| seen([1, 0], [4095, 0], w)), [40, 0]);
    // The least common multiple of 63 and 65, and of 64 and 63.
    assert_eq!([4095, 63 * 64].map(|w| seen([63, 0], [65, 0], w)), [0, 40]);
    assert_eq!([4095, 63 * 64].map(|w| seen([64, 0], [63, 0], w)), [40, 0]);
    assert_eq!([0, 4094, 4095].map(|phase| seen([4095, 4095], [4095, phase], 4095)), [0, 0, 0]);
    assert_eq!([0, 4094, 4095].map(|phase| seen([1, phase], [1, 4095], 1)), [40, 40, 0]);

    // A phase of 65,535 after one of 0, of 65,534 and of its own; and before it. A period above w is no divisor of it.
    let mut rows = chain(1, 4095, &[[10, 0, 4095, 0]; 15]);
    rows.extend([[10, 15, 15, 0], [10, 15, 14, 0], [0, 1, 0, 0], [9, 0, 63, 0], [9, 19, 63, 0], [9, 20, 16, 0]]);
    let with = |row| checked(&[&rows[..], &[row]].concat()).0;
    for (a, c, number) in [(16, 18, 0), (16, 17, 0), (16, 16, 0), (17, 16, 40), (18, 16, 40)] {
        assert_eq!([[17, a, c, 1], [18, a, c, 4095]].map(with), [number; 2]);
    }
    assert_eq!([[17, 19, 0, 63], [17, 19, 0, 62], [17, 20, 0, 3969], [17, 20, 0, 4095]].map(with), [0, 40, 0, 40]);
    assert_eq!([[17, 21, 0, 4095], [18, 0, 21, 4095], [18, 0, 20, 3969]].map(with), [40, 40, 0]);
}

/// A view counts among the four conditions.
#[test]
fn five_conditions() {
    for kind in [17, 18] {
        let mut rows = vec![[0, 4, 0, 0], [kind, 0, 0, 4]];
        for flow in 1..4 {
            rows.push([13, flow, flow, 0]);
            assert_eq!(checked(&rows), (0, 0, 0, flow + 2));
        }
        rows.push([14, 4, 4, 0]);
        assert_eq!(checked(&rows), (22, 5, 0, 0));
    }
}

/// Packed, both kinds are 29 bits: kind, a, c and w.
#[test]
fn packed_rows() {
    let rows = [[0, 1, 0, 0], [17, 0, 0, 4095], [18, 0, 1, 1]];
    let bits = [
        "00000011",
        "00000 000000000001 000000000000",
        "10001 000000 000000 111111111111",
        "10010 000000 000001 000000000001",
        "0",
    ];
    let bits: Vec<u8> = bits.concat().bytes().filter(|&bit| bit != b' ').map(|bit| bit - b'0').collect();
    let packed: Vec<u8> = bits.chunks(8).map(|byte| byte.iter().fold(0, |byte, bit| 2 * byte + bit)).collect();
    let written = write(&ALL, &Plan::of(&rows), 13);
    assert_eq!((written.parts, &written.bytes[..12]), ((0, 0, 0, 12), &packed[..]));
    assert_eq!(write(&ALL, &Plan::of(&rows), 11).parts, (10, 0, 0, 0));
    is_table(&rows);
    for (len, row) in [0, 0, 0, 0, 0, 1, 1, 1, 1, 2, 2, 2].into_iter().enumerate() {
        assert_eq!(read(&ALL, &packed[..len], 12).parts, (12, row, 0, 0), "{len} bytes");
    }
    let read_with = |place: usize, byte: u8| {
        let mut packed = packed.clone();
        packed[place] = byte;
        read(&ALL, &packed, 12).parts
    };
    // The last bit is filling; w 0; kind 19.
    assert_eq!(read_with(11, packed[11] | 1), (16, 0, 0, 0));
    assert_eq!(read_with(11, 0), (14, 2, 0, 0));
    assert_eq!(read_with(8, packed[8] | 2), (13, 2, 0, 0));
}

/// The greatest view period over enough ticks for three views; a signal and a condition that begin late.
#[test]
fn many_ticks() {
    let plan = Plan::of(&[[0, 1, 0, 0], [0, 1, 0, 0], [17, 0, 1, 4095]]);
    let log: Vec<u32> = (0..8_200).flat_map(|tick| [tick, u32::from(tick != 4_095)]).collect();
    let outcome = run_exactly(&ALL, &plan, &log, 8_200);
    assert_eq!(outcome.parts, (0, 0, 0, 8_200));
    let is_present = |tick: usize| !(4_095..8_190).contains(&tick);
    assert!((0..8_200).all(|tick| outcome.bytes[3 * tick + 2] == u8::from(is_present(tick))));

    // Values of flow 0 at 4095, 8190 and so on, each with what flow 1 has one period before.
    let plan = Plan::of(&[[0, 4095, 4095, 0], [0, 4095, 0, 0], [18, 0, 1, 4095]]);
    let log: Vec<u32> = (0..TICKS).flat_map(|tick| [tick, tick / 4_095 % 2]).collect();
    let outcome = run_exactly(&ALL, &plan, &log, TICKS);
    assert_eq!(outcome.parts, (0, 0, 0, TICKS));
    let present: Vec<usize> = (0..TICKS as usize).filter(|tick| outcome.bytes[3 * tick + 2] == 1).collect();
    assert_eq!(present, (0..16).map(|pair| 4_095 * (2 * pair + 1)).collect::<Vec<usize>>());
}

/// A look back by 65,535 ticks, the most there is: readings that begin so late, and a switch that begins at once. It is off
/// in every third view.
#[test]
fn the_longest_look_back() {
    let mut rows = chain(45, 4095, &[[10, 0, 4095, 0]; 15]);
    rows.extend([[10, 15, 15, 0], [0, 39, 0, 0], [17, 16, 17, 585], [18, 16, 17, 585]]);
    let (plan, flows) = (Plan::of(&rows), rows.len());
    let log: Vec<u32> = (0..TICKS).flat_map(|tick| [tick, tick / 585 % 3]).collect();
    let outcome = run_exactly(&ALL, &plan, &log, TICKS);
    assert_eq!(outcome.parts, (0, 0, 0, TICKS));
    for tick in 0..TICKS as usize {
        let since = tick.checked_sub(65_535).filter(|since| since.is_multiple_of(45));
        let on = since.map(|since| since / 585 % 3 != 0);
        let marks = [flows - 2, flows - 1].map(|flow| outcome.bytes[tick * flows + flow]);
        assert_eq!(marks, [on == Some(true), on == Some(false)].map(u8::from), "tick {tick}");
    }
}
