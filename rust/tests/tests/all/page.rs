//! The load page: by hand, at every edge, and refused in the right order.

use tests::compare::{load_page, load_page_exactly, page_bytes, pattern_byte};
use tests::faults::refused_plans;
use tests::implementation::{Parts, ALL};
use tests::Plan;

/// The load page of rows and worst times has exactly these lines, which are worked out by hand.
fn prints(rows: &[[u32; 4]], times: &[u16], lines: &[impl AsRef<str>]) {
    let page: String = lines.iter().map(|line| format!("{}\n", line.as_ref())).collect();
    let outcome = load_page_exactly(&ALL, &Plan::of(rows), times);
    assert_eq!(outcome.parts, (0, 0, 0, page.len() as u32), "{rows:?}");
    assert_eq!(String::from_utf8_lossy(&outcome.bytes[..page.len()]), page, "{rows:?}");
}

/// The constant 7 at a clock.
fn at(period: u32, phase: u32) -> [u32; 4] {
    [1, 7, period, phase]
}

/// The line of a flow from tick 0 on, under no condition.
fn line(flow: usize, period: u32, load: u32) -> String {
    format!("{flow:>2} {period:>5}     0 0 {load:>8}")
}

/// One flow: its load, and a total that is the same.
#[test]
fn loads() {
    for (worst, period, load) in [
        // 62.5, 187.5, 312.5 and 437.5: to the even neighbour, below and above by turns.
        (1, 16, 62),
        (3, 16, 188),
        (5, 16, 312),
        (7, 16, 438),
        // The first two of longer periods; 0.5, 1.5 and 2.5.
        (2, 32, 62),
        (6, 32, 188),
        (255, 4080, 62),
        (765, 4080, 188),
        (1, 2000, 0),
        (3, 2000, 2),
        (5, 2000, 2),
        // Next to them, less than a sixtieth away: 62.485 and 62.515, 187.485 and 187.515.
        (255, 4081, 62),
        (255, 4079, 63),
        (767, 4091, 187),
        (763, 4069, 188),
        // 31.25, 93.75 and 0.25.
        (1, 32, 31),
        (3, 32, 94),
        (1, 4000, 0),
        // 333 and a third, 666 and two thirds.
        (1, 3, 333),
        (2, 3, 667),
        // 2000 / 4095 and 3000 / 4095; 16003.66.
        (2, 4095, 0),
        (3, 4095, 1),
        (65_535, 4095, 16_004),
        // Nothing to round.
        (0, 1, 0),
        (0, 4095, 0),
        (1, 1, 1_000),
        (1, 1000, 1),
        (65_535, 1, 65_535_000),
        (65_535, 2, 32_767_500),
    ] {
        let lines = [line(0, period, load), format!("total{load:>20}")];
        prints(&[at(period, 0)], &[worst], &lines);
    }
}

/// Periods above those that are written: 16 times 4095 and 4000, 62 times 1057, and 17 times 3855.
#[test]
fn slow_loads() {
    for (worst, part, k, period, load) in [
        // 62.5 and 187.5, and next to them.
        (4_095, 4_095, 16, 65_520, 62),
        (12_285, 4_095, 16, 65_520, 188),
        (4_094, 4_095, 16, 65_520, 62),
        (4_096, 4_095, 16, 65_520, 63),
        (12_284, 4_095, 16, 65_520, 187),
        // 0.5, 1.5 and 2.5.
        (32, 4_000, 16, 64_000, 0),
        (96, 4_000, 16, 64_000, 2),
        (160, 4_000, 16, 64_000, 2),
        (161, 4_000, 16, 64_000, 3),
        // The largest worst time: 1000.02, and 1000.
        (65_535, 1_057, 62, 65_534, 1_000),
        (65_535, 3_855, 17, 65_535, 1_000),
        // 0.488 and 0.504.
        (32, 3_855, 17, 65_535, 0),
        (33, 3_855, 17, 65_535, 1),
        (0, 3_855, 17, 65_535, 0),
    ] {
        let lines = [line(0, part, 0), line(1, period, load), format!("total{load:>20}")];
        prints(&[at(part, 0), [9, 0, k, 0]], &[0, worst], &lines);
    }
}

/// The largest worst time at every written period where its load is at a half: to the even neighbour. All other periods are
/// tried in `pages.rs`.
#[test]
fn halves_of_the_largest_time() {
    let loads = [
        // 4,095,937.5 and so on.
        (16, 4_095_938),
        (48, 1_365_312),
        (80, 819_188),
        (240, 273_062),
        (272, 240_938),
        (400, 163_838),
        (816, 80_312),
        (1_200, 54_612),
        (1_360, 48_188),
        (2_000, 32_768),
        (4_080, 16_062),
    ];
    let halves = (1..=4095).filter(|period| 131_070_000 % period == 0 && 131_070_000 / period % 2 == 1);
    assert!(halves.eq(loads.map(|(period, _)| period)));
    let of_flow = |(flow, (period, load))| line(flow, period, load);
    let mut lines: Vec<String> = loads.into_iter().enumerate().map(of_flow).collect();
    lines.push("total             7190218".to_string());
    prints(&loads.map(|(period, _)| at(period, 0)), &[65_535; 11], &lines);
}

/// The README's worked example; the longest period and phase that are written, and the largest load; and 0 to 4 conditions.
#[test]
fn by_hand() {
    let rows = [[0, 2, 0, 0], [9, 0, 2, 0], [7, 20, 1, 1], [4, 2, 1, 0], [13, 1, 3, 0]];
    let lines = [
        " 0     2     0 0   125000",
        " 1     4     0 0     2500",
        " 2     4     0 0      250",
        " 3     4     0 0      500",
        " 4     4     0 1 16383750",
        "total            16512000",
    ];
    prints(&rows, &[250, 10, 1, 2, 65_535], &lines);
    let rows = [[0, 4095, 4095, 0], [13, 0, 0, 0], [14, 1, 1, 0], [13, 2, 2, 0], [14, 3, 3, 0], at(1, 4095)];
    let lines = [
        " 5     1  4095 0 65535000",
        " 0  4095  4095 0    16004",
        " 1  4095  4095 1        0",
        " 2  4095  4095 2        0",
        " 3  4095  4095 3        0",
        " 4  4095  4095 4    16003",
        "total            65567007",
    ];
    prints(&rows, &[65_535, 0, 1, 2, 65_534, 65_535], &lines);
    // A condition that is viewed counts as one.
    let rows = [at(10, 0), at(15, 0), [17, 0, 1, 30], [14, 2, 2, 0]];
    let lines = [
        " 0    10     0 0      100",
        " 2    10     0 1      300",
        " 3    10     0 2      400",
        " 1    15     0 0      133",
        "total                 933",
    ];
    prints(&rows, &[1, 2, 3, 4], &lines);
}

/// By period as a number, equal periods by phase, and only then by flow; a load or conditions do not move a line.
#[test]
fn order_of_lines() {
    let rows = [at(100, 0), at(9, 5), at(10, 0), at(9, 4), at(1000, 0), at(9, 4), at(100, 7), [13, 3, 3, 0], at(9, 0)];
    let lines = [
        " 8     9     0 0      222",
        " 3     9     4 0    11111",
        " 5     9     4 0        0",
        " 7     9     4 1     1000",
        " 1     9     5 0      111",
        " 2    10     0 0      300",
        " 0   100     0 0       10",
        " 6   100     7 0       70",
        " 4  1000     0 0        8",
        "total               12832",
    ];
    prints(&rows, &[1, 1, 3, 100, 8, 0, 7, 9, 2], &lines);
}

/// A phase does not outweigh a period, nor a flow a phase: the least and the greatest of each, side by side.
#[test]
fn order_at_the_limits() {
    let clocks = [(2, 4095), (1, 4095), (2, 4094), (3, 0), (2, 0), (4095, 4095), (4094, 4095), (4095, 0)];
    let rows = clocks.map(|(period, phase)| at(period, phase));
    let lines = [
        " 1     1  4095 0     4000",
        " 4     2     0 0     2000",
        " 2     2  4094 0     2000",
        " 0     2  4095 0     2000",
        " 3     3     0 0     1333",
        " 6  4094  4095 0        1",
        " 7  4095     0 0        1",
        " 5  4095  4095 0        1",
        "total               11336",
    ];
    prints(&rows, &[4; 8], &lines);

    // A constant and sixteen flows later than it, each by 4095 ticks but the last two, which come up to the limit; and two
    // of the longest periods, each from tick 0 on and a period later.
    let mut rows = vec![at(1, 4095)];
    rows.extend((0..15).map(|before| [10, before, 4095, 0]));
    rows.extend([[10, 15, 15, 0], [10, 15, 14, 0], at(2, 0)]);
    rows.extend([at(3855, 0), [9, 19, 17, 0], [12, 20, 0, 0], at(1057, 0), [9, 22, 62, 0], [12, 23, 0, 0]]);
    let mut lines: Vec<String> =
        (0..16).map(|flow| format!("{flow:>2}     1 {:>5} 0     4000", 4_095 * (flow + 1))).collect();
    lines.extend([
        "17     1 65534 0     4000".to_string(),
        "16     1 65535 0     4000".to_string(),
        "18     2     0 0     2000".to_string(),
        "22  1057     0 0        4".to_string(),
        "19  3855     0 0        1".to_string(),
        "23 65534     0 0        0".to_string(),
        "24 65534 65534 0        0".to_string(),
        "20 65535     0 0        0".to_string(),
        "21 65535 65535 0        0".to_string(),
        "total               74005".to_string(),
    ]);
    prints(&rows, &[4; 25], &lines);

    // The last flow of 64 is the only one that starts at once.
    let mut rows = [at(1, 1); 64];
    rows[63] = at(1, 0);
    let mut lines: Vec<String> = (0..63).map(|flow| format!("{flow:>2}     1     1 0        0")).collect();
    lines.insert(0, "63     1     0 0        0".to_string());
    lines.push("total                   0".to_string());
    prints(&rows, &[0; 64], &lines);
}

/// The sum is that of the printed loads: 62 and 62 where 62.5 and 62.5 are 125, 188 and 188 where 187.5 and 187.5 are
/// 375, three times 333 where thirds are 1000.
#[test]
fn totals_of_printed_loads() {
    let lines = [" 0    16     0 0       62", " 1    16     0 0       62", "total                 124"];
    prints(&[at(16, 0); 2], &[1; 2], &lines);
    let lines = [" 0    16     0 0      188", " 1    16     0 0      188", "total                 376"];
    prints(&[at(16, 0); 2], &[3; 2], &lines);
    let thirds = [0, 1, 2].map(|flow| line(flow, 3, 333));
    let lines = [&thirds[0], &thirds[1], &thirds[2], "total                 999"];
    prints(&[at(3, 0); 3], &[1; 3], &lines);
    let none = [0, 1, 2, 3].map(|flow| line(flow, 4001, 0));
    let lines = [&none[0], &none[1], &none[2], &none[3], "total                   0"];
    prints(&[at(4001, 0); 4], &[2; 4], &lines);
}

/// 64 flows, forwards and backwards, and the greatest total there is.
#[test]
fn the_longest_page() {
    let mut lines: Vec<String> = (0..64).map(|flow| line(flow, 1, 65_535_000)).collect();
    lines.push("total          4194240000".to_string());
    prints(&[at(1, 0); 64], &[65_535; 64], &lines);

    let rows: Vec<[u32; 4]> = (0..64).map(|flow| at(64 - flow, 4095 - flow)).collect();
    let of_flow = |flow: u32| format!("{flow:>2} {:>5} {:>5} 0     1000", 64 - flow, 4095 - flow);
    let mut lines: Vec<String> = (0..64).rev().map(of_flow).collect();
    lines.push("total               64000".to_string());
    let times: Vec<u16> = (1..=64).rev().collect();
    prints(&rows, &times, &lines);
}

/// Times and room one short, exact and one long. Bytes behind the page stay as they were.
#[test]
fn lengths() {
    for flows in [1, 2, 9, 63, 64] {
        let plan = Plan::of(&vec![at(5, 0); flows]);
        let bytes = page_bytes(flows);
        for times_len in [0, flows - 1, flows, flows + 1, 2 * flows] {
            for page_len in [0, 1, 26, bytes - 26, bytes - 1, bytes, bytes + 1, bytes + 26, 2_000] {
                let outcome = load_page(&ALL, &plan, &vec![9; times_len], page_len);
                let written = if times_len != flows {
                    assert_eq!(outcome.parts, (36, 0, 0, 0), "{flows} flows, {times_len} times, {page_len} bytes");
                    0
                } else if page_len < bytes {
                    assert_eq!(outcome.parts, (37, 0, 0, 0), "{flows} flows, {page_len} bytes");
                    0
                } else {
                    assert_eq!(outcome.parts, (0, 0, 0, bytes as u32), "{flows} flows, {page_len} bytes");
                    bytes
                };
                assert!(outcome.bytes[..written].iter().all(u8::is_ascii), "{flows} flows");
                let untouched = |place: usize| outcome.bytes[place] == pattern_byte(place);
                assert!((written..outcome.bytes.len()).all(untouched), "{flows} flows, {page_len} bytes");
            }
        }
    }
}

/// Of two causes the earlier one is told: the table's, the check's, the times, the room. Nothing is written.
#[test]
fn order_of_refusals() {
    let refused = |plan: &Plan, times: usize, page_len: usize, parts: Parts| {
        let outcome = load_page(&ALL, plan, &vec![1; times], page_len);
        assert_eq!(outcome.parts, parts, "{plan:?}, {times} times, {page_len} bytes");
        assert!(outcome.is_untouched(), "{plan:?}");
    };
    // For three flows: both right, one of them wrong, and both wrong.
    for (times, page_len) in [(3, 200), (3, 103), (2, 200), (4, 200), (0, 0), (65, 0)] {
        for (plan, parts) in refused_plans() {
            refused(&plan, times, page_len, parts);
        }
    }
    for (times, page_len, number) in
        [(0, 200, 36), (2, 200, 36), (4, 200, 36), (0, 0, 36), (2, 103, 36), (4, 103, 36), (3, 103, 37), (3, 0, 37)]
    {
        refused(&Plan::of(&[[0, 1, 0, 0]; 3]), times, page_len, (number, 0, 0, 0));
    }
}
