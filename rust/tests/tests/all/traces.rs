//! Small plans with whole traces that were worked out by hand.

use tests::compare::{pattern_byte, pattern_word, run, written_up_to, Outcome};
use tests::implementation::{Parts, ALL};
use tests::Plan;

/// A trace in writing: ticks parted by `|`, and in each tick the value of every flow, `.` where it is absent and `_`
/// where its cell is left as it was.
pub fn in_writing(outcome: &Outcome, flows: usize, ticks: usize) -> String {
    let cell = |place: usize| match (outcome.bytes[place], outcome.words[place]) {
        (1, value) => value.to_string(),
        (0, 0) => ".".to_string(),
        cell if cell == (pattern_byte(place), pattern_word(place)) => "_".to_string(),
        (mark, value) => format!("{mark}:{value}"),
    };
    let tick = |tick| (flows * tick..flows * (tick + 1)).map(cell).collect::<Vec<_>>().join(" ");
    (0..ticks).map(tick).collect::<Vec<_>>().join(" | ")
}

/// A run over a log, with more room than it needs, gives these parts and this trace, and leaves all behind it.
fn gives(rows: &[[u32; 4]], log: &[u32], parts: Parts, trace: &str) {
    let ticks = trace.split('|').count();
    let cells = ticks * rows.len();
    let outcome = run(&ALL, &Plan::of(rows), log, ticks as u32, (cells + 2, cells + 1));
    assert_eq!((outcome.parts, &in_writing(&outcome, rows.len(), ticks)[..]), (parts, trace), "{rows:?}");
    assert!(written_up_to(&outcome, cells - trace.matches('_').count()), "{rows:?}");
}

/// A run over a log ends with this trace.
pub fn ends_with(rows: &[[u32; 4]], log: &[u32], trace: &str) {
    gives(rows, log, (0, 0, 0, trace.split('|').count() as u32), trace);
}

/// A run over a log clashes at this tick and flow, and leaves this trace.
pub fn clashes_with(rows: &[[u32; 4]], log: &[u32], tick: u32, flow: u32, trace: &str) {
    gives(rows, log, (34, flow, tick, 0), trace);
}

#[test]
fn registers() {
    // A source above the register, so that it counts, and a register that is its own source.
    let rows = [[0, 1, 0, 0], [7, 0, 0, 2], [2, 0, 1, 0], [7, 8, 0, 3]];
    ends_with(&rows, &[1, 1, 1], "1 0 1 8 | 1 1 2 8 | 1 2 3 8");
}

#[test]
fn head_and_tail() {
    let log = [20, 21, 22, 23, 24, 25];
    ends_with(&[[0, 1, 1, 0], [11, 0, 42, 0]], &log, ". 42 | 21 21 | 22 22 | 23 23 | 24 24 | 25 25");
    ends_with(&[[0, 2, 3, 0], [11, 0, 42, 1]], &log, ". . | . 42 | . . | 23 23 | . . | 25 25");
    ends_with(&[[0, 2, 0, 0], [12, 0, 0, 0]], &log, "20 . | . . | 22 22 | . . | 24 24 | . .");
}

#[test]
fn later() {
    let rows = [[0, 1, 0, 0], [10, 0, 0, 0], [10, 0, 2, 0], [10, 0, 4095, 0]];
    ends_with(&rows, &[10, 11, 12], "10 10 . . | 11 11 . . | 12 12 10 .");
}

#[test]
fn faster_and_slower() {
    let log = [10, 11, 12, 13, 14, 15, 16];
    let rows = [[0, 3, 0, 0], [8, 0, 3, 1], [9, 0, 2, 0]];
    ends_with(&rows, &log, "10 10 10 | . 10 . | . 10 . | 13 13 . | . 13 . | . 13 . | 16 16 16");
    ends_with(&[[0, 4095, 0, 0], [8, 0, 3, 1]], &log[..5], "10 10 | . 10 | . 10 | . . | . .");
}

#[test]
fn sums_and_comparisons() {
    let input = [0, 1, 0, 0];
    let rows = [input, input, [2, 0, 1, 0], [3, 0, 1, 0], [4, 0, 1, 0], [5, 0, 1, 0], [6, 0, 1, 0]];
    // The two inputs, their sum and difference, less, equal, larger. 4294967295 stands for -1 and 4294967294 for -2,
    // 2147483647 is the greatest number, and 2147483648 stands for the least.
    let ticks = [
        "0 1 1 4294967295 1 0 1",
        "7 7 14 0 0 1 7",
        "4294967295 1 0 4294967294 1 0 1",
        "0 4294967295 4294967295 1 0 0 0",
        "4294967294 4294967295 4294967293 4294967295 1 0 4294967295",
        "2147483647 2147483648 4294967295 4294967295 0 0 2147483647",
        "2147483648 2147483647 4294967295 1 1 0 2147483647",
        "2147483648 2147483648 0 0 0 1 2147483648",
        "2147483648 0 2147483648 2147483648 1 0 0",
    ];
    let inputs = |tick: &'static str| tick.split(' ').take(2).map(|word| word.parse().expect("a number"));
    ends_with(&rows, &ticks.into_iter().flat_map(inputs).collect::<Vec<u32>>(), &ticks.join(" | "));
}

#[test]
fn sources() {
    ends_with(&[[1, 5, 2, 1]], &[], ". | 5 | . | 5");
    ends_with(&[[0, 1, 0, 0]], &[1, 2], "1 | 2");
}

/// Readings at odd ticks under a switch that is read every 3 ticks and seen every 6: at tick 1, the reading's first, as it
/// was at tick 0, the switch's first; at tick 7 as it was at tick 6, and not as at tick 3.
#[test]
fn views() {
    let log =
        [[0, 1], [10, 0], [0, 0], [11, 0], [0, 0], [12, 0], [0, 0], [13, 0], [0, 0], [14, 1], [0, 0], [15, 0], [0, 5]];
    let log = [&log.concat()[..], &[16, 0]].concat();
    let rows = |kind| [[0, 2, 1, 0], [0, 3, 0, 0], [kind, 0, 1, 6]];
    let ticks =
        [". 1", "10 .", ". .", "11 0", ". .", "12 .", ". 0", "13 .", ". .", "14 1", ". .", "15 .", ". 5", "16 ."];
    let trace = |views: [&str; 14]| -> String {
        let cells: Vec<String> = ticks.iter().zip(views).map(|(tick, view)| format!("{tick} {view}")).collect();
        cells.join(" | ")
    };
    ends_with(&rows(17), &log, &trace([".", "10", ".", "11", ".", "12", ".", ".", ".", ".", ".", ".", ".", "16"]));
    ends_with(&rows(18), &log, &trace([".", ".", ".", ".", ".", ".", ".", "13", ".", "14", ".", "15", ".", "."]));
}

/// Both on one clock: seen at every presence, a view is what when is; at every second one it keeps what it saw.
#[test]
fn views_on_one_clock() {
    let rows = [[0, 2, 0, 0], [0, 2, 0, 0], [13, 0, 1, 0], [17, 0, 1, 2], [17, 0, 1, 4], [18, 0, 1, 4]];
    let log = [5, 0, 9, 9, 6, 1, 9, 9, 7, 3, 9, 9, 8, 0];
    let absent = " | . . . . . . | ";
    let ticks = ["5 0 . . . 5", "6 1 6 6 . 6", "7 3 7 7 7 .", "8 0 . . 8 ."];
    ends_with(&rows, &log, &ticks.join(absent));
}

/// Where a is absent there is no value and no clash, whether c has begun or not; c's own clock does not matter then.
#[test]
fn views_of_absent_flows() {
    ends_with(&[[0, 1, 3, 0], [0, 1, 2, 0], [17, 0, 1, 1]], &[1; 8], ". . . | . . . | . 1 . | 1 1 1");
    ends_with(&[[0, 2, 0, 0], [1, 3, 1, 0], [17, 0, 1, 2]], &[7, 8, 9], "7 3 7 | . 3 . | 9 3 9");
    ends_with(&[[0, 9, 9, 0], [0, 9, 9, 0], [18, 0, 1, 9]], &[1; 6], ". . . | . . . | . . .");
}

/// Starts move on by w from a's first tick whether a is present at them or not: at tick 3 c of tick 2 is seen, at tick 9
/// that of tick 8. The check refuses that.
#[test]
fn views_that_start_where_a_is_absent() {
    let rows = [[1, 7, 3, 0], [0, 1, 0, 0], [17, 0, 1, 2], [18, 0, 1, 2]];
    let log = [0, 9, 5, 0, 9, 9, 0, 9, 6, 0];
    let ticks =
        ["7 0 . 7", ". 9 . .", ". 5 . .", "7 0 7 .", ". 9 . .", ". 9 . .", "7 0 . 7", ". 9 . .", ". 6 . .", "7 0 7 ."];
    ends_with(&rows, &log, &ticks.join(" | "));
}

/// First ticks that the log decides: a begins at tick 2, and c, under the same condition, with it or before. The check
/// refuses that.
#[test]
fn views_of_what_is_sampled() {
    let rows = [[0, 1, 0, 0], [0, 1, 0, 0], [13, 0, 1, 0], [17, 2, 1, 2], [17, 2, 2, 2], [18, 1, 0, 3]];
    let log = [4, 0, 5, 0, 0, 1, 0, 1, 7, 1, 8, 1];
    let ticks = ["4 0 . . . .", "5 0 . . . .", "0 1 0 . . .", "0 1 0 . . 1", "7 1 7 7 7 1", "8 1 8 8 8 1"];
    ends_with(&rows, &log, &ticks.join(" | "));
}
