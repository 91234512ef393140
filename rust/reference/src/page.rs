//! The load page: what each flow costs, a line a flow, and the total.

use std::cmp::Ordering;

use crate::check::clocks_of;
use crate::clock::Clock;
use crate::rows::table;
use crate::{answer, refuse, success, Answer};

/// Checks a plain table and writes its load page, from one worst time a flow. The count of the answer is that of the
/// bytes.
pub fn load_page(plan_count: u32, words: &[u32], times: &[u16], page: &mut [u8]) -> Answer {
    answer(table(plan_count, words).and_then(|rows| {
        let clocks = clocks_of(&rows)?;
        if times.len() != clocks.len() {
            return refuse(36);
        }
        let lines = lines(&clocks, times);
        if page.len() < lines.len() {
            return refuse(37);
        }
        page[..lines.len()].copy_from_slice(lines.as_bytes());
        Ok(success(lines.len()))
    }))
}

/// A line for each flow in order, and a last line that has `total`, the sum of the printed loads right-aligned in 20.
fn lines(clocks: &[Clock], times: &[u16]) -> String {
    let mut flows: Vec<usize> = (0..clocks.len()).collect();
    flows.sort_by_key(|&flow| order(flow, &clocks[flow]));
    let mut lines = String::new();
    let mut total = 0;
    for flow in flows {
        let load = load(times[flow], &clocks[flow]);
        lines += &line(flow, &clocks[flow], load);
        total += load;
    }
    lines + &format!("total{total:>20}\n")
}

/// Lines stand by period ascending, equal periods by phase ascending, and only then by flow number.
fn order(flow: usize, clock: &Clock) -> (u32, u32, usize) {
    (clock.period, clock.phase, flow)
}

/// Flow 2 wide, period 5, phase 5, count of conditions 1, load 8, one space between, all right-aligned with blanks.
fn line(flow: usize, clock: &Clock, load: i64) -> String {
    let conditions = clock.conditions.len();
    format!("{flow:>2} {:>5} {:>5} {conditions:>1} {load:>8}\n", clock.period, clock.phase)
}

/// 1000 times the worst time divided by the period, to the nearest whole.
fn load(worst: u16, clock: &Clock) -> i64 {
    nearest(1000 * i64::from(worst), i64::from(clock.period))
}

/// The whole number nearest to x / y: of those on either side of it the one that times y is the least away from x, and
/// of two that are equally far the even one.
fn nearest(x: i64, y: i64) -> i64 {
    let (below, above) = (x / y, x / y + 1);
    let away = |whole: i64| (x - whole * y).abs();
    match away(below).cmp(&away(above)) {
        Ordering::Less => below,
        Ordering::Greater => above,
        Ordering::Equal if below % 2 == 0 => below,
        Ordering::Equal => above,
    }
}
