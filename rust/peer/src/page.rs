//! The load page.

use std::cmp::Ordering;

use crate::check::{derive, Clock};
use crate::plan::rows;
use crate::{Answer, MOST_FLOWS};

/// The bytes of a line, its line feed too.
const LINE: usize = 26;

type Line = [u8; LINE];

/// The lines before their numbers are written.
const FLOW: Line = *b"                         \n";
const TOTAL: Line = *b"total                    \n";

/// Checks a plain table and writes its load page, from one worst time a flow. The count of the answer is that of the
/// bytes.
pub fn load_page(plan_count: u32, words: &[u32], times: &[u16], page: &mut [u8]) -> Answer {
    let rows = match rows(plan_count, words) {
        Ok(rows) => rows,
        Err(refusal) => return refusal,
    };
    let mut clocks = [Clock::default(); MOST_FLOWS];
    if let Err(refusal) = derive(rows, &mut clocks) {
        return refusal;
    }
    if times.len() != rows.len() {
        return Answer::number(36);
    }
    let (lines, _) = page.as_chunks_mut::<LINE>();
    let Some(lines) = lines.get_mut(..=rows.len()) else {
        return Answer::number(37);
    };
    put_lines(&clocks[..rows.len()], times, lines);
    Answer::success(lines.as_flattened().len())
}

/// A line for each flow by ascending place, and the total. That is at most 64 × 65,535,000, which a word has.
fn put_lines(clocks: &[Clock], times: &[u16], lines: &mut [Line]) {
    let mut places = [0; MOST_FLOWS];
    let places = &mut places[..clocks.len()];
    for (flow, clock) in clocks.iter().enumerate() {
        places[flow] = place(flow, clock);
    }
    places.sort_unstable();
    let mut total = 0;
    for (line, place) in lines.iter_mut().zip(places) {
        let flow = *place as usize % MOST_FLOWS;
        let (clock, load) = (&clocks[flow], load(times[flow], clocks[flow].period));
        *line = FLOW;
        put(line, 2, flow as u32);
        put(line, 8, clock.period);
        put(line, 14, clock.phase);
        put(line, 16, clock.conditions().len() as u32);
        put(line, 25, load);
        total += load;
    }
    let last = &mut lines[clocks.len()];
    *last = TOTAL;
    put(last, 25, total);
}

/// The place of a flow among the others: period, phase and flow side by side, the last two in 16 and 6 bits.
#[inline]
fn place(flow: usize, clock: &Clock) -> u64 {
    u64::from(clock.period) << 22 | u64::from(clock.phase) << 6 | flow as u64
}

/// 1000 times the worst time divided by the period, the half going to the even number.
#[inline]
fn load(worst: u16, period: u32) -> u32 {
    let x = 1000 * u32::from(worst);
    let (whole, rest) = (x / period, x % period);
    match (2 * rest).cmp(&period) {
        Ordering::Less => whole,
        Ordering::Equal => (whole + 1) & !1,
        Ordering::Greater => whole + 1,
    }
}

/// Writes a number into a blank line, its last digit before `end`.
#[inline]
fn put(line: &mut Line, mut end: usize, mut number: u32) {
    loop {
        end -= 1;
        line[end] = b'0' + (number % 10) as u8;
        number /= 10;
        if number == 0 {
            return;
        }
    }
}
