//! The check: the clock of each flow, in eleven words.

use crate::clock::{clock, Clock, Condition};
use crate::rows::{table, Row};
use crate::{answer, refuse, refuse_at, success, Answer, Refused};

/// Gives each flow of a plain table its clock, eleven words a flow. The count of the answer is that of the flows.
pub fn check(plan_count: u32, words: &[u32], clocks: &mut [u32]) -> Answer {
    answer(table(plan_count, words).and_then(|rows| {
        if clocks.len() < 11 * rows.len() {
            return refuse(10);
        }
        for (place, clock) in clocks_of(&rows)?.iter().enumerate() {
            clocks[11 * place..11 * place + 11].copy_from_slice(&clock_words(clock));
        }
        Ok(success(rows.len()))
    }))
}

/// The clocks of all flows: row by row, then the registers' sources, lowest register first.
pub fn clocks_of(rows: &[Row]) -> Refused<Vec<Clock>> {
    let mut clocks = Vec::new();
    for (flow, row) in rows.iter().enumerate() {
        match clock(row, &clocks) {
            Ok(clock) => clocks.push(clock),
            Err(number) => return refuse_at(number, flow),
        }
    }
    for (flow, row) in rows.iter().enumerate() {
        if let Row::Register { source, .. } = *row {
            if clocks[source] != clocks[flow] {
                return refuse_at(21, flow);
            }
        }
    }
    Ok(clocks)
}

/// Period, phase, how many conditions, four words 2 × flow + 1 for true or 2 × flow for false, unused 0, and the four
/// view periods last.
fn clock_words(clock: &Clock) -> [u32; 11] {
    let mut words = [0; 11];
    words[..3].copy_from_slice(&[clock.period, clock.phase, clock.conditions.len() as u32]);
    for (place, &Condition { flow, truth, view }) in clock.conditions.iter().enumerate() {
        words[3 + place] = 2 * flow as u32 + u32::from(truth);
        words[7 + place] = view;
    }
    words
}
