//! Which inputs a signal feels: from each input row all flows that can be reached, looked for depth first.

use crate::check::clocks_of;
use crate::clock::Clock;
use crate::rows::{needed, table, Row};
use crate::{answer, refuse, success, Answer, Refused};

/// Gives for each flow of a plain table the set of input rows from which it can be reached, lowest bit for row 0. The
/// count of the answer is that of the flows.
pub fn felt_inputs(plan_count: u32, words: &[u32], sets: &mut [u64]) -> Answer {
    answer(felt(plan_count, words, sets))
}

/// Refusals are the check's, then 10 if there are fewer sets than flows.
fn felt(plan_count: u32, words: &[u32], sets: &mut [u64]) -> Refused<Answer> {
    let rows = table(plan_count, words)?;
    let clocks = clocks_of(&rows)?;
    if sets.len() < rows.len() {
        return refuse(10);
    }
    sets[..rows.len()].fill(0);
    for (input, row) in rows.iter().enumerate() {
        if matches!(row, Row::Input { .. }) {
            let mut reached = vec![false; rows.len()];
            reach(input, words, &clocks, &mut reached);
            for flow in (0..rows.len()).filter(|&flow| reached[flow]) {
                sets[flow] |= 1 << input;
            }
        }
    }
    Ok(success(rows.len()))
}

/// A flow is reached, and through it whatever one step leads on to.
fn reach(flow: usize, words: &[u32], clocks: &[Clock], reached: &mut [bool]) {
    if reached[flow] {
        return;
    }
    reached[flow] = true;
    for next in 0..clocks.len() {
        if leads_on(flow, &words[4 * next..4 * next + 4], &clocks[next]) {
            reach(next, words, clocks, reached);
        }
    }
}

/// Whether a step leads from a flow to the one with this row and this clock: through its operands, its beat, its source
/// or its conditions.
fn leads_on(flow: usize, row: &[u32], clock: &Clock) -> bool {
    needed(row).any(|other| other == flow) || clock.conditions.iter().any(|condition| condition.flow == flow)
}
