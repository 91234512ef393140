//! The inputs that each flow feels: a set for each, and passes over the rows until none of them grows.
//!
//! What a flow feels comes from lower rows, but for a register's source. So the first pass does all of a plan without
//! registers. Further ones go down and up by turns, as sources do.

use crate::check::{derive, Clock};
use crate::least::{fields, Set};
use crate::plan::{rows, Row};
use crate::{Answer, MOST_FLOWS};

/// Gives for each flow of a plain table the set of the inputs that it feels, the lowest bit for row 0. The count of the
/// answer is that of the flows.
pub fn felt_inputs(plan_count: u32, words: &[u32], sets: &mut [Set]) -> Answer {
    felt(plan_count, words, sets).unwrap_or_else(|refusal| refusal)
}

fn felt(plan_count: u32, words: &[u32], sets: &mut [Set]) -> Result<Answer, Answer> {
    let rows = rows(plan_count, words)?;
    let mut clocks = [Clock::default(); MOST_FLOWS];
    derive(rows, &mut clocks)?;
    let sets = sets.get_mut(..rows.len()).ok_or(Answer::number(10))?;
    sets.fill(0);
    let has_registers = rows.iter().any(|row| row[0] == 7);
    let flows = 0..rows.len();
    while pass(rows, &clocks, sets, flows.clone()) && has_registers && pass(rows, &clocks, sets, flows.clone().rev()) {}
    Ok(Answer::success(rows.len()))
}

/// Adds to the set of each flow those of the flows that its row names and its conditions are about. Tells whether one
/// has grown.
fn pass(rows: &[Row], clocks: &[Clock; MOST_FLOWS], sets: &mut [Set], flows: impl Iterator<Item = usize>) -> bool {
    let mut has_grown = false;
    for flow in flows {
        let row = &rows[flow];
        let own = Set::from(row[0] == 0) << flow;
        let named = row[fields(row)].iter().map(|&other| other as usize);
        let conditions = clocks[flow].conditions().iter().map(|&condition| usize::from(condition / 2));
        let set = named.chain(conditions).fold(own, |set, other| set | sets[other]);
        has_grown |= set != sets[flow];
        sets[flow] = set;
    }
    has_grown
}
