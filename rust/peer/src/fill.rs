//! Rates filled in: they spread from the written ones along the rows, both ways.
//!
//! In an accepted plan a row fixes period and phase of its result by those of each flow that it joins with it, and the
//! other way round. So each flow that a chain joins to a written rate can have one rate alone, and the check of the plan
//! with these decides. A flow that could have none is enough for a refusal.

use crate::check::{derive, Clock};
use crate::least::{fields, members, Set};
use crate::plan::{unfilled, Row, UNRATED};
use crate::{Answer, MOST_DERIVED, MOST_FLOWS, MOST_WRITTEN};

/// A period and a phase.
type Rate = (u32, u32);

/// Fills in the rates of a plain table, four words a flow. The count of the answer is that of the flows.
pub fn fill_rates(plan_count: u32, words: &[u32], filled: &mut [u32]) -> Answer {
    let rows = match unfilled(plan_count, words) {
        Ok(rows) => rows,
        Err(refusal) => return refusal,
    };
    let mut plan = [[0; 4]; MOST_FLOWS];
    let plan = &mut plan[..rows.len()];
    plan.copy_from_slice(rows);
    if rows.iter().any(|row| row[0] == UNRATED) {
        let mut rates = [(0, 0); MOST_FLOWS];
        let (known, is_sound) = spread(rows, &mut rates);
        let unknown = (!known).trailing_zeros() as usize;
        if unknown < rows.len() {
            return Answer::at(39, unknown);
        }
        if !is_sound {
            return Answer::at(21, 0);
        }
        for (row, &(period, phase)) in plan.iter_mut().zip(&rates).filter(|(row, _)| row[0] == UNRATED) {
            if period > MOST_WRITTEN || phase > MOST_WRITTEN {
                return Answer::at(21, 0);
            }
            *row = [0, period, phase, 0];
        }
    }
    if derive(plan, &mut [Clock::default(); MOST_FLOWS]).is_err() {
        return Answer::at(21, 0);
    }
    let (out, _) = filled.as_chunks_mut::<4>();
    let Some(out) = out.get_mut(..rows.len()) else {
        return Answer::number(10);
    };
    out.copy_from_slice(plan);
    Answer::success(rows.len())
}

/// Gives each flow that a chain joins to a written rate its own, by the first chain that gets there. Tells which flows
/// have one, and whether it is a rate that a clock may have wherever a row asks for one.
fn spread(rows: &[Row], rates: &mut [Rate; MOST_FLOWS]) -> (Set, bool) {
    // The flows whose rows join them with a flow.
    let mut joining: [Set; MOST_FLOWS] = [0; MOST_FLOWS];
    let (mut known, mut is_sound): (Set, bool) = (0, true);
    for (flow, row) in rows.iter().enumerate() {
        for &other in &row[joined(row)] {
            joining[other as usize] |= 1 << flow;
        }
        if let [0, period, phase, _] | [1, _, period, phase] = *row {
            rates[flow] = (period, phase);
            known |= 1 << flow;
        }
    }
    let mut next = known;
    while next != 0 {
        let flow = next.trailing_zeros() as usize;
        next &= next - 1;
        let rate = rates[flow];
        let mut reach = |other: usize, rate: Option<Rate>| {
            if known >> other & 1 == 0 {
                // Any rate serves for going on, once there is none.
                is_sound &= rate.is_some();
                rates[other] = rate.unwrap_or((1, 0));
                known |= 1 << other;
                next |= 1 << other;
            }
        };
        for &other in &rows[flow][joined(&rows[flow])] {
            reach(other as usize, backward(&rows[flow], rate));
        }
        for other in members(joining[flow]) {
            reach(other, forward(&rows[other], rate));
        }
    }
    (known, is_sound)
}

/// The places of the flows that a row joins with its result: all that it names, but of a view not the flow seen.
#[inline]
fn joined(row: &Row) -> std::ops::Range<usize> {
    match row[0] {
        17 | 18 => 1..2,
        _ => fields(row),
    }
}

/// The rate of a row's result over a flow with this one.
fn forward(&[kind, _, y, z]: &Row, (period, phase): Rate) -> Option<Rate> {
    within(match kind {
        8 => (z, phase),
        9 => (period * y, phase),
        10 => (period, phase + y),
        11 => (period, z),
        12 => (period, phase + period),
        _ => (period, phase),
    })
}

/// The rate of the flows under a row whose result has this one.
fn backward(&[kind, _, y, z]: &Row, (period, phase): Rate) -> Option<Rate> {
    within(match kind {
        8 => (period * y, phase),
        9 if period.is_multiple_of(y) => (period / y, phase),
        9 => return None,
        10 => (period, phase.checked_sub(y)?),
        11 => (period, z + period),
        12 => (period, phase.checked_sub(period)?),
        _ => (period, phase),
    })
}

/// A rate that a clock may have. Periods are positive as they come.
fn within(rate: Rate) -> Option<Rate> {
    (rate.0 <= MOST_DERIVED && rate.1 <= MOST_DERIVED).then_some(rate)
}
