//! The least part of a plan that the check still answers with 21.
//!
//! If the check names a flow of a part with 21, it answers the flows that this one leads to with 21 as well. So the
//! least part is what some flow leads to, itself included, and there are no more of those than flows.

use crate::check::{derive, Clock};
use crate::plan::{rows, Row, UNRATED};
use crate::{Answer, MOST_FLOWS};

/// A set of flows, the lowest bit for flow 0.
pub type Set = u64;

/// Gives the least part of a plain table, four words a flow. The count of the answer is that of the part's flows.
pub fn least_part(plan_count: u32, words: &[u32], part: &mut [u32]) -> Answer {
    let (rows, set) = match least(plan_count, words) {
        Ok(least) => least,
        Err(refusal) => return refusal,
    };
    let (out, _) = part.as_chunks_mut::<4>();
    let Some(out) = out.get_mut(..size(set)) else {
        return Answer::number(10);
    };
    renumber(rows, set, out);
    Answer::success(out.len())
}

/// Gives the numbers that the flows of the least part have in the plan. The count of the answer is that of the part's
/// flows.
pub fn least_flows(plan_count: u32, words: &[u32], flows: &mut [u32]) -> Answer {
    let set = match least(plan_count, words) {
        Ok((_, set)) => set,
        Err(refusal) => return refusal,
    };
    let Some(out) = flows.get_mut(..size(set)) else {
        return Answer::number(10);
    };
    for (out, flow) in out.iter_mut().zip(members(set)) {
        *out = flow as u32;
    }
    Answer::success(out.len())
}

/// The rows of a plain table, and which of them are the least part: numbers 11 to 15 and 38.
fn least(plan_count: u32, words: &[u32]) -> Result<(&[Row], Set), Answer> {
    let rows = rows(plan_count, words)?;
    if !differ(rows) {
        return Err(Answer::number(38));
    }
    let led = led_to(rows);
    let (mut least, mut fewest) = (Set::MAX >> (MOST_FLOWS - rows.len()), rows.len() + 1);
    let mut part = [[0; 4]; MOST_FLOWS];
    for &set in &led[..rows.len()] {
        if size(set) < fewest {
            let part = &mut part[..size(set)];
            renumber(rows, set, part);
            if differ(part) {
                (least, fewest) = (set, part.len());
            }
        }
    }
    Ok((rows, least))
}

/// Whether the check answers tested rows with 21.
fn differ(rows: &[Row]) -> bool {
    derive(rows, &mut [Clock::default(); MOST_FLOWS]).is_err_and(|refusal| refusal.number == 21)
}

/// For each flow those that it leads to, itself included: whoever leads to a flow leads to what that flow leads to, for
/// one flow after the other.
fn led_to(rows: &[Row]) -> [Set; MOST_FLOWS] {
    let mut led = [0; MOST_FLOWS];
    for (flow, row) in rows.iter().enumerate() {
        led[flow] = 1 << flow;
        for &other in &row[fields(row)] {
            led[flow] |= 1 << other;
        }
    }
    for through in 0..rows.len() {
        let further = led[through];
        for set in &mut led[..rows.len()] {
            if *set >> through & 1 == 1 {
                *set |= further;
            }
        }
    }
    led
}

/// The places of a row's operands, beat and source.
#[inline]
pub fn fields(&[kind, ..]: &Row) -> std::ops::Range<usize> {
    match kind {
        0 | 1 | UNRATED => 0..0,
        2..=6 | 13 | 14 | 17 | 18 => 1..3,
        7 => 2..4,
        15 => 1..4,
        _ => 1..2,
    }
}

/// The rows of a set of flows, their flows as places in the set.
fn renumber(rows: &[Row], set: Set, part: &mut [Row]) {
    for (out, flow) in part.iter_mut().zip(members(set)) {
        *out = rows[flow];
        for word in &mut out[fields(&rows[flow])] {
            *word = size(set & ((1 << *word) - 1)) as u32;
        }
    }
}

/// How many flows a set has.
#[inline]
fn size(set: Set) -> usize {
    set.count_ones() as usize
}

/// The flows of a set, ascending.
pub fn members(mut set: Set) -> impl Iterator<Item = usize> {
    std::iter::from_fn(move || {
        let lowest = set.trailing_zeros() as usize;
        set &= set.wrapping_sub(1);
        (lowest < MOST_FLOWS).then_some(lowest)
    })
}
