//! The least plan that still clashes: the part with fewest flows that the check still answers with 21, looked for among
//! all sets of flows.

use crate::check::clocks_of;
use crate::rows::{fields, needed, table};
use crate::{answer, refuse, success, Answer, Refused};

/// The most flows of a plan whose least part can be looked for: there are 4,096 sets of them.
pub const LEAST_MAX: usize = 12;

/// Gives the least part of a plain table, four words a flow. The count of the answer is that of the part's flows.
///
/// # Panics
///
/// If a plan that the check answers with 21 has more than [`LEAST_MAX`] flows.
pub fn least_part(plan_count: u32, words: &[u32], part: &mut [u32]) -> Answer {
    answer(least(plan_count, words).and_then(|least| put(least, &renumbered(words, least), part)))
}

/// Gives the numbers that the flows of the least part have in the plan. The count of the answer is that of the part's
/// flows.
///
/// # Panics
///
/// As [`least_part`].
pub fn least_flows(plan_count: u32, words: &[u32], flows: &mut [u32]) -> Answer {
    answer(least(plan_count, words).and_then(|least| {
        let numbers: Vec<u32> = least.flows().map(|flow| flow as u32).collect();
        put(least, &numbers, flows)
    }))
}

/// Number 10 for lack of space, or the words of a part in the output.
fn put(part: Set, words: &[u32], output: &mut [u32]) -> Refused<Answer> {
    if output.len() < words.len() {
        return refuse(10);
    }
    output[..words.len()].copy_from_slice(words);
    Ok(success(part.flows().count()))
}

/// A set of flows: flow f is in it when bit f is 1.
#[derive(Clone, Copy, Debug, PartialEq, Eq)]
struct Set(u32);

impl Set {
    /// Every set of that many flows.
    fn all(flows: usize) -> impl Iterator<Item = Set> {
        (0..1 << flows).map(Set)
    }

    fn has(self, flow: usize) -> bool {
        self.0 >> flow & 1 == 1
    }

    /// Its flows in order.
    fn flows(self) -> impl Iterator<Item = usize> {
        (0..LEAST_MAX).filter(move |&flow| self.has(flow))
    }

    fn has_all_of(self, other: Set) -> bool {
        other.flows().all(|flow| self.has(flow))
    }
}

/// The part with fewest flows that the check still answers with 21: each other part so answered has at least as many.
fn least(plan_count: u32, words: &[u32]) -> Refused<Set> {
    table(plan_count, words)?;
    if !is_answered_21(words) {
        return refuse(38);
    }
    let flows = words.len() / 4;
    assert!(flows <= LEAST_MAX, "all sets of {flows} flows are too many");
    let parts: Vec<Set> = Set::all(flows).filter(|&set| is_part(words, set)).collect();
    for fewest in 1..=flows {
        let equals = parts.iter().copied().filter(|part| part.flows().count() == fewest);
        let equals: Vec<Set> = equals.filter(|&part| is_answered_21(&renumbered(words, part))).collect();
        if !equals.is_empty() {
            return Ok(among_equals(flows, &parts, &equals));
        }
    }
    unreachable!("the whole plan is a part");
}

/// Among equals, the one drawn from the lowest single flow that leads to all the rest.
fn among_equals(flows: usize, parts: &[Set], equals: &[Set]) -> Set {
    for lowest in 0..flows {
        let drawn: Vec<Set> = equals.iter().copied().filter(|&part| leads_to_all(parts, lowest, part)).collect();
        if !drawn.is_empty() {
            assert_eq!(drawn.len(), 1, "a flow leads to all the rest of one part: {drawn:?}");
            return drawn[0];
        }
    }
    panic!("some flow leads to all the rest: {equals:?}");
}

/// A flow of a part leads to all the rest of it when there is no part with that flow and without one of the rest.
fn leads_to_all(parts: &[Set], flow: usize, part: Set) -> bool {
    part.has(flow) && parts.iter().filter(|other| other.has(flow)).all(|other| other.has_all_of(part))
}

/// A part is a set of flows that has, with a flow, all its operands, beats and sources.
fn is_part(words: &[u32], set: Set) -> bool {
    set.flows().all(|flow| needed(row(words, flow)).all(|other| set.has(other)))
}

/// Whether the check answers a table with 21.
fn is_answered_21(words: &[u32]) -> bool {
    let rows = table(words.len() as u32 / 4, words);
    matches!(rows.and_then(|rows| clocks_of(&rows)), Err(Answer { number: 21, .. }))
}

/// The rows of a part, its flows renumbered in order.
fn renumbered(words: &[u32], part: Set) -> Vec<u32> {
    let number = |flow: u32| part.flows().position(|other| other == flow as usize).expect("a part has it") as u32;
    let mut rows = Vec::new();
    for flow in part.flows() {
        let row = row(words, flow);
        let mut new = [row[0], row[1], row[2], row[3]];
        for (place, field) in fields(row[0]).iter().enumerate() {
            if field.is_flow() {
                new[1 + place] = number(row[1 + place]);
            }
        }
        rows.extend(new);
    }
    rows
}

/// The words of a flow's row.
fn row(words: &[u32], flow: usize) -> &[u32] {
    &words[4 * flow..4 * flow + 4]
}
