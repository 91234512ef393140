//! Inputs with no rate written: the filling that the check accepts, looked for among all fillings.

use crate::check::clocks_of;
use crate::clock::DERIVED;
use crate::rows::{needed, row, table, test_table, Known, Row, UNRATED};
use crate::{answer, refuse, refuse_at, success, Answer, Refused};

/// A period and a phase.
type Rate = (u32, u32);

/// The limits of a filling: periods from 1 and phases from 0 up to these.
#[derive(Clone, Copy, Debug, PartialEq, Eq)]
pub struct Limits {
    /// The greatest period.
    pub period: u32,
    /// The greatest phase.
    pub phase: u32,
}

/// The limits of the rates that clocks have. Those of fields that are written are narrower, and are tested with the
/// filled table.
const CLOCKS: Limits = Limits { period: DERIVED, phase: DERIVED };

impl Limits {
    fn periods(self) -> impl Iterator<Item = u32> {
        1..=self.period
    }

    fn phases(self) -> impl Iterator<Item = u32> {
        0..=self.phase
    }

    /// Every rate within them.
    fn rates(self) -> Vec<Rate> {
        self.periods().flat_map(|period| self.phases().map(move |phase| (period, phase))).collect()
    }

    fn have(self, (period, phase): Rate) -> bool {
        (1..=self.period).contains(&period) && phase <= self.phase
    }
}

/// Fills in the rates of a plain table, four words a flow. The count of the answer is that of the flows. Of all fillings
/// within the limits of written fields those are tried that one chain of rows to each flow leaves possible.
pub fn fill_rates(plan_count: u32, words: &[u32], filled: &mut [u32]) -> Answer {
    answer(fill(plan_count, words, filled, || possible(words)))
}

/// The same with these limits in place of those of written fields: each filling within them is tried.
pub fn fill_rates_within(limits: Limits, plan_count: u32, words: &[u32], filled: &mut [u32]) -> Answer {
    answer(fill(plan_count, words, filled, || vec![limits.rates(); words.len() / 4]))
}

/// Each accepted filling of a plain table within these limits, joined or not.
///
/// # Panics
///
/// If the table is refused.
pub fn accepted_fillings(limits: Limits, words: &[u32]) -> Vec<Vec<u32>> {
    test_table(words.len() as u32 / 4, words, Known::All).expect("a table");
    accepted(words, &vec![limits.rates(); words.len() / 4])
}

/// Row refusals, 39, 21 and 10, or the accepted filling in the output; `rates` are those to try for each flow.
fn fill(plan_count: u32, words: &[u32], filled: &mut [u32], rates: impl FnOnce() -> Vec<Vec<Rate>>) -> Refused<Answer> {
    test_table(plan_count, words, Known::All)?;
    if let Some(flow) = joined(words).iter().position(|is_joined| !is_joined) {
        return refuse_at(39, flow);
    }
    let accepted = accepted(words, &rates());
    assert!(accepted.len() <= 1, "two different fillings are never both accepted: {accepted:?}");
    let Some(table) = accepted.first() else { return refuse_at(21, 0) };
    if filled.len() < table.len() {
        return refuse(10);
    }
    filled[..table.len()].copy_from_slice(table);
    Ok(success(table.len() / 4))
}

/// The flows that a row joins with its result: its operands, beat and source, but when-seen and when-not-seen a only.
fn joins(row: &[u32]) -> impl Iterator<Item = usize> + '_ {
    let a_only = matches!(row[0], 17 | 18);
    needed(row).take(if a_only { 1 } else { 3 })
}

/// Which flows a chain joins to a rated input or constant.
fn joined(words: &[u32]) -> Vec<bool> {
    let mut joined: Vec<bool> = words.chunks(4).map(|row| written(row).is_some()).collect();
    // A chain has at most as many steps as there are flows.
    for _ in 0..joined.len() {
        for (result, row) in words.chunks(4).enumerate() {
            for other in joins(row) {
                let either = joined[result] || joined[other];
                (joined[result], joined[other]) = (either, either);
            }
        }
    }
    joined
}

/// The rate that a row has written, if it is a rated input or constant.
fn written(words: &[u32]) -> Option<Rate> {
    match words[0] {
        0 => Some((words[1], words[2])),
        1 => Some((words[2], words[3])),
        _ => None,
    }
}

/// The accepted ones of all tables that have in each row of kind 16 one of its flow's rates.
fn accepted(words: &[u32], rates: &[Vec<Rate>]) -> Vec<Vec<u32>> {
    let Some(flow) = words.chunks(4).position(|row| row[0] == UNRATED) else {
        let is_accepted = table(words.len() as u32 / 4, words).and_then(|rows| clocks_of(&rows)).is_ok();
        return if is_accepted { vec![words.to_vec()] } else { vec![] };
    };
    let mut words = words.to_vec();
    let mut tables = Vec::new();
    for &(period, phase) in &rates[flow] {
        words[4 * flow..4 * flow + 4].copy_from_slice(&[0, period, phase, 0]);
        tables.extend(accepted(&words, rates));
    }
    tables
}

/// For each flow all rates that it may have in an accepted filling, every flow being joined to a rated one.
///
/// An accepted filling gives each flow a clock within the limits, and so a rate; a rated row's is the one that is
/// written. Conditions aside, a row's rule gives the result's rate from that of any flow that the row joins with it. So a
/// flow that a row joins with another whose rates are known has a rate to which the rule leads from one of these, or one
/// from which it leads to one of these. The latter are found by trying rates.
fn possible(words: &[u32]) -> Vec<Vec<Rate>> {
    let mut rates: Vec<Option<Vec<Rate>>> = words.chunks(4).map(|row| written(row).map(|rate| vec![rate])).collect();
    while rates.contains(&None) {
        for (result, words) in words.chunks(4).enumerate() {
            for other in joins(words) {
                match (&rates[result], &rates[other]) {
                    (None, Some(known)) => rates[result] = Some(led_to(&row(words), known)),
                    (Some(known), None) => rates[other] = Some(leading_to(&row(words), known)),
                    _ => {}
                }
            }
        }
    }
    rates.into_iter().flatten().collect()
}

/// The rates of a row's result, those of a flow that the row joins with it being known.
fn led_to(row: &Row, known: &[Rate]) -> Vec<Rate> {
    let result = |&(n, p): &Rate| Some((result_period(row, n)?, result_phase(row, n, p)?));
    known.iter().filter_map(result).filter(|&rate| CLOCKS.have(rate)).collect()
}

/// The rates of a flow that a row joins with its result, those of the result being known. Longer or later ones need not be
/// tried: faster alone gives a shorter period, that of k × gap, and head alone an earlier phase, by one period.
fn leading_to(row: &Row, known: &[Rate]) -> Vec<Rate> {
    let mut rates = Vec::new();
    for &(period, phase) in known {
        let longest = if let Row::Faster { k, gap, .. } = *row { k * gap } else { period };
        let periods = CLOCKS.periods().take_while(|&n| n <= longest);
        for n in periods.filter(|&n| result_period(row, n) == Some(period)) {
            let phases = CLOCKS.phases().take_while(|&p| p <= phase + n);
            rates.extend(phases.filter(|&p| result_phase(row, n, p) == Some(phase)).map(|p| (n, p)));
        }
    }
    rates
}

/// The period that a row's rule gives its result where a flow joined with it has the period n, if it gives one.
fn result_period(row: &Row, n: u32) -> Option<u32> {
    match *row {
        Row::Faster { k, gap, .. } => (n == k * gap).then_some(gap),
        Row::Slower { k, .. } => Some(k * n),
        _ => Some(n),
    }
}

/// The phase that a row's rule gives its result where a flow joined with it has the rate (n, p), if it gives one.
fn result_phase(row: &Row, n: u32, p: u32) -> Option<u32> {
    match *row {
        Row::Later { d, .. } => Some(p + d),
        Row::Head { s, .. } => (p == s + n).then_some(s),
        Row::Tail { .. } => Some(p + n),
        _ => Some(p),
    }
}
