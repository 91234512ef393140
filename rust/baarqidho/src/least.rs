//! The least part of a plan that still clashes.

use crate::{Plan, Row};

/// What a plan that the check answers with 21 comes down to: the part with fewest flows that it still answers so. That
/// part is a plan of its own, with the numbers that its flows have in the whole plan.
///
/// ```
/// use baarqidho::{Plan, Refusal, Row};
///
/// // A customer's plan, refused at its last flow.
/// let plan = Plan::from_rows([
///     Row::Input { period: 10, phase: 0 },
///     Row::Constant { value: 700, period: 10, phase: 0 },
///     Row::Less { a: 1, b: 0 },
///     Row::When { a: 0, c: 2 },
///     Row::Register { initial: 0, beat: 2, source: 5 },
///     Row::Add { a: 4, b: 2 },
///     Row::Slower { a: 5, k: 4 },
///     Row::Input { period: 20, phase: 0 },
///     Row::Register { initial: 0, beat: 7, source: 7 },
///     Row::Subtract { a: 7, b: 8 },
///     Row::Faster { a: 7, k: 4, gap: 5 },
///     Row::Larger { a: 0, b: 10 },
/// ]);
/// assert_eq!(plan.clocks(), Err(Refusal::ClocksDiffer { flow: 11 }));
///
/// // Four of the twelve rows are enough for that, here as the customer has them.
/// let least = plan.least_part()?;
/// let lines: Vec<String> = least.rows().map(|(flow, row)| format!("{flow}: {row:?}")).collect();
/// let expected = [
///     "0: Input { period: 10, phase: 0 }",
///     "7: Input { period: 20, phase: 0 }",
///     "10: Faster { a: 7, k: 4, gap: 5 }",
///     "11: Larger { a: 0, b: 10 }",
/// ];
/// assert_eq!(lines, expected);
///
/// // The same rows as a plan of their own. Its flow 3 is refused, the customer's flow 11.
/// let rows: Vec<Row> = least.plan().rows().flatten().collect();
/// assert_eq!(rows[2..], [Row::Faster { a: 1, k: 4, gap: 5 }, Row::Larger { a: 0, b: 2 }]);
/// assert_eq!(least.plan().clocks(), Err(Refusal::ClocksDiffer { flow: 3 }));
/// assert_eq!(least.flows()[3], 11);
///
/// // The clocks before it say why.
/// let clocks = Plan::from_rows(rows[..3].iter().copied()).clocks()?;
/// assert_eq!((clocks[0].to_string(), clocks[2].to_string()), ("10 0 -".into(), "5 0 -".into()));
/// # Ok::<(), Refusal>(())
/// ```
#[derive(Clone, Debug, PartialEq, Eq)]
pub struct LeastPart {
    plan: Plan,
    flows: Vec<u32>,
    rows: Vec<Row>,
}

impl LeastPart {
    /// The part that has these words and, in the whole plan, these flows.
    pub(crate) fn new(whole: &Plan, words: Vec<u32>, flows: Vec<u32>) -> Self {
        let all: Vec<Row> = whole.rows().flatten().collect();
        let rows = flows.iter().map(|&flow| all[flow as usize]).collect();
        LeastPart { plan: Plan::new(words), flows, rows }
    }

    /// The part as a plan, its flows numbered from 0 on.
    pub fn plan(&self) -> &Plan {
        &self.plan
    }

    /// The numbers that its flows have in the whole plan, ascending: entry i is the number of the part's flow i.
    pub fn flows(&self) -> &[u32] {
        &self.flows
    }

    /// Its rows as they stand in the whole plan, operands too, each with its number there.
    pub fn rows(&self) -> impl Iterator<Item = (u32, Row)> + '_ {
        self.flows.iter().copied().zip(self.rows.iter().copied())
    }
}
