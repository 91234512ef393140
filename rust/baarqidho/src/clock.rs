//! Clocks and their conditions.

use std::fmt::{self, Display, Formatter};

use crate::MAX_CONDITIONS;

/// A condition of a clock. It is displayed as a listing has it: `c3+` for true, `c3-` for false, and with its view
/// period, if it has one, `c3+@30`.
#[derive(Clone, Copy, Debug, PartialEq, Eq, Hash)]
#[non_exhaustive]
pub struct Condition {
    /// The flow whose values decide.
    pub flow: u32,
    /// Whether its value has to be non-zero, or zero.
    pub truth: bool,
    /// The view period of [`Row::WhenSeen`](crate::Row::WhenSeen) and [`Row::WhenNotSeen`](crate::Row::WhenNotSeen), or
    /// 0 where the flow is sampled directly, at the tick itself. For tick t of a clock with phase p, a view w reads the
    /// flow, whose phase is q, at tick q + w × ((t - p) / w), the quotient without its fraction.
    pub view: u32,
}

impl Condition {
    /// The condition of two words: twice the flow, and 1 more for true; and the view period.
    fn new(word: u32, view: u32) -> Self {
        Condition { flow: word / 2, truth: word % 2 == 1, view }
    }
}

impl Display for Condition {
    fn fmt(&self, f: &mut Formatter) -> fmt::Result {
        write!(f, "c{}{}", self.flow, if self.truth { '+' } else { '-' })?;
        match self.view {
            0 => Ok(()),
            view => write!(f, "@{view}"),
        }
    }
}

/// The clock of a flow. It is displayed as a listing has it: period, phase and conditions, or `-` where there are none.
///
/// ```
/// use baarqidho::{Plan, Row};
///
/// let plan = Plan::from_rows([Row::Input { period: 4, phase: 0 }, Row::When { a: 0, c: 0 }]);
/// let clocks = plan.clocks()?;
/// assert_eq!((clocks[0].to_string(), clocks[1].to_string()), ("4 0 -".into(), "4 0 c0+".into()));
/// assert_eq!((clocks[1].conditions[0].flow, clocks[1].conditions[0].truth), (0, true));
///
/// // A signal and a mode switch that is looked at every 30 ticks.
/// let (signal, switch) = (Row::Input { period: 10, phase: 5 }, Row::Input { period: 15, phase: 0 });
/// let clocks = Plan::from_rows([signal, switch, Row::WhenSeen { a: 0, c: 1, w: 30 }]).clocks()?;
/// assert_eq!((clocks[2].to_string(), clocks[2].conditions[0].view), ("10 5 c1+@30".into(), 30));
/// # Ok::<(), baarqidho::Refusal>(())
/// ```
#[derive(Clone, Debug, PartialEq, Eq, Hash)]
#[non_exhaustive]
pub struct Clock {
    /// The ticks from one presence to the next, conditions aside.
    pub period: u32,
    /// The first tick, conditions aside.
    pub phase: u32,
    /// Its conditions in order of sampling, [`MAX_CONDITIONS`] at most.
    pub conditions: Vec<Condition>,
}

impl Clock {
    /// The clock of [`CLOCK_WORDS`](crate::CLOCK_WORDS) words.
    pub(crate) fn new(words: &[u32]) -> Self {
        let (conditions, views) = words[3..].split_at(MAX_CONDITIONS);
        let conditions = conditions.iter().zip(views).take(words[2] as usize);
        let conditions = conditions.map(|(&word, &view)| Condition::new(word, view)).collect();
        Clock { period: words[0], phase: words[1], conditions }
    }
}

impl Display for Clock {
    fn fmt(&self, f: &mut Formatter) -> fmt::Result {
        write!(f, "{} {} ", self.period, self.phase)?;
        match self.conditions.is_empty() {
            true => write!(f, "-"),
            false => self.conditions.iter().try_for_each(|condition| write!(f, "{condition}")),
        }
    }
}
