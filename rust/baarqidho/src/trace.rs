//! What a run gave, whole or up to a clash, or what the archive gave back of it.

use std::error::Error;
use std::fmt::{self, Display, Formatter};

use crate::Refusal;

/// What a run gave: one cell per tick and flow, tick after tick, as far as the run went. [`Plan::store`] stores it and
/// [`Plan::restore`] gives it back.
///
/// [`Plan::store`]: crate::Plan::store
/// [`Plan::restore`]: crate::Plan::restore
#[derive(Clone, Debug, PartialEq, Eq)]
pub struct Trace {
    flows: usize,
    marks: Vec<u8>,
    values: Vec<u32>,
}

impl Trace {
    /// The trace of some flows whose first cells, so many, were worked out.
    pub(crate) fn new(flows: usize, cells: usize, mut marks: Vec<u8>, mut values: Vec<u32>) -> Self {
        marks.truncate(cells);
        values.truncate(cells);
        Trace { flows, marks, values }
    }

    /// How many flows a tick has.
    pub fn flows(&self) -> usize {
        self.flows
    }

    /// How many whole ticks it has.
    pub fn ticks(&self) -> usize {
        self.cells() / self.flows
    }

    /// How many cells were worked out: those of the whole ticks and, up to a clash, those of its tick.
    pub fn cells(&self) -> usize {
        self.marks.len()
    }

    /// Whether the cell of a flow at a tick was worked out.
    pub fn has(&self, tick: usize, flow: usize) -> bool {
        self.place(tick, flow).is_some()
    }

    /// The value of a flow at a tick, or nothing where it is absent or its cell was not worked out. A value is a word;
    /// `as i32` reads it as a signed number, as [`Row::Less`](crate::Row::Less) and
    /// [`Row::Larger`](crate::Row::Larger) do.
    pub fn value(&self, tick: usize, flow: usize) -> Option<u32> {
        let place = self.place(tick, flow)?;
        (self.marks[place] == 1).then(|| self.values[place])
    }

    /// The marks of its cells: 1 present, 0 absent.
    pub fn marks(&self) -> &[u8] {
        &self.marks
    }

    /// The values of its cells, 0 where absent.
    pub fn values(&self) -> &[u32] {
        &self.values
    }

    /// The place of a cell that was worked out.
    fn place(&self, tick: usize, flow: usize) -> Option<usize> {
        let place = tick.checked_mul(self.flows)?.checked_add(flow)?;
        (flow < self.flows && place < self.cells()).then_some(place)
    }
}

/// A clash in a run (34): the operands of a flow that do not fit together, or the source and beat of a register.
///
/// Its trace has every cell before it. A clash found at a flow has neither that flow's cell nor a later one; that of a
/// register is found after all flows, and has its tick whole.
///
/// ```
/// use baarqidho::{Plan, Row, RunError};
///
/// let slow = Row::Input { period: 20, phase: 0 };
/// let plan = Plan::from_rows([Row::Input { period: 10, phase: 0 }, slow, Row::Add { a: 0, b: 1 }]);
/// let Err(RunError::Clash(clash)) = plan.run(&[7; 22], 11) else { panic!("the inputs differ at tick 10") };
/// assert_eq!((clash.tick, clash.flow), (10, 2));
/// assert_eq!((clash.trace.ticks(), clash.trace.cells()), (10, 32));
/// assert_eq!((clash.trace.value(0, 2), clash.trace.value(10, 0)), (Some(14), Some(7)));
/// assert!(clash.trace.has(10, 1) && !clash.trace.has(10, 2));
/// ```
#[derive(Clone, Debug, PartialEq, Eq)]
#[non_exhaustive]
pub struct Clash {
    /// The tick of the clash.
    pub tick: u32,
    /// The flow at which it was found, or the register.
    pub flow: u32,
    /// The trace up to it.
    pub trace: Trace,
}

impl Clash {
    /// The clash without its trace.
    pub fn refusal(&self) -> Refusal {
        Refusal::Clash { tick: self.tick, flow: self.flow }
    }
}

impl Display for Clash {
    fn fmt(&self, f: &mut Formatter) -> fmt::Result {
        self.refusal().fmt(f)
    }
}

impl Error for Clash {}

/// Why a run gave no whole trace. It is displayed as the refusal or the clash that it holds, which is all there is to
/// say, so that it has no source.
#[derive(Clone, Debug, PartialEq, Eq)]
#[non_exhaustive]
pub enum RunError {
    /// The run was refused, and nothing was worked out.
    Refused(Refusal),
    /// The run clashed.
    Clash(Clash),
}

impl RunError {
    /// The refusal, or the clash without its trace.
    pub fn refusal(&self) -> Refusal {
        match self {
            RunError::Refused(refusal) => *refusal,
            RunError::Clash(clash) => clash.refusal(),
        }
    }
}

impl Display for RunError {
    fn fmt(&self, f: &mut Formatter) -> fmt::Result {
        self.refusal().fmt(f)
    }
}

impl Error for RunError {}

/// The refusal as it is: a clash of the call over slices, which comes without its trace, stays a refusal.
impl From<Refusal> for RunError {
    fn from(refusal: Refusal) -> Self {
        RunError::Refused(refusal)
    }
}

impl From<Clash> for RunError {
    fn from(clash: Clash) -> Self {
        RunError::Clash(clash)
    }
}

impl From<RunError> for Refusal {
    fn from(error: RunError) -> Self {
        error.refusal()
    }
}
