//! What a call answers, and refusals in words.

use std::error::Error;
use std::fmt::{self, Display, Formatter};

/// The answer of a call: a number (0 is success), a flow, a tick and a count. Parts not named are 0.
#[derive(Clone, Copy, Debug, Default, PartialEq, Eq)]
#[must_use]
pub struct Answer {
    /// 0 for success, else the number of the refusal.
    pub number: u32,
    /// The flow, or the row, that the refusal names.
    pub flow: u32,
    /// The tick of a clash.
    pub tick: u32,
    /// On success the count of flows, bytes, ticks, words or cells; of a listing the length of the text.
    pub count: u32,
}

impl Answer {
    /// The count of a success.
    ///
    /// # Errors
    ///
    /// The refusal, if the number is not 0.
    ///
    /// ```
    /// use baarqidho::{check, Refusal, CLOCK_WORDS};
    ///
    /// // Inputs (10, 0) and (20, 0), and their sum: the clocks differ.
    /// let words = [0, 10, 0, 0, 0, 20, 0, 0, 2, 0, 1, 0];
    /// let refusal = check(3, &words, &mut [0; 3 * CLOCK_WORDS]).result().unwrap_err();
    /// assert_eq!(refusal, Refusal::ClocksDiffer { flow: 2 });
    /// assert_eq!(refusal.to_string(), "flow 2: the clocks are not as the rules need (21)");
    /// ```
    pub fn result(self) -> Result<usize, Refusal> {
        let Answer { number, flow, tick, count } = self;
        Err(match number {
            0 => return Ok(count as usize),
            10 => Refusal::OutputTooShort,
            11 => Refusal::BadCount,
            12 => Refusal::EndsTooEarly { row: flow },
            13 => Refusal::UnknownKind { row: flow },
            14 => Refusal::FieldOutOfRange { row: flow },
            15 => Refusal::BadOperand { row: flow },
            16 => Refusal::NotTheEnd,
            21 => Refusal::ClocksDiffer { flow },
            22 => Refusal::BeyondLimits { flow },
            23 => Refusal::NotPlain { flow },
            31 => Refusal::TooManyTicks,
            32 => Refusal::BadLogLength,
            33 => Refusal::TraceTooShort,
            34 => Refusal::Clash { tick, flow },
            35 => Refusal::WindowTooShort,
            36 => Refusal::BadTimesLength,
            37 => Refusal::PageTooShort,
            38 => Refusal::NotDiffering,
            39 => Refusal::Unjoined { flow },
            40 => Refusal::BadView { flow },
            41 => Refusal::HasConditions,
            42 => Refusal::WrongLength,
            43 => Refusal::OffCalendar,
            _ => Refusal::Other { number },
        })
    }
}

/// Why a plan comes back.
#[derive(Clone, Copy, Debug, PartialEq, Eq, Hash)]
#[non_exhaustive]
pub enum Refusal {
    /// 10: the output has fewer cells than needed.
    OutputTooShort,
    /// 11: the count is not 1 to [`MAX_FLOWS`](crate::MAX_FLOWS), or the plain words are not
    /// [`ROW_WORDS`](crate::ROW_WORDS) a flow.
    BadCount,
    /// 12: the packed bits end too early.
    EndsTooEarly {
        /// The row in which they end.
        row: u32,
    },
    /// 13: a kind above 18, or 16 ([`Row::Unrated`](crate::Row::Unrated)) where rates have to be written.
    UnknownKind {
        /// The row of that kind.
        row: u32,
    },
    /// 14: a field outside its range or width, or an unused word that is not 0.
    FieldOutOfRange {
        /// The row of that field.
        row: u32,
    },
    /// 15: an operand that is not a lower flow, or a source that is not in the table.
    BadOperand {
        /// The row of that operand.
        row: u32,
    },
    /// 16: a filling bit that is not 0, or a further byte.
    NotTheEnd,
    /// 21: the clocks are not as the rules need.
    ClocksDiffer {
        /// The flow whose rule is broken; 0 where rates are filled in, as no flow is named then.
        flow: u32,
    },
    /// 22: a derived period or phase above [`MAX_DERIVED`](crate::MAX_DERIVED), or more than
    /// [`MAX_CONDITIONS`](crate::MAX_CONDITIONS) conditions.
    BeyondLimits {
        /// The flow that would have that clock.
        flow: u32,
    },
    /// 23: faster, slower, later, head or tail over a clock with conditions, or when-seen or when-not-seen where `a` or
    /// `c` has one.
    NotPlain {
        /// The flow of that kind.
        flow: u32,
    },
    /// 31: more than [`MAX_TICKS`](crate::MAX_TICKS) ticks, or [`MAX_LONG_TICKS`](crate::MAX_LONG_TICKS) in a long run.
    TooManyTicks,
    /// 32: the log has not one word per tick and input.
    BadLogLength,
    /// 33: the mark trace or the value trace has less than one cell per tick and flow.
    TraceTooShort,
    /// 34: operands that do not fit together, in a run.
    Clash {
        /// The tick of the clash.
        tick: u32,
        /// The flow at which it was found.
        flow: u32,
    },
    /// 35: the marks or the values of a long run have less than [`WINDOW_TICKS`](crate::WINDOW_TICKS) cells a flow, or
    /// the tallies less than [`TALLY_WORDS`](crate::TALLY_WORDS) words a flow.
    WindowTooShort,
    /// 36: the worst times of a load page are not one a flow.
    BadTimesLength,
    /// 37: the page has less than [`PAGE_LINE`](crate::PAGE_LINE) bytes for each flow and the total.
    PageTooShort,
    /// 38: the check does not answer the plan with 21, so that it has no least part.
    NotDiffering,
    /// 39: no chain joins a flow to an input or constant that has a rate, so that none can be filled in.
    Unjoined {
        /// The lowest such flow.
        flow: u32,
    },
    /// 40: a view period that is not a multiple of both periods, or a phase of `c` above that of `a`, of when-seen or
    /// when-not-seen.
    BadView {
        /// The flow of that kind.
        flow: u32,
    },
    /// 41: when, when-not, merge, when-seen or when-not-seen in a plan whose traces are to go into the archive.
    HasConditions,
    /// 42: the marks or the values of a trace are not exactly one per tick and flow, or its stored words not exactly as
    /// many as [`stored_words()`](crate::stored_words()) counts.
    WrongLength,
    /// 43: a trace to store whose marks are not the clocks', or whose absent values are not 0.
    OffCalendar,
    /// A number that the interface does not name.
    Other {
        /// That number.
        number: u32,
    },
}

impl Refusal {
    /// The number of the refusal.
    pub fn number(self) -> u32 {
        match self {
            Refusal::OutputTooShort => 10,
            Refusal::BadCount => 11,
            Refusal::EndsTooEarly { .. } => 12,
            Refusal::UnknownKind { .. } => 13,
            Refusal::FieldOutOfRange { .. } => 14,
            Refusal::BadOperand { .. } => 15,
            Refusal::NotTheEnd => 16,
            Refusal::ClocksDiffer { .. } => 21,
            Refusal::BeyondLimits { .. } => 22,
            Refusal::NotPlain { .. } => 23,
            Refusal::TooManyTicks => 31,
            Refusal::BadLogLength => 32,
            Refusal::TraceTooShort => 33,
            Refusal::Clash { .. } => 34,
            Refusal::WindowTooShort => 35,
            Refusal::BadTimesLength => 36,
            Refusal::PageTooShort => 37,
            Refusal::NotDiffering => 38,
            Refusal::Unjoined { .. } => 39,
            Refusal::BadView { .. } => 40,
            Refusal::HasConditions => 41,
            Refusal::WrongLength => 42,
            Refusal::OffCalendar => 43,
            Refusal::Other { number } => number,
        }
    }

    /// What it means, in words.
    pub fn meaning(self) -> &'static str {
        match self {
            Refusal::OutputTooShort => "the output has fewer cells than needed",
            Refusal::BadCount => "the count is not 1 to 64, or the words are not four a flow",
            Refusal::EndsTooEarly { .. } => "the packed bits end too early",
            Refusal::UnknownKind { .. } => "the kind is above 18, or 16 where rates have to be written",
            Refusal::FieldOutOfRange { .. } => "a field is outside its range, or an unused word is not 0",
            Refusal::BadOperand { .. } => "an operand is not a lower flow, or a source is not in the table",
            Refusal::NotTheEnd => "a filling bit is not 0, or a further byte follows",
            Refusal::ClocksDiffer { .. } => "the clocks are not as the rules need",
            Refusal::BeyondLimits { .. } => "a period or phase above 65,535, or a fifth condition",
            Refusal::NotPlain { .. } => "this kind needs clocks without conditions",
            Refusal::TooManyTicks => "more than 131,071 ticks, or 4,194,303 in a long run",
            Refusal::BadLogLength => "the log has not one word per tick and input",
            Refusal::TraceTooShort => "a trace has less than one cell per tick and flow",
            Refusal::Clash { .. } => "its operands do not fit together: clash",
            Refusal::WindowTooShort => "marks or values below a window, or tallies below two words a flow",
            Refusal::BadTimesLength => "the worst times are not one a flow",
            Refusal::PageTooShort => "the page has less than a line for each flow and the total",
            Refusal::NotDiffering => "the check does not answer the plan with 21",
            Refusal::Unjoined { .. } => "no chain joins it to an input or constant that has a rate",
            Refusal::BadView { .. } => "the view period is not a multiple of both periods, or c begins after a",
            Refusal::HasConditions => "a plan with conditions or merges, whose traces the archive does not take",
            Refusal::WrongLength => "marks, values or stored words are not exactly as many as plan and ticks ask",
            Refusal::OffCalendar => "the marks are not the clocks', or an absent value is not 0",
            Refusal::Other { .. } => "a number that the interface does not name",
        }
    }
}

impl Display for Refusal {
    fn fmt(&self, f: &mut Formatter) -> fmt::Result {
        match *self {
            Refusal::EndsTooEarly { row }
            | Refusal::UnknownKind { row }
            | Refusal::FieldOutOfRange { row }
            | Refusal::BadOperand { row } => write!(f, "row {row}: ")?,
            Refusal::ClocksDiffer { flow }
            | Refusal::BeyondLimits { flow }
            | Refusal::NotPlain { flow }
            | Refusal::Unjoined { flow }
            | Refusal::BadView { flow } => write!(f, "flow {flow}: ")?,
            Refusal::Clash { tick, flow } => write!(f, "tick {tick}, flow {flow}: ")?,
            _ => {}
        }
        write!(f, "{} ({})", self.meaning(), self.number())
    }
}

impl Error for Refusal {}
