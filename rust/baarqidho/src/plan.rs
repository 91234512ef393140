//! A plan that owns its words, and the calls over it.

use crate::{check, felt_inputs, fill_rates, least_flows, least_part, listing, load_page, long_run, read, restore};
use crate::{run, store, stored_words, write};
use crate::{Clash, Clock, LeastPart, LongRun, Refusal, Row, RunError, Trace};
use crate::{CLOCK_WORDS, LISTING_MAX, MAX_FLOWS, MAX_LONG_TICKS, MAX_TICKS, PACKED_MAX, PAGE_MAX, ROW_WORDS};
use crate::{TALLY_WORDS, WINDOW_TICKS};

/// A plan in plain form: [`ROW_WORDS`] words a flow. It may be any table; the calls say what is wrong with it.
#[derive(Clone, Debug, PartialEq, Eq, Hash)]
pub struct Plan {
    words: Vec<u32>,
}

impl Plan {
    /// The plan of plain words, [`ROW_WORDS`] a flow: kind and fields.
    pub fn new(words: impl Into<Vec<u32>>) -> Self {
        Plan { words: words.into() }
    }

    /// The plan of rows, the first being flow 0.
    ///
    /// ```
    /// use baarqidho::{Plan, Row};
    ///
    /// let plan = Plan::from_rows([Row::Input { period: 10, phase: 0 }, Row::Slower { a: 0, k: 2 }]);
    /// assert_eq!(plan, Plan::new([0, 10, 0, 0, 9, 0, 2, 0]));
    /// ```
    pub fn from_rows(rows: impl IntoIterator<Item = Row>) -> Self {
        rows.into_iter().collect()
    }

    /// Reads a packed table.
    ///
    /// # Errors
    ///
    /// The refusal of [`read()`]: 11 to 16.
    pub fn from_packed(packed: &[u8]) -> Result<Self, Refusal> {
        let mut words = vec![0; ROW_WORDS * MAX_FLOWS];
        let flows = read(packed, &mut words).result()?;
        words.truncate(ROW_WORDS * flows);
        Ok(Plan { words })
    }

    /// Its words in plain form.
    pub fn words(&self) -> &[u32] {
        &self.words
    }

    /// Its rows, each as [`Row::from_words`] has it: nothing for words that are no row.
    ///
    /// ```
    /// use baarqidho::{Plan, Row};
    ///
    /// let plan = Plan::from_packed(&[0x02, 0x00, 0x05, 0x00, 0x02, 0x40, 0x08])?;
    /// let rows: Option<Vec<Row>> = plan.rows().collect();
    /// assert_eq!(rows, Some(vec![Row::Input { period: 10, phase: 0 }, Row::Slower { a: 0, k: 2 }]));
    /// # Ok::<(), baarqidho::Refusal>(())
    /// ```
    pub fn rows(&self) -> impl Iterator<Item = Option<Row>> + '_ {
        self.words.chunks_exact(ROW_WORDS).map(|words| Row::from_words(words.try_into().ok()?))
    }

    /// How many flows it has. Words that are not [`ROW_WORDS`] a flow are refused by every call.
    pub fn flows(&self) -> usize {
        self.words.len() / ROW_WORDS
    }

    /// How many of its rows are inputs, each of which has one word a tick in the log. Those of [`Row::Unrated`] count
    /// once their rates are filled in.
    pub fn inputs(&self) -> usize {
        self.rows().filter(|row| matches!(row, Some(Row::Input { .. }))).count()
    }

    /// Its packed form.
    ///
    /// # Errors
    ///
    /// The refusal of [`write()`]: 11, 13, 14 or 15.
    pub fn to_packed(&self) -> Result<Vec<u8>, Refusal> {
        let mut packed = vec![0; PACKED_MAX];
        let bytes = write(self.count(), &self.words, &mut packed).result()?;
        packed.truncate(bytes);
        Ok(packed)
    }

    /// The clock of each flow.
    ///
    /// # Errors
    ///
    /// The refusal of [`check()`], if it does not accept the plan: 11, 13, 14, 15, 21, 22, 23 or 40.
    pub fn clocks(&self) -> Result<Vec<Clock>, Refusal> {
        let mut words = [0; CLOCK_WORDS * MAX_FLOWS];
        let flows = check(self.count(), &self.words, &mut words).result()?;
        Ok(words.chunks_exact(CLOCK_WORDS).take(flows).map(Clock::new).collect())
    }

    /// Runs it over a log of one word per tick and input, tick after tick.
    ///
    /// ```
    /// use baarqidho::{Plan, Row};
    ///
    /// let rows = [Row::Input { period: 2, phase: 0 }, Row::Register { initial: 7, beat: 0, source: 0 }];
    /// let trace = Plan::from_rows(rows).run(&[10, 11, 12, 13, 14], 5)?;
    /// let kept: Vec<_> = (0..5).map(|tick| trace.value(tick, 1)).collect();
    /// assert_eq!(kept, [Some(7), None, Some(10), None, Some(12)]);
    /// # Ok::<(), baarqidho::RunError>(())
    /// ```
    ///
    /// # Errors
    ///
    /// The refusal of [`run()`], 11, 13, 14, 15, 31 or 32; or a clash, with the trace up to it.
    pub fn run(&self, log: &[u32], ticks: u32) -> Result<Trace, RunError> {
        let flows = self.flows();
        // Nothing is lent to a run that is refused for its ticks or its count.
        let fits = ticks <= MAX_TICKS && flows <= MAX_FLOWS;
        let cells = if fits { ticks as usize * flows } else { 0 };
        let (mut marks, mut values) = (vec![0; cells], vec![0; cells]);
        match run(self.count(), &self.words, log, ticks, &mut marks, &mut values).result() {
            Ok(_) => Ok(Trace::new(flows, cells, marks, values)),
            Err(Refusal::Clash { tick, flow }) => {
                let trace = Trace::new(flows, self.cells_before(tick, flow), marks, values);
                Err(Clash { tick, flow, trace }.into())
            }
            Err(refusal) => Err(refusal.into()),
        }
    }

    /// Checks it, and runs it over a log of one word per tick and input for up to [`MAX_LONG_TICKS`] ticks. All that is
    /// kept is the last [`WINDOW_TICKS`] of them, five bytes a cell, and, for each flow, how many values it had and its
    /// last one.
    ///
    /// ```
    /// use baarqidho::{Plan, Row};
    ///
    /// // A reading every tick, and those readings alone that are not zero.
    /// let plan = Plan::from_rows([Row::Input { period: 1, phase: 0 }, Row::When { a: 0, c: 0 }]);
    /// let mut log = vec![0; 2_000_000];
    /// log[1_999_990] = 7;
    /// let run = plan.long_run(&log, 2_000_000)?;
    /// assert_eq!((run.count(0), run.count(1)), (2_000_000, 1));
    /// assert_eq!((run.last(0), run.last(1)), (Some(0), Some(7)));
    /// assert_eq!((run.value(1_999_990, 1), run.value(1_999_991, 1)), (Some(7), None));
    /// # Ok::<(), baarqidho::Refusal>(())
    /// ```
    ///
    /// # Errors
    ///
    /// The refusal of [`long_run()`]: 11, 13, 14, 15, 21, 22, 23, 40, 31 or 32.
    pub fn long_run(&self, log: &[u32], ticks: u32) -> Result<LongRun, Refusal> {
        // Nothing is lent to a run that is refused for its ticks or its count.
        let fits = ticks <= MAX_LONG_TICKS && self.flows() <= MAX_FLOWS;
        let flows = if fits { self.flows() } else { 0 };
        let (mut marks, mut values) = (vec![0; WINDOW_TICKS * flows], vec![0; WINDOW_TICKS * flows]);
        let mut tallies = vec![0; TALLY_WORDS * flows];
        let answer = long_run(self.count(), &self.words, log, ticks, &mut marks, &mut values, &mut tallies);
        Ok(LongRun::new(answer.result()?, marks, values, tallies))
    }

    /// Checks it, and prints what each flow costs, from one worst time a flow in thousandths of a tick. A line has
    /// flow, period, phase, how many conditions, and load: 1000 times the worst time divided by the period, to the
    /// nearest whole, a half going to the even neighbour. Lines stand by period, equal periods by phase and only then
    /// by flow; the last one has the sum of the loads as they are printed.
    ///
    /// ```
    /// use baarqidho::{Plan, Row};
    ///
    /// // Readings every 4 ticks, from tick 2 and from tick 0 on, those of the second that are not zero, and a command.
    /// let page = Plan::from_rows([
    ///     Row::Input { period: 4, phase: 2 },
    ///     Row::Input { period: 4, phase: 0 },
    ///     Row::When { a: 1, c: 1 },
    ///     Row::Input { period: 1, phase: 8 },
    /// ])
    /// .load_page(&[1, 200, 65_535, 3])?;
    /// let lines = [
    ///     " 3     1     8 0     3000\n",
    ///     " 1     4     0 0    50000\n",
    ///     " 2     4     0 1 16383750\n",
    ///     " 0     4     2 0      250\n",
    ///     "total            16437000\n",
    /// ];
    /// assert_eq!(page, lines.concat());
    /// # Ok::<(), baarqidho::Refusal>(())
    /// ```
    ///
    /// # Errors
    ///
    /// The refusal of [`load_page()`]: 11, 13, 14, 15, 21, 22, 23, 40 or 36.
    pub fn load_page(&self, times: &[u16]) -> Result<String, Refusal> {
        let mut page = vec![0; PAGE_MAX];
        let bytes = load_page(self.count(), &self.words, times, &mut page).result()?;
        Ok(text(page, bytes))
    }

    /// The least part of it that the check still answers with 21. A part is a set of its flows that has, with a flow,
    /// all its operands, beats and sources; the flows are renumbered in order. The least has the fewest flows; among
    /// equals it is the one drawn from the lowest single flow that leads to all the rest of its part.
    ///
    /// ```
    /// use baarqidho::{Plan, Refusal, Row};
    ///
    /// // The check names flow 2, which needs flows 0 and 1; flow 3 clashes with flow 0 alone.
    /// let plan = Plan::from_rows([
    ///     Row::Input { period: 6, phase: 0 },
    ///     Row::Less { a: 0, b: 0 },
    ///     Row::Merge { c: 0, a: 0, b: 1 },
    ///     Row::Faster { a: 0, k: 3, gap: 3 },
    /// ]);
    /// assert_eq!(plan.clocks(), Err(Refusal::ClocksDiffer { flow: 2 }));
    /// let least = plan.least_part()?;
    /// assert_eq!(least.flows(), [0, 3]);
    /// assert_eq!(least.plan().words(), [0, 6, 0, 0, 8, 0, 3, 3]);
    /// # Ok::<(), Refusal>(())
    /// ```
    ///
    /// # Errors
    ///
    /// The refusal of [`least_part()`]: 11, 13, 14, 15, or 38 where the check answers the plan with anything but 21.
    pub fn least_part(&self) -> Result<LeastPart, Refusal> {
        let (mut words, mut flows) = (vec![0; ROW_WORDS * MAX_FLOWS], vec![0; MAX_FLOWS]);
        let count = least_part(self.count(), &self.words, &mut words).result()?;
        words.truncate(ROW_WORDS * count);
        let count = least_flows(self.count(), &self.words, &mut flows).result()?;
        flows.truncate(count);
        Ok(LeastPart::new(self, words, flows))
    }

    /// Fills in period and phase of each [`Row::Unrated`]: the plan comes back with a [`Row::Input`] in its place, and
    /// the check accepts it. Two flows are joined when they stand in one row, a result with its operands, beat and
    /// source; [`Row::WhenSeen`] and [`Row::WhenNotSeen`] join their result with `a` only. Where a chain joins each
    /// flow to an input or constant that has a rate, the check accepts at most one filling with periods 1 to 4095 and
    /// phases 0 to 4095.
    ///
    /// ```
    /// use baarqidho::{Plan, Refusal, Row};
    ///
    /// // A command is given every 40 ticks from tick 10 on, and compared with every fourth reading of a sensor.
    /// let command = Row::Input { period: 40, phase: 10 };
    /// let plan = Plan::from_rows([command, Row::Unrated, Row::Slower { a: 1, k: 4 }, Row::Less { a: 2, b: 0 }]);
    /// let filled = plan.fill_rates()?;
    /// assert_eq!(filled.rows().nth(1), Some(Some(Row::Input { period: 10, phase: 10 })));
    /// assert_eq!(filled.clocks()?[3].to_string(), "40 10 -");
    ///
    /// // With every third reading the period would be 40 / 3; and without the comparison nothing tells it.
    /// let plan = Plan::from_rows([command, Row::Unrated, Row::Slower { a: 1, k: 3 }, Row::Less { a: 2, b: 0 }]);
    /// assert_eq!(plan.fill_rates(), Err(Refusal::ClocksDiffer { flow: 0 }));
    /// let plan = Plan::from_rows([command, Row::Unrated, Row::Slower { a: 1, k: 4 }]);
    /// assert_eq!(plan.fill_rates(), Err(Refusal::Unjoined { flow: 1 }));
    /// # Ok::<(), Refusal>(())
    /// ```
    ///
    /// # Errors
    ///
    /// The refusal of [`fill_rates()`]: 11, 13, 14, 15, 39, or 21 with flow 0 where the check accepts no filling.
    pub fn fill_rates(&self) -> Result<Plan, Refusal> {
        let mut words = vec![0; ROW_WORDS * MAX_FLOWS];
        let flows = fill_rates(self.count(), &self.words, &mut words).result()?;
        words.truncate(ROW_WORDS * flows);
        Ok(Plan { words })
    }

    /// How many words a trace of some ticks has in the archive: one for each value present.
    ///
    /// ```
    /// use baarqidho::{Plan, Row};
    ///
    /// // A reading every 10 ticks from tick 5 on, and every sixth of them.
    /// let plan = Plan::from_rows([Row::Input { period: 10, phase: 5 }, Row::Slower { a: 0, k: 6 }]);
    /// assert_eq!([0, 5, 6, 65, 66].map(|ticks| plan.stored_words(ticks)), [0, 0, 2, 7, 9].map(Ok));
    /// ```
    ///
    /// # Errors
    ///
    /// The refusal of [`stored_words()`]: 11, 13, 14, 15, 21, 22, 23, 40, 31 or 41.
    pub fn stored_words(&self, ticks: u32) -> Result<usize, Refusal> {
        stored_words(self.count(), &self.words, ticks).result()
    }

    /// Stores a trace: flow after flow the values present, each flow's in time order. It is for plans that the check
    /// accepts and that have neither conditions nor merges; every whole trace that [`Plan::run`] gives of such a plan
    /// can be stored.
    ///
    /// ```
    /// use baarqidho::{Plan, Refusal, Row, RunError};
    ///
    /// // A reading every 10 ticks from tick 5 on, and every third of them.
    /// let (reading, third) = (Row::Input { period: 10, phase: 5 }, Row::Slower { a: 0, k: 3 });
    /// let plan = Plan::from_rows([reading, third]);
    /// let log: Vec<u32> = (1_000..1_050).collect();
    /// let trace = plan.run(&log, 50)?;
    /// let stored = plan.store(&trace)?;
    /// assert_eq!(stored, [1_005, 1_015, 1_025, 1_035, 1_045, 1_005, 1_035]);
    /// assert_eq!(plan.restore(&stored, 50)?, trace);
    ///
    /// // The clocks of another plan are not those of the trace.
    /// let other = Plan::from_rows([reading, Row::Slower { a: 0, k: 2 }]);
    /// assert_eq!(other.store(&trace), Err(Refusal::OffCalendar));
    /// # Ok::<(), RunError>(())
    /// ```
    ///
    /// # Errors
    ///
    /// The refusal of [`store()`]: those of [`Plan::stored_words`]; 42 for a trace of another number of flows, or one
    /// that ends within a tick, at a clash; and 43 for one that is not on the plan's clocks.
    pub fn store(&self, trace: &Trace) -> Result<Vec<u32>, Refusal> {
        let ticks = u32::try_from(trace.ticks()).unwrap_or(u32::MAX);
        let mut stored = vec![0; self.stored_words(ticks)?];
        store(self.count(), &self.words, ticks, trace.marks(), trace.values(), &mut stored).result()?;
        Ok(stored)
    }

    /// Gives a stored trace of some ticks back. Any words will do, as many as [`Plan::stored_words`] counts: they are
    /// the values at the ticks of the clocks.
    ///
    /// ```
    /// use baarqidho::{Plan, Refusal, Row};
    ///
    /// let plan = Plan::from_rows([Row::Input { period: 2, phase: 1 }, Row::Later { a: 0, d: 3 }]);
    /// let trace = plan.restore(&[70, 80, 90], 5)?;
    /// let values = |flow| (0..5).map(|tick| trace.value(tick, flow)).collect::<Vec<_>>();
    /// assert_eq!(values(0), [None, Some(70), None, Some(80), None]);
    /// assert_eq!(values(1), [None, None, None, None, Some(90)]);
    /// assert_eq!(plan.store(&trace)?, [70, 80, 90]);
    /// assert_eq!(plan.restore(&[70, 80], 5), Err(Refusal::WrongLength));
    /// # Ok::<(), Refusal>(())
    /// ```
    ///
    /// # Errors
    ///
    /// The refusal of [`restore()`]: those of [`Plan::stored_words`], and 42 for another number of words.
    pub fn restore(&self, stored: &[u32], ticks: u32) -> Result<Trace, Refusal> {
        // Nothing is lent to a call that is refused, for its ticks and its count or for its words.
        let fits = self.stored_words(ticks)? == stored.len();
        let cells = if fits { ticks as usize * self.flows() } else { 0 };
        let (mut marks, mut values) = (vec![0; cells], vec![0; cells]);
        restore(self.count(), &self.words, ticks, stored, &mut marks, &mut values).result()?;
        Ok(Trace::new(self.flows(), cells, marks, values))
    }

    /// The inputs that each flow feels, ascending: those from which it can be reached, through operands, beats, sources
    /// and conditions, an input from itself too. Two runs of more than t ticks whose logs agree on these inputs, at
    /// their own ticks up to tick t, give the flow the same values up to tick t. So when a sensor is swapped, the flows
    /// that do not feel it need not be tested again.
    ///
    /// ```
    /// use baarqidho::{Plan, Row};
    ///
    /// // A torque and an angle, the sum of all angles, which a register feeds back to it, whether the torque is below
    /// // that, and every sixth torque.
    /// let plan = Plan::from_rows([
    ///     Row::Input { period: 10, phase: 0 },
    ///     Row::Input { period: 10, phase: 0 },
    ///     Row::Register { initial: 0, beat: 1, source: 3 },
    ///     Row::Add { a: 1, b: 2 },
    ///     Row::Less { a: 0, b: 3 },
    ///     Row::Slower { a: 0, k: 6 },
    /// ]);
    /// let felt = plan.felt_inputs()?;
    /// assert_eq!(felt, [vec![0], vec![1], vec![1], vec![1], vec![0, 1], vec![0]]);
    ///
    /// // Another sensor for the angle, input 1: what is to be tested again?
    /// let again: Vec<usize> = (0..plan.flows()).filter(|&flow| felt[flow].contains(&1)).collect();
    /// assert_eq!(again, [1, 2, 3, 4]);
    /// # Ok::<(), baarqidho::Refusal>(())
    /// ```
    ///
    /// # Errors
    ///
    /// The refusal of [`felt_inputs()`]: 11, 13, 14, 15, 21, 22, 23 or 40.
    pub fn felt_inputs(&self) -> Result<Vec<Vec<u32>>, Refusal> {
        let mut sets = [0; MAX_FLOWS];
        let flows = felt_inputs(self.count(), &self.words, &mut sets).result()?;
        let members = |&set: &u64| (0..MAX_FLOWS as u32).filter(|flow| set >> flow & 1 == 1).collect();
        Ok(sets[..flows].iter().map(members).collect())
    }

    /// How many cells a clash has before it. That of a register is found after all flows of its tick.
    fn cells_before(&self, tick: u32, flow: u32) -> usize {
        let (tick, flow) = (tick as usize, flow as usize);
        let of_tick = match self.rows().nth(flow) {
            Some(Some(Row::Register { .. })) => self.flows(),
            _ => flow,
        };
        tick * self.flows() + of_tick
    }

    /// The count of flows for the library.
    fn count(&self) -> u32 {
        u32::try_from(self.flows()).unwrap_or(u32::MAX)
    }
}

impl FromIterator<Row> for Plan {
    fn from_iter<T: IntoIterator<Item = Row>>(rows: T) -> Self {
        Plan { words: rows.into_iter().flat_map(Row::words).collect() }
    }
}

/// The listing of a packed table: its count of flows, then a line for each clock; or the one line `no NUMBER FLOW` of
/// its refusal.
///
/// ```
/// assert_eq!(baarqidho::list(&[0x02, 0x00, 0x05, 0x00, 0x02, 0x40, 0x08]), "ok 2\n0 10 0 -\n1 20 0 -\n");
/// assert_eq!(baarqidho::list(&[]), "no 12 0\n");
/// ```
pub fn list(packed: &[u8]) -> String {
    let mut lines = vec![0; LISTING_MAX];
    let answer = listing(packed, &mut lines);
    text(lines, answer.count as usize)
}

/// The first bytes, so many, as text.
fn text(mut bytes: Vec<u8>, length: usize) -> String {
    bytes.truncate(length);
    bytes.into_iter().map(char::from).collect()
}
