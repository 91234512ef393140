//! Storing and restoring: the words counted flow by flow, the trace judged tick by tick, and its values taken or put in
//! blocks of ticks, flow by flow in a block. A cell's place carried beside its tick was the quickest of the ways tried.

use crate::check::Clock;
use crate::plan::{storable, test_lengths};
use crate::{Answer, MOST_FLOWS};

/// The ticks of a block.
const BLOCK: u32 = 64;

/// Tells how many words a trace of some ticks has in store. The count of the answer is that of the words.
pub fn stored_words(plan_count: u32, words: &[u32], ticks: u32) -> Answer {
    match storable(plan_count, words, ticks) {
        Ok((clocks, flows)) => Answer::success(Flows::new(&clocks[..flows], ticks).1),
        Err(refusal) => refusal,
    }
}

/// Stores a trace of some ticks. The count of the answer is that of the words.
pub fn store(plan_count: u32, words: &[u32], ticks: u32, marks: &[u8], values: &[u32], stored: &mut [u32]) -> Answer {
    let mut flows = match prepare(plan_count, words, ticks, marks, values, stored) {
        Ok(flows) => flows,
        Err(refusal) => return refusal,
    };
    if !flows.fit(ticks, marks, values) {
        return Answer::number(43);
    }
    for (_, finish) in blocks(ticks) {
        flows.visit(finish, |place, w| stored[w] = values[place]);
    }
    Answer::success(stored.len())
}

/// Gives a trace of some ticks back. The count of the answer is that of the cells.
pub fn restore(
    plan_count: u32,
    words: &[u32],
    ticks: u32,
    stored: &[u32],
    marks: &mut [u8],
    values: &mut [u32],
) -> Answer {
    let mut flows = match prepare(plan_count, words, ticks, marks, values, stored) {
        Ok(flows) => flows,
        Err(refusal) => return refusal,
    };
    for (begin, finish) in blocks(ticks) {
        let [first, last] = [begin, finish].map(|tick| tick as usize * flows.count);
        marks[first..last].fill(0);
        values[first..last].fill(0);
        flows.visit(finish, |place, w| {
            marks[place] = 1;
            values[place] = stored[w];
        });
    }
    Answer::success(marks.len())
}

/// The blocks of some ticks: the first tick of each, and the first one behind it.
fn blocks(ticks: u32) -> impl Iterator<Item = (u32, u32)> {
    (0..ticks).step_by(BLOCK as usize).map(move |begin| (begin, ticks.min(begin + BLOCK)))
}

/// The flows of a trace whose buffers are as long as they have to be: all refusals but 43.
fn prepare(
    plan_count: u32,
    words: &[u32],
    ticks: u32,
    marks: &[u8],
    values: &[u32],
    stored: &[u32],
) -> Result<Flows, Answer> {
    let (clocks, count) = storable(plan_count, words, ticks)?;
    let (flows, size) = Flows::new(&clocks[..count], ticks);
    test_lengths(ticks as usize * count, size, marks, values, stored)?;
    Ok(flows)
}

/// How many ticks below the last are phase plus whole periods.
fn points(clock: &Clock, ticks: u32) -> u32 {
    if ticks <= clock.phase {
        0
    } else {
        (ticks - clock.phase - 1) / clock.period + 1
    }
}

/// How many flows there are, and for each its period, its next tick and the place of its next word.
struct Flows {
    count: usize,
    periods: [u32; MOST_FLOWS],
    next: [u32; MOST_FLOWS],
    places: [usize; MOST_FLOWS],
}

impl Flows {
    /// Flows with these clocks at the start, and how many words they have in so many ticks.
    fn new(clocks: &[Clock], ticks: u32) -> (Self, usize) {
        let (mut periods, mut next, mut places) = ([0; MOST_FLOWS], [0; MOST_FLOWS], [0; MOST_FLOWS]);
        let mut size = 0;
        for (flow, clock) in clocks.iter().enumerate() {
            (periods[flow], next[flow], places[flow]) = (clock.period, clock.phase, size);
            size += points(clock, ticks) as usize;
        }
        (Flows { count: clocks.len(), periods, next, places }, size)
    }

    /// Whether the marks are the clocks' and absent values 0: tick by tick, the flows of a tick together.
    fn fit(&self, ticks: u32, marks: &[u8], values: &[u32]) -> bool {
        let mut next = self.next;
        let (next, periods) = (&mut next[..self.count], &self.periods[..self.count]);
        let rows = marks.chunks_exact(self.count).zip(values.chunks_exact(self.count));
        for (t, (marks, values)) in (0..ticks).zip(rows) {
            let mut wrong = 0;
            for (((next, &period), &mark), &value) in next.iter_mut().zip(periods).zip(marks).zip(values) {
                let due = u32::from(*next == t);
                wrong += u32::from(u32::from(mark) != due) + (1 - due) * u32::from(value != 0);
                *next += due * period;
            }
            if wrong != 0 {
                return false;
            }
        }
        true
    }

    /// Visits the values present from where each flow is up to a tick, flow by flow: each one's place, and its word's.
    #[inline]
    fn visit(&mut self, finish: u32, mut each: impl FnMut(usize, usize)) {
        for flow in 0..self.count {
            let (period, mut t, mut w) = (self.periods[flow], self.next[flow], self.places[flow]);
            let mut place = t as usize * self.count + flow;
            while t < finish {
                each(place, w);
                w += 1;
                t += period;
                place += period as usize * self.count;
            }
            (self.next[flow], self.places[flow]) = (t, w);
        }
    }
}
