//! Calls with patterned buffers, and the comparison of everything they leave.

use std::fmt::Debug;

use crate::implementation::{Implementation, Parts, REFERENCE};
use crate::{Plan, CLOCK_WORDS, WINDOW};

/// The cells behind a lent buffer that no call may touch.
const GUARD: usize = 8;

/// All that a call left: its answer, and every cell of its buffers with the guard behind them.
#[derive(Clone, Debug, PartialEq, Eq)]
pub struct Outcome {
    /// Number, flow, tick and count.
    pub parts: Parts,
    /// The buffer of bytes: packed, marks, text or page.
    pub bytes: Vec<u8>,
    /// The buffer of words: plain words, clocks, values, a least part or its flows, a filled plan, stored words.
    pub words: Vec<u32>,
    /// The tallies of a long run.
    pub tallies: Vec<u32>,
    /// The sets of inputs that flows feel.
    pub sets: Vec<u64>,
}

impl Outcome {
    /// Buffers of these lengths as they are before a call.
    fn before(lengths: Lengths) -> Self {
        Outcome {
            parts: Parts::default(),
            bytes: pattern_bytes(lengths.bytes + GUARD),
            words: pattern_words(lengths.words + GUARD),
            tallies: pattern_words(lengths.tallies + GUARD),
            sets: pattern_sets(lengths.sets + GUARD),
        }
    }

    /// Whether every cell is as it was before the call.
    pub fn is_untouched(&self) -> bool {
        self.bytes == pattern_bytes(self.bytes.len())
            && self.words == pattern_words(self.words.len())
            && self.tallies == pattern_words(self.tallies.len())
            && self.sets == pattern_sets(self.sets.len())
    }
}

/// The lengths of the buffers that a call is lent.
#[derive(Clone, Copy, Debug, Default, PartialEq, Eq)]
pub struct Lengths {
    /// How many bytes.
    pub bytes: usize,
    /// How many words.
    pub words: usize,
    /// How many words for tallies.
    pub tallies: usize,
    /// How many sets.
    pub sets: usize,
}

/// The buffers that a call is lent.
struct Lent<'a> {
    bytes: &'a mut [u8],
    words: &'a mut [u32],
    tallies: &'a mut [u32],
    sets: &'a mut [u64],
}

/// The byte that a place has before a call: neither 0 nor 1, so that no mark can hide in it.
pub fn pattern_byte(place: usize) -> u8 {
    0x80 | (place.wrapping_mul(37) >> 1) as u8
}

/// The word that a place has before a call.
pub fn pattern_word(place: usize) -> u32 {
    0xA5C3_0000 | (place as u32).wrapping_mul(0x9E37) & 0xFFFF
}

/// The set that a place has before a call, in both halves a word that the other has not.
fn pattern_set(place: usize) -> u64 {
    u64::from(pattern_word(place)) << 32 | u64::from(!pattern_word(place))
}

fn pattern_bytes(len: usize) -> Vec<u8> {
    (0..len).map(pattern_byte).collect()
}

fn pattern_words(len: usize) -> Vec<u32> {
    (0..len).map(pattern_word).collect()
}

fn pattern_sets(len: usize) -> Vec<u64> {
    (0..len).map(pattern_set).collect()
}

/// Makes the same call with each implementation, the first being the measure of the others, and compares all that
/// they left.
fn compare(
    implementations: &[&Implementation],
    lengths: Lengths,
    context: impl Fn() -> String,
    call: impl Fn(&Implementation, Lent) -> Parts,
) -> Outcome {
    let outcome = |implementation: &Implementation| {
        let mut outcome = Outcome::before(lengths);
        let lent = Lent {
            bytes: &mut outcome.bytes[..lengths.bytes],
            words: &mut outcome.words[..lengths.words],
            tallies: &mut outcome.tallies[..lengths.tallies],
            sets: &mut outcome.sets[..lengths.sets],
        };
        outcome.parts = call(implementation, lent);
        outcome
    };
    let expected = outcome(implementations[0]);
    for implementation in &implementations[1..] {
        let found = outcome(implementation);
        if found != expected {
            let names = format!("{} against {}", implementation.name, implementations[0].name);
            panic!("{names}: {}; {}", differences(&found, &expected), context(),);
        }
    }
    expected
}

/// The parts of two outcomes, and the first cells in which they differ.
fn differences(found: &Outcome, expected: &Outcome) -> String {
    format!(
        "(number, flow, tick, count) {:?}, expected {:?}; first other byte {:?}, word {:?}, tally {:?} and set {:?}",
        found.parts,
        expected.parts,
        first_difference(&found.bytes, &expected.bytes),
        first_difference(&found.words, &expected.words),
        first_difference(&found.tallies, &expected.tallies),
        first_difference(&found.sets, &expected.sets),
    )
}

/// The place at which two buffers of one length differ first, and what they have there.
fn first_difference<T: PartialEq + Copy + Debug>(found: &[T], expected: &[T]) -> Option<(usize, T, T)> {
    let place = (0..found.len()).find(|&place| found[place] != expected[place])?;
    Some((place, found[place], expected[place]))
}

/// Buffers of so many bytes and words.
fn lengths(bytes: usize, words: usize) -> Lengths {
    Lengths { bytes, words, ..Lengths::default() }
}

/// Reads packed bytes into a buffer of that many words.
pub fn read(of: &[&Implementation], packed: &[u8], words_len: usize) -> Outcome {
    let context = || format!("read of {packed:?} into {words_len} words");
    compare(of, lengths(0, words_len), context, |of, lent| (of.read)(packed, lent.words))
}

/// Writes a plan into a buffer of that many bytes.
pub fn write(of: &[&Implementation], plan: &Plan, packed_len: usize) -> Outcome {
    let context = || format!("write of {plan:?} into {packed_len} bytes");
    compare(of, lengths(packed_len, 0), context, |of, lent| (of.write)(plan.count, &plan.words, lent.bytes))
}

/// Checks a plan with a buffer of that many words.
pub fn check(of: &[&Implementation], plan: &Plan, clocks_len: usize) -> Outcome {
    let context = || format!("check of {plan:?} into {clocks_len} words");
    compare(of, lengths(0, clocks_len), context, |of, lent| (of.check)(plan.count, &plan.words, lent.words))
}

/// Lists packed bytes into a buffer of that many bytes.
pub fn listing(of: &[&Implementation], packed: &[u8], text_len: usize) -> Outcome {
    let context = || format!("listing of {packed:?} into {text_len} bytes");
    compare(of, lengths(text_len, 0), context, |of, lent| (of.listing)(packed, lent.bytes))
}

/// The bytes that the load page of so many flows has: 26 for each of them, and for the total.
pub fn page_bytes(flows: usize) -> usize {
    26 * (flows + 1)
}

/// Writes the load page of a plan into a buffer of that many bytes.
pub fn load_page(of: &[&Implementation], plan: &Plan, times: &[u16], page_len: usize) -> Outcome {
    let context = || format!("load page of {plan:?}, times {times:?}, into {page_len} bytes");
    compare(of, lengths(page_len, 0), context, |of, lent| (of.load_page)(plan.count, &plan.words, times, lent.bytes))
}

/// Writes the load page of a plan into a buffer of exactly the bytes needed.
pub fn load_page_exactly(of: &[&Implementation], plan: &Plan, times: &[u16]) -> Outcome {
    load_page(of, plan, times, page_bytes(plan.words.len() / 4))
}

/// Those of some implementations that answer for the least part of a plan. The paper word by word tries all sets of
/// flows, and is left out where these are too many and the plan has a least part.
fn trying<'a>(of: &[&'a Implementation], plan: &Plan) -> Vec<&'a Implementation> {
    let is_long = plan.words.len() > 4 * reference::LEAST_MAX;
    let are_too_many = is_long && (REFERENCE.check)(plan.count, &plan.words, &mut [0; CLOCK_WORDS * 64]).0 == 21;
    of.iter().copied().filter(|of| !(are_too_many && of.name == REFERENCE.name)).collect()
}

/// Gives the least part of a plan in a buffer of that many words.
pub fn least_part(of: &[&Implementation], plan: &Plan, part_len: usize) -> Outcome {
    let context = || format!("least part of {plan:?} into {part_len} words");
    compare(&trying(of, plan), lengths(0, part_len), context, |of, lent| {
        (of.least_part)(plan.count, &plan.words, lent.words)
    })
}

/// Gives the flows of the least part of a plan in a buffer of that many words.
pub fn least_flows(of: &[&Implementation], plan: &Plan, flows_len: usize) -> Outcome {
    let context = || format!("flows of the least part of {plan:?} into {flows_len} words");
    compare(&trying(of, plan), lengths(0, flows_len), context, |of, lent| {
        (of.least_flows)(plan.count, &plan.words, lent.words)
    })
}

/// Fills in the rates of a plan in a buffer of that many words.
pub fn fill_rates(of: &[&Implementation], plan: &Plan, filled_len: usize) -> Outcome {
    let context = || format!("rates of {plan:?} into {filled_len} words");
    compare(of, lengths(0, filled_len), context, |of, lent| (of.fill_rates)(plan.count, &plan.words, lent.words))
}

/// Counts the words that a trace of some ticks has in the archive.
pub fn stored_words(of: &[&Implementation], plan: &Plan, ticks: u32) -> Outcome {
    let context = || format!("stored words of {plan:?}, {ticks} ticks");
    compare(of, lengths(0, 0), context, |of, _| (of.stored_words)(plan.count, &plan.words, ticks))
}

/// Stores a trace of some ticks, its marks and its values, in a buffer of that many words.
pub fn store(
    of: &[&Implementation],
    plan: &Plan,
    ticks: u32,
    (marks, values): (&[u8], &[u32]),
    stored_len: usize,
) -> Outcome {
    let trace = || format!("{ticks} ticks, trace of {} and {}", marks.len(), values.len());
    let context = || format!("store of {plan:?}, {}, into {stored_len} words", trace());
    compare(of, lengths(0, stored_len), context, |of, lent| {
        (of.store)(plan.count, &plan.words, ticks, marks, values, lent.words)
    })
}

/// Restores a trace of some ticks in buffers of so many marks and values.
pub fn restore(
    of: &[&Implementation],
    plan: &Plan,
    ticks: u32,
    stored: &[u32],
    (marks, values): (usize, usize),
) -> Outcome {
    let context = || format!("restore of {plan:?}, {ticks} ticks, {} words into {marks} and {values}", stored.len());
    compare(of, lengths(marks, values), context, |of, lent| {
        (of.restore)(plan.count, &plan.words, ticks, stored, lent.bytes, lent.words)
    })
}

/// Gives the inputs that the flows of a plan feel in a buffer of that many sets.
pub fn felt_inputs(of: &[&Implementation], plan: &Plan, sets_len: usize) -> Outcome {
    let context = || format!("felt inputs of {plan:?} into {sets_len} sets");
    let lengths = Lengths { sets: sets_len, ..Lengths::default() };
    compare(of, lengths, context, |of, lent| (of.felt_inputs)(plan.count, &plan.words, lent.sets))
}

/// A run in words, for messages.
fn of_run(plan: &Plan, log: &[u32], ticks: u32) -> String {
    let shown = &log[..log.len().min(200)];
    format!("{plan:?}, {ticks} ticks, log of {} words {shown:?}", log.len())
}

/// Runs a plan over a log with buffers of so many marks and values.
pub fn run(of: &[&Implementation], plan: &Plan, log: &[u32], ticks: u32, (marks, values): (usize, usize)) -> Outcome {
    let context = || format!("run of {}, traces of {marks} and {values}", of_run(plan, log, ticks));
    compare(of, lengths(marks, values), context, |of, lent| {
        (of.run)(plan.count, &plan.words, log, ticks, lent.bytes, lent.words)
    })
}

/// Runs a plan over a log with traces of exactly the cells needed.
pub fn run_exactly(of: &[&Implementation], plan: &Plan, log: &[u32], ticks: u32) -> Outcome {
    let cells = ticks as usize * plan.words.len() / 4;
    run(of, plan, log, ticks, (cells, cells))
}

/// The buffers that a long run of so many flows needs: marks, values and tallies.
pub fn window(flows: usize) -> Lengths {
    Lengths { bytes: WINDOW * flows, words: WINDOW * flows, tallies: 2 * flows, sets: 0 }
}

/// Makes a long run of a plan over a log with buffers of these lengths.
pub fn long_run(of: &[&Implementation], plan: &Plan, log: &[u32], ticks: u32, lengths: Lengths) -> Outcome {
    let context = || format!("long run of {}, {lengths:?}", of_run(plan, log, ticks));
    compare(of, lengths, context, |of, lent| {
        (of.long_run)(plan.count, &plan.words, log, ticks, lent.bytes, lent.words, lent.tallies)
    })
}

/// Makes a long run of a plan over a log with buffers of exactly the cells needed.
pub fn long_run_exactly(of: &[&Implementation], plan: &Plan, log: &[u32], ticks: u32) -> Outcome {
    long_run(of, plan, log, ticks, window(plan.words.len() / 4))
}

/// Whether a call wrote exactly these words, and left the pattern everywhere behind them.
pub fn words_are(outcome: &Outcome, words: &[u32]) -> bool {
    outcome.words[..words.len()] == *words
        && (words.len()..outcome.words.len()).all(|place| outcome.words[place] == pattern_word(place))
}

/// Whether a call wrote exactly these sets, and left the pattern everywhere behind them.
pub fn sets_are(outcome: &Outcome, sets: &[u64]) -> bool {
    outcome.sets[..sets.len()] == *sets
        && (sets.len()..outcome.sets.len()).all(|place| outcome.sets[place] == pattern_set(place))
}

/// Whether a trace has exactly the first `cells` cells written, each a mark 0 or 1 and value 0 where absent, and the
/// pattern everywhere else.
pub fn written_up_to(outcome: &Outcome, cells: usize) -> bool {
    let marks = outcome.bytes[..cells].iter().zip(&outcome.words[..cells]);
    marks.into_iter().all(|(&mark, &value)| mark == 1 || mark == 0 && value == 0)
        && (cells..outcome.bytes.len()).all(|place| outcome.bytes[place] == pattern_byte(place))
        && (cells..outcome.words.len()).all(|place| outcome.words[place] == pattern_word(place))
}

/// A long run left in buffers of these lengths what it has to keep of a trace of all its ticks: tick t at place t
/// modulo 131,072, and for each flow how many values it had and its last one.
pub fn keeps(long: &Outcome, lengths: Lengths, trace: &Outcome, flows: usize, ticks: usize) {
    let mut expected = Outcome { parts: trace.parts, ..Outcome::before(lengths) };
    expected.tallies[..2 * flows].fill(0);
    for tick in 0..ticks {
        for flow in 0..flows {
            let (from, to) = (tick * flows + flow, tick % WINDOW * flows + flow);
            let (mark, value) = (trace.bytes[from], trace.words[from]);
            (expected.bytes[to], expected.words[to]) = (mark, value);
            if mark == 1 {
                expected.tallies[2 * flow] += 1;
                expected.tallies[2 * flow + 1] = value;
            }
        }
    }
    assert!(*long == expected, "long run against run: {}", differences(long, &expected));
}
