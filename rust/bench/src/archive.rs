//! Traces in the archive: storing and restoring by the library, the same algorithm in safe Rust, and the quick one.

use std::hint::black_box;

use crate::measure::{self, by_turns};
use crate::plans::Plan;
use crate::MOST_TICKS;

/// A trace, and the words that it has in store. Storing reads marks and values and writes the words, restoring the
/// other way round.
#[derive(Clone)]
pub struct Lent {
    marks: Vec<u8>,
    values: Vec<u32>,
    stored: Vec<u32>,
}

impl Lent {
    /// The trace of a run of some ticks, and room for its words.
    fn new(plan: &Plan, ticks: usize) -> Self {
        let (cells, log) = (ticks * plan.flows(), plan.log(ticks));
        let mut lent =
            Lent { marks: vec![9; cells], values: vec![9; cells], stored: vec![9; stored_words(plan, ticks)] };
        let (count, words) = (plan.flows() as u32, &plan.words[..]);
        let answer = baarqidho::run(count, words, &log, ticks as u32, &mut lent.marks, &mut lent.values);
        assert_eq!(answer.number, 0, "{}", plan.name);
        lent
    }
}

/// How many words a trace of some ticks has in store.
fn stored_words(plan: &Plan, ticks: usize) -> usize {
    baarqidho::stored_words(plan.flows() as u32, &plan.words, ticks as u32).count as usize
}

/// A call of count, words and ticks; gives the number of its answer.
type Call = fn(u32, &[u32], u32, &mut Lent) -> u32;

/// An implementation by its name.
pub struct Archive {
    name: &'static str,
    store: Call,
    restore: Call,
}

macro_rules! archive {
    ($name:literal, $($module:ident)::+) => {
        Archive {
            name: $name,
            store: |count, words, ticks, Lent { marks, values, stored }| {
                $($module)::+::store(count, words, ticks, marks, values, stored).number
            },
            restore: |count, words, ticks, Lent { marks, values, stored }| {
                $($module)::+::restore(count, words, ticks, stored, marks, values).number
            },
        }
    };
}

/// All; the first is measured against the others.
const ARCHIVES: [Archive; 3] =
    [archive!("library", baarqidho), archive!("mirror", peer::mirror), archive!("quick", peer)];

/// One of the two calls of an implementation.
pub type Which = fn(&Archive) -> Call;

/// The calls by their names.
pub const CALLS: [(&str, Which); 2] = [("store", |archive| archive.store), ("restore", |archive| archive.restore)];

/// The names of all implementations.
pub fn names() -> [&'static str; 3] {
    ARCHIVES.each_ref().map(|archive| archive.name)
}

/// The heading of a table of them.
pub fn heading(title: &str) {
    measure::heading(title, names());
}

/// Measures a call on the trace of some ticks, prints its line, and gives the library's time a cell.
pub fn archive(which: Which, plan: &Plan, ticks: usize) -> f64 {
    let (count, words, mut lent) = (plan.flows() as u32, &plan.words[..], Lent::new(plan, ticks));

    // Each once into buffers of its own: all store the same words, and restore the trace of the run.
    let stored = ARCHIVES.each_ref().map(|archive| {
        let mut other = lent.clone();
        let stored = (archive.store)(count, words, ticks as u32, &mut other);
        other.marks.fill(9);
        other.values.fill(9);
        let restored = (archive.restore)(count, words, ticks as u32, &mut other);
        assert_eq!((stored, restored), (0, 0), "{}", archive.name);
        assert!(other.marks == lent.marks && other.values == lent.values, "{} restores the trace", archive.name);
        other.stored
    });
    assert!(stored[1..].iter().all(|other| *other == stored[0]), "all store the same words");
    [lent.stored, ..] = stored;

    // One set of buffers for all, so that none has the better pages.
    let measured = by_turns::<3>(|place| {
        black_box(which(&ARCHIVES[place])(count, black_box(words), ticks as u32, &mut lent));
    });
    let name = format!("{}, {} flows, {ticks} ticks", plan.name, plan.flows());
    measure::line(&name, &measured, ticks * plan.flows())
}

/// One call, and nothing else that depends on the ticks: trace and words are those of as many ticks as there may be,
/// cut off. Nothing if there are too many, or no such call or implementation.
pub fn once(call: &str, plan: &Plan, ticks: usize, name: &str) -> Option<()> {
    let (_, which) = CALLS.into_iter().find(|(name, _)| *name == call)?;
    let archive = ARCHIVES.iter().find(|archive| archive.name == name)?;
    if ticks > MOST_TICKS {
        return None;
    }
    let mut lent = Lent::new(plan, MOST_TICKS);
    lent.marks.truncate(ticks * plan.flows());
    lent.values.truncate(ticks * plan.flows());
    lent.stored.truncate(stored_words(plan, ticks));
    let number = which(archive)(plan.flows() as u32, &plan.words, ticks as u32, &mut lent);
    println!("answer {number}, last value {:?}, last word {:?}", black_box(&lent.values).last(), lent.stored.last());
    Some(())
}
