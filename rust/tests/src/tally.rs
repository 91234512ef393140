//! How often each answer occurred.

use std::collections::BTreeMap;
use std::fmt::{self, Display, Formatter};

/// Counts of answers, by call and number.
#[derive(Clone, Debug, Default)]
pub struct Tally {
    counts: BTreeMap<(&'static str, u32), usize>,
}

impl Tally {
    /// Counts one answer of a call.
    pub fn add(&mut self, call: &'static str, number: u32) {
        *self.counts.entry((call, number)).or_default() += 1;
    }

    /// How often a call gave a number.
    pub fn count(&self, call: &'static str, number: u32) -> usize {
        self.counts.get(&(call, number)).copied().unwrap_or(0)
    }

    /// How often any call gave a number.
    pub fn total(&self, number: u32) -> usize {
        self.counts.iter().filter(|((_, of), _)| *of == number).map(|(_, count)| count).sum()
    }
}

impl Display for Tally {
    fn fmt(&self, f: &mut Formatter) -> fmt::Result {
        let mut last = "";
        for ((call, number), count) in &self.counts {
            if *call != last {
                write!(f, "\n{call:>12}:")?;
                last = call;
            }
            write!(f, "  {number}: {count}")?;
        }
        writeln!(f)
    }
}
