//! Random plans, faults planted in them, and comparisons of the implementations cell by cell.
//!
//! BAARQIDHO_SEED is the seed of all generators, and BAARQIDHO_ROUNDS multiplies the number of plans of each test.

pub mod compare;
pub mod faults;
pub mod generate;
pub mod implementation;
pub mod rng;
pub mod tally;

use std::path::{Path, PathBuf};

pub use baarqidho::LISTING_MAX;

/// The words of a clock: period, phase, how many conditions, the four of them, and their view periods.
pub const CLOCK_WORDS: usize = 11;

/// The greatest period or phase that is written.
pub const WRITTEN: u32 = 4_095;

/// The greatest period or phase of a clock.
pub const DERIVED: u32 = 65_535;

/// The most ticks of a run.
pub const TICKS: u32 = 131_071;

/// The ticks of a long run's window.
pub const WINDOW: usize = 131_072;

/// The repository's root.
pub fn root() -> PathBuf {
    Path::new(env!("CARGO_MANIFEST_DIR")).join("../..")
}

/// The directory that a variable of the environment names, or one of the repository.
pub fn directory(variable: &str, default: &str) -> PathBuf {
    std::env::var_os(variable).map_or_else(|| root().join(default), PathBuf::from)
}

/// A plain table as it is handed to a call: any count, any words.
#[derive(Clone, Debug, PartialEq, Eq)]
pub struct Plan {
    /// The count of flows that is claimed.
    pub count: u32,
    /// Its words, four a flow if nothing is wrong with it.
    pub words: Vec<u32>,
}

impl Plan {
    /// The plan of rows, with the right count.
    pub fn of(rows: &[[u32; 4]]) -> Self {
        Plan { count: rows.len() as u32, words: rows.concat() }
    }

    /// How many rows of kind 0 its words have.
    pub fn inputs(&self) -> usize {
        self.words.chunks_exact(4).filter(|row| row[0] == 0).count()
    }

    /// Whether it has no row of kinds 13 to 15, 17 and 18.
    pub fn free_of_sampling(&self) -> bool {
        self.words.chunks_exact(4).all(|row| !(13..=15).contains(&row[0]) && !is_view(row))
    }

    /// Whether it has a row of kinds 17 and 18.
    pub fn has_views(&self) -> bool {
        self.words.chunks_exact(4).any(is_view)
    }
}

/// Whether a row is of kinds 17 and 18.
pub fn is_view(row: &[u32]) -> bool {
    matches!(row[0], 17 | 18)
}

/// The plans of a test: its own number, times BAARQIDHO_ROUNDS.
pub fn rounds(plans: usize) -> usize {
    match std::env::var("BAARQIDHO_ROUNDS") {
        Ok(factor) => plans * factor.parse::<usize>().expect("BAARQIDHO_ROUNDS is a whole number"),
        Err(_) => plans,
    }
}
