//! Bench plans, quick: read, write, check, run, long run, listing, load page, least part, rates filled in, traces in the
//! archive and the inputs that a flow feels, without the heap; a run and the archive have constant work a cell.
//!
//! The run carries between ticks only what each kind of row needs, so that no cell looks through the trace again.
//! It is what the proved library is measured against, with the runs and the archive of [`mirror`] beside it.

mod archive;
mod check;
mod felt;
mod fill;
mod least;
mod listing;
pub mod mirror;
mod packed;
mod page;
mod plan;
mod run;
mod steps;

pub use archive::{restore, store, stored_words};
pub use check::check;
pub use felt::felt_inputs;
pub use fill::fill_rates;
pub use least::{least_flows, least_part};
pub use listing::listing;
pub use packed::{read, write};
pub use page::load_page;
pub use run::{long_run, run};

include!("../../listing_max.rs");

/// An answer: a number (0 is success), a flow, a tick and a count. Parts not named are 0.
#[derive(Clone, Copy, Debug, Default, PartialEq, Eq)]
pub struct Answer {
    /// 0 for success, else the number of the refusal.
    pub number: u32,
    /// The flow, or the row, that the refusal names.
    pub flow: u32,
    /// The tick of a clash.
    pub tick: u32,
    /// On success the count of flows, bytes, ticks, words or cells.
    pub count: u32,
}

impl Answer {
    /// Success, with its count.
    fn success(count: usize) -> Self {
        Answer { number: 0, flow: 0, tick: 0, count: count as u32 }
    }

    /// A refusal of which only the number is returned.
    fn number(number: u32) -> Self {
        Answer { number, flow: 0, tick: 0, count: 0 }
    }

    /// A refusal that names a row or flow.
    fn at(number: u32, flow: usize) -> Self {
        Answer { number, flow: flow as u32, tick: 0, count: 0 }
    }
}

/// The most flows a table has.
const MOST_FLOWS: usize = 64;

/// The ticks of a long run's window.
const WINDOW: u32 = 131_072;

/// The greatest period and phase of a field, and of a clock.
const MOST_WRITTEN: u32 = 4095;
const MOST_DERIVED: u32 = 65_535;
