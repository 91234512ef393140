//! Bench plans as the paper words them: read, write, check, run, long run, listing, load page, least part, rates filled
//! in, traces in the archive and the inputs that a flow feels, each rule one function.
//!
//! Nothing here is quick. Packed tables are read and written bit by bit, and the run keeps no state: it looks
//! into the history of the trace for everything it needs. The least part is looked for among all sets of flows, and
//! rates among all fillings within given limits. Of a trace in the archive every tick is asked whether it is due. The
//! inputs that a flow feels are looked for depth first, from each input anew. It is what the other implementations are
//! held against.

mod archive;
mod bits;
mod check;
mod clock;
mod felt;
mod fill;
mod least;
mod listing;
mod long;
mod operators;
mod packed;
mod page;
mod rows;
mod run;

pub use archive::{restore, store, stored_words};
pub use check::check;
pub use felt::felt_inputs;
pub use fill::{accepted_fillings, fill_rates, fill_rates_within, Limits};
pub use least::{least_flows, least_part, LEAST_MAX};
pub use listing::listing;
pub use long::long_run;
pub use packed::{read, write};
pub use page::load_page;
pub use run::run;

include!("../../listing_max.rs");

/// An answer: a number (0 is success), a flow, a tick and a count. Parts not named are 0.
#[derive(Clone, Copy, Debug, Default, PartialEq, Eq)]
pub struct Answer {
    /// 0 for success, else the number of the refusal.
    pub number: u32,
    /// The flow, or the row, that the refusal names.
    pub flow: u32,
    /// The tick of a clash.
    pub tick: u32,
    /// On success the count of flows, bytes, ticks, words or cells.
    pub count: u32,
}

/// Why a plan comes back: the answer that is given in place of a result.
type Refused<T> = Result<T, Answer>;

/// Success, with its count.
fn success(count: usize) -> Answer {
    Answer { count: count as u32, ..Answer::default() }
}

/// A refusal of which only the number is returned.
fn refuse<T>(number: u32) -> Refused<T> {
    Err(Answer { number, ..Answer::default() })
}

/// A refusal that names a row or flow.
fn refuse_at<T>(number: u32, flow: usize) -> Refused<T> {
    Err(Answer { number, flow: flow as u32, ..Answer::default() })
}

/// The answer itself, success or refusal.
fn answer(result: Refused<Answer>) -> Answer {
    result.unwrap_or_else(|refusal| refusal)
}
