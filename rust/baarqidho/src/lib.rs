//! Bench plans: the proved library from Rust.
//!
//! A plan is a table of 1 to 64 flows, each defined by one row. The library reads and writes the packed form of a
//! table, gives each flow its clock (the check), replays an input log into a trace (the run) or, over millions of
//! ticks, into a window and tallies (the long run), lists the clocks as text, prints what each flow costs (the load
//! page), takes out of a plan whose clocks differ the fewest flows that still do (the least part), fills in the rates
//! of inputs that were written without one, stores of a trace the values that are present (the archive), and tells
//! which inputs each flow feels.
//!
//! There are two layers. [`read()`], [`write()`], [`check()`], [`run()`], [`long_run()`], [`listing()`],
//! [`load_page()`], [`least_part()`], [`least_flows()`], [`fill_rates()`], [`stored_words()`], [`store()`],
//! [`restore()`] and [`felt_inputs()`] are the library's calls over slices that the caller lends; each takes any
//! arguments and returns an [`Answer`]. [`Plan`] owns its words, is made of [`Row`]s, words or packed bytes, and returns
//! [`Refusal`]s as errors; that of a run is a [`RunError`], which has the trace up to a clash.
//!
//! ```
//! use baarqidho::{Plan, Row, RunError};
//!
//! // Every tenth tick an input, and every second of its values.
//! let plan = Plan::from_rows([Row::Input { period: 10, phase: 0 }, Row::Slower { a: 0, k: 2 }]);
//! let packed = [0x02, 0x00, 0x05, 0x00, 0x02, 0x40, 0x08];
//! assert_eq!(plan.to_packed()?, packed);
//! assert_eq!(Plan::from_packed(&packed)?, plan);
//!
//! let clocks = plan.clocks()?;
//! assert_eq!((clocks[1].period, clocks[1].phase), (20, 0));
//! assert_eq!(baarqidho::list(&packed), "ok 2\n0 10 0 -\n1 20 0 -\n");
//!
//! // One input, so the log has one word a tick.
//! let log: Vec<u32> = (100..131).collect();
//! let trace = plan.run(&log, 31)?;
//! assert_eq!(trace.value(20, 1), Some(120));
//! assert_eq!(trace.value(10, 1), None);
//! # Ok::<(), RunError>(())
//! ```

mod answer;
mod clock;
mod ffi;
mod least;
mod long;
mod plan;
mod row;
mod trace;

pub use answer::{Answer, Refusal};
pub use clock::{Clock, Condition};
pub use ffi::{check, felt_inputs, fill_rates, least_flows, least_part, listing, load_page, long_run, read, restore};
pub use ffi::{run, store, stored_words, write};
pub use least::LeastPart;
pub use long::LongRun;
pub use plan::{list, Plan};
pub use row::Row;
pub use trace::{Clash, RunError, Trace};

include!("../../listing_max.rs");

/// The most flows a table has.
pub const MAX_FLOWS: usize = 64;

/// The words of a row in plain form: kind, and three fields.
pub const ROW_WORDS: usize = 4;

/// The most conditions a clock has.
pub const MAX_CONDITIONS: usize = 4;

/// The words of a clock: period, phase, how many conditions, the conditions, and their view periods.
pub const CLOCK_WORDS: usize = 3 + 2 * MAX_CONDITIONS;

/// The greatest period and phase of a clock. Those that are written, in a [`Row`], are at most 4095.
pub const MAX_DERIVED: u32 = 65_535;

/// The most ticks of a run, and of a trace in the archive.
pub const MAX_TICKS: u32 = 131_071;

/// The most ticks of a long run.
pub const MAX_LONG_TICKS: u32 = 4_194_303;

/// The ticks of a long run's window.
pub const WINDOW_TICKS: usize = 131_072;

/// The words of a flow's tally in a long run: how many values it had, and its last one.
pub const TALLY_WORDS: usize = 2;

/// The bytes of the longest packed table: a count, and [`MAX_FLOWS`] rows of 61 bits.
pub const PACKED_MAX: usize = 1 + (MAX_FLOWS * 61).div_ceil(8);

/// The bytes of a load page's line, its line feed too.
pub const PAGE_LINE: usize = 26;

/// The bytes of the longest load page: a line for each of [`MAX_FLOWS`] flows, and one for the total.
pub const PAGE_MAX: usize = PAGE_LINE * (MAX_FLOWS + 1);

/// The repository's README, whose example is a test.
#[cfg(doctest)]
#[doc = include_str!("../../../README.md")]
struct Readme;
