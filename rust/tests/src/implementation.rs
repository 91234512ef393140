//! The implementations behind one set of signatures.

/// Number, flow, tick and count of an answer.
pub type Parts = (u32, u32, u32, u32);

/// An implementation of the fourteen calls.
#[derive(Debug)]
pub struct Implementation {
    /// Its name, for messages.
    pub name: &'static str,
    /// Packed bytes to words.
    pub read: fn(&[u8], &mut [u32]) -> Parts,
    /// Count and words to packed bytes.
    pub write: fn(u32, &[u32], &mut [u8]) -> Parts,
    /// Count and words to clocks.
    pub check: fn(u32, &[u32], &mut [u32]) -> Parts,
    /// Count, words, log and ticks to marks and values.
    #[allow(clippy::type_complexity)]
    pub run: fn(u32, &[u32], &[u32], u32, &mut [u8], &mut [u32]) -> Parts,
    /// Count, words, log and ticks to marks, values and tallies.
    #[allow(clippy::type_complexity)]
    pub long_run: fn(u32, &[u32], &[u32], u32, &mut [u8], &mut [u32], &mut [u32]) -> Parts,
    /// Packed bytes to text.
    pub listing: fn(&[u8], &mut [u8]) -> Parts,
    /// Count, words and worst times to a load page.
    pub load_page: fn(u32, &[u32], &[u16], &mut [u8]) -> Parts,
    /// Count and words to the least part.
    pub least_part: fn(u32, &[u32], &mut [u32]) -> Parts,
    /// Count and words to the flows of the least part.
    pub least_flows: fn(u32, &[u32], &mut [u32]) -> Parts,
    /// Count and words to words with all rates.
    pub fill_rates: fn(u32, &[u32], &mut [u32]) -> Parts,
    /// Count, words and ticks to nothing but an answer.
    pub stored_words: fn(u32, &[u32], u32) -> Parts,
    /// Count, words, ticks, marks and values to stored words.
    #[allow(clippy::type_complexity)]
    pub store: fn(u32, &[u32], u32, &[u8], &[u32], &mut [u32]) -> Parts,
    /// Count, words, ticks and stored words to marks and values.
    #[allow(clippy::type_complexity)]
    pub restore: fn(u32, &[u32], u32, &[u32], &mut [u8], &mut [u32]) -> Parts,
    /// Count and words to the sets of inputs that flows feel.
    pub felt_inputs: fn(u32, &[u32], &mut [u64]) -> Parts,
}

/// The calls of a crate; those that the benchmark has in the library's own steps may be of another module.
macro_rules! implementation {
    ($name:literal, $krate:ident, $($steps:ident)::+) => {
        Implementation {
            name: $name,
            read: |packed, words| parts!($krate::read(packed, words)),
            write: |count, words, packed| parts!($krate::write(count, words, packed)),
            check: |count, words, clocks| parts!($krate::check(count, words, clocks)),
            run: |count, words, log, ticks, marks, values| {
                parts!($($steps)::+::run(count, words, log, ticks, marks, values))
            },
            long_run: |count, words, log, ticks, marks, values, tallies| {
                parts!($($steps)::+::long_run(count, words, log, ticks, marks, values, tallies))
            },
            listing: |packed, text| parts!($krate::listing(packed, text)),
            load_page: |count, words, times, page| parts!($krate::load_page(count, words, times, page)),
            least_part: |count, words, part| parts!($krate::least_part(count, words, part)),
            least_flows: |count, words, flows| parts!($krate::least_flows(count, words, flows)),
            fill_rates: |count, words, filled| parts!($krate::fill_rates(count, words, filled)),
            stored_words: |count, words, ticks| parts!($($steps)::+::stored_words(count, words, ticks)),
            store: |count, words, ticks, marks, values, stored| {
                parts!($($steps)::+::store(count, words, ticks, marks, values, stored))
            },
            restore: |count, words, ticks, stored, marks, values| {
                parts!($($steps)::+::restore(count, words, ticks, stored, marks, values))
            },
            felt_inputs: |count, words, sets| parts!($krate::felt_inputs(count, words, sets)),
        }
    };
}

macro_rules! parts {
    ($answer:expr) => {{
        let answer = $answer;
        (answer.number, answer.flow, answer.tick, answer.count)
    }};
}

/// The proved library.
pub static LIBRARY: Implementation = implementation!("baarqidho", baarqidho, baarqidho);

/// The paper word by word.
pub static REFERENCE: Implementation = implementation!("reference", reference, reference);

/// The quick one.
pub static PEER: Implementation = implementation!("peer", peer, peer);

/// The quick one with the runs and the archive in the library's own steps: for the benchmark, and held against the paper
/// so that it measures equal work.
pub static MIRROR: Implementation = implementation!("mirror", peer, peer::mirror);

/// All, for short runs: the first is what the others are held against.
pub static ALL: [&Implementation; 3] = [&REFERENCE, &LIBRARY, &PEER];

/// Those that are quick enough for runs of many ticks.
pub static QUICK: [&Implementation; 2] = [&PEER, &LIBRARY];
