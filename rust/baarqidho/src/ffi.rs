//! The calls into the static library. All unsafe code is here.
#![allow(unsafe_code)]

use crate::Answer;

extern "C" {
    fn baarqidho_read(
        packed: *const u8,
        packed_len: usize,
        words: *mut u32,
        words_len: usize,
        flow: *mut u32,
        tick: *mut u32,
        count: *mut u32,
    ) -> u32;

    fn baarqidho_write(
        plan_count: u32,
        words: *const u32,
        words_len: usize,
        packed: *mut u8,
        packed_len: usize,
        flow: *mut u32,
        tick: *mut u32,
        count: *mut u32,
    ) -> u32;

    fn baarqidho_check(
        plan_count: u32,
        words: *const u32,
        words_len: usize,
        clocks: *mut u32,
        clocks_len: usize,
        flow: *mut u32,
        tick: *mut u32,
        count: *mut u32,
    ) -> u32;

    fn baarqidho_run(
        plan_count: u32,
        words: *const u32,
        words_len: usize,
        log: *const u32,
        log_len: usize,
        ticks: u32,
        marks: *mut u8,
        marks_len: usize,
        values: *mut u32,
        values_len: usize,
        flow: *mut u32,
        tick: *mut u32,
        count: *mut u32,
    ) -> u32;

    fn baarqidho_long_run(
        plan_count: u32,
        words: *const u32,
        words_len: usize,
        log: *const u32,
        log_len: usize,
        ticks: u32,
        marks: *mut u8,
        marks_len: usize,
        values: *mut u32,
        values_len: usize,
        tallies: *mut u32,
        tallies_len: usize,
        flow: *mut u32,
        tick: *mut u32,
        count: *mut u32,
    ) -> u32;

    fn baarqidho_listing(
        packed: *const u8,
        packed_len: usize,
        text: *mut u8,
        text_len: usize,
        flow: *mut u32,
        tick: *mut u32,
        count: *mut u32,
    ) -> u32;

    fn baarqidho_load_page(
        plan_count: u32,
        words: *const u32,
        words_len: usize,
        times: *const u16,
        times_len: usize,
        page: *mut u8,
        page_len: usize,
        flow: *mut u32,
        tick: *mut u32,
        count: *mut u32,
    ) -> u32;

    fn baarqidho_least_part(
        plan_count: u32,
        words: *const u32,
        words_len: usize,
        part: *mut u32,
        part_len: usize,
        flow: *mut u32,
        tick: *mut u32,
        count: *mut u32,
    ) -> u32;

    fn baarqidho_least_flows(
        plan_count: u32,
        words: *const u32,
        words_len: usize,
        flows: *mut u32,
        flows_len: usize,
        flow: *mut u32,
        tick: *mut u32,
        count: *mut u32,
    ) -> u32;

    fn baarqidho_fill_rates(
        plan_count: u32,
        words: *const u32,
        words_len: usize,
        filled: *mut u32,
        filled_len: usize,
        flow: *mut u32,
        tick: *mut u32,
        count: *mut u32,
    ) -> u32;

    fn baarqidho_stored_words(
        plan_count: u32,
        words: *const u32,
        words_len: usize,
        ticks: u32,
        flow: *mut u32,
        tick: *mut u32,
        count: *mut u32,
    ) -> u32;

    fn baarqidho_store(
        plan_count: u32,
        words: *const u32,
        words_len: usize,
        ticks: u32,
        marks: *const u8,
        marks_len: usize,
        values: *const u32,
        values_len: usize,
        stored: *mut u32,
        stored_len: usize,
        flow: *mut u32,
        tick: *mut u32,
        count: *mut u32,
    ) -> u32;

    fn baarqidho_restore(
        plan_count: u32,
        words: *const u32,
        words_len: usize,
        ticks: u32,
        stored: *const u32,
        stored_len: usize,
        marks: *mut u8,
        marks_len: usize,
        values: *mut u32,
        values_len: usize,
        flow: *mut u32,
        tick: *mut u32,
        count: *mut u32,
    ) -> u32;

    fn baarqidho_felt_inputs(
        plan_count: u32,
        words: *const u32,
        words_len: usize,
        sets: *mut u64,
        sets_len: usize,
        flow: *mut u32,
        tick: *mut u32,
        count: *mut u32,
    ) -> u32;
}

/// Makes a call that returns its number and puts flow, tick and count through the three pointers.
fn answer(call: impl FnOnce(*mut u32, *mut u32, *mut u32) -> u32) -> Answer {
    let (mut flow, mut tick, mut count) = (0, 0, 0);
    let number = call(&mut flow, &mut tick, &mut count);
    Answer { number, flow, tick, count }
}

/// Reads a packed table into plain words, [`ROW_WORDS`](crate::ROW_WORDS) a flow.
///
/// Success gives the count of flows and writes exactly their words. Refusals, none of which touches `words`: 11, 12,
/// 13, 14, 15, 16, and 10 where `words` is too short.
///
/// ```
/// let mut words = [7; 9];
/// let answer = baarqidho::read(&[0x02, 0x00, 0x05, 0x00, 0x02, 0x40, 0x08], &mut words);
/// assert_eq!((answer.number, answer.count), (0, 2));
/// assert_eq!(words, [0, 10, 0, 0, 9, 0, 2, 0, 7]);
/// ```
pub fn read(packed: &[u8], words: &mut [u32]) -> Answer {
    answer(|flow, tick, count| {
        // SAFETY: pointers and lengths are those of live slices, `words` lent to this call alone.
        unsafe { baarqidho_read(packed.as_ptr(), packed.len(), words.as_mut_ptr(), words.len(), flow, tick, count) }
    })
}

/// Writes a plain table in packed form.
///
/// Success gives the count of bytes and writes exactly those. Refusals, none of which touches `packed`: 11, 13, 14,
/// 15, and 10 where `packed` is too short. [`PACKED_MAX`](crate::PACKED_MAX) bytes are enough for every table.
///
/// ```
/// let mut packed = [7; 8];
/// let answer = baarqidho::write(2, &[0, 10, 0, 0, 9, 0, 2, 0], &mut packed);
/// assert_eq!((answer.number, answer.count), (0, 7));
/// assert_eq!(packed, [0x02, 0x00, 0x05, 0x00, 0x02, 0x40, 0x08, 7]);
/// ```
pub fn write(plan_count: u32, words: &[u32], packed: &mut [u8]) -> Answer {
    answer(|flow, tick, count| {
        // SAFETY: pointers and lengths are those of live slices, `packed` lent to this call alone.
        unsafe {
            baarqidho_write(
                plan_count,
                words.as_ptr(),
                words.len(),
                packed.as_mut_ptr(),
                packed.len(),
                flow,
                tick,
                count,
            )
        }
    })
}

/// Gives each flow of a plain table its clock, in [`CLOCK_WORDS`](crate::CLOCK_WORDS) words: period, phase, how many
/// conditions, for each of these `2 * flow + 1` for true or `2 * flow` for false, and from word 7 on the view period of
/// each, 0 where it is sampled directly. Unused words are 0.
///
/// Success gives the count of flows and writes exactly their words. Refusals, none of which touches `clocks`: 11, 13,
/// 14, 15, 10 where `clocks` is too short, 23, 21, 22 and 40.
///
/// ```
/// // A reading, when it is not zero, and when it was zero as seen every 8 ticks.
/// let mut clocks = [9; 34];
/// let answer = baarqidho::check(3, &[0, 4, 0, 0, 13, 0, 0, 0, 18, 0, 0, 8], &mut clocks);
/// assert_eq!((answer.number, answer.count), (0, 3));
/// assert_eq!(clocks[..11], [4, 0, 0, 0, 0, 0, 0, 0, 0, 0, 0]);
/// assert_eq!(clocks[11..22], [4, 0, 1, 1, 0, 0, 0, 0, 0, 0, 0]);
/// assert_eq!(clocks[22..], [4, 0, 1, 0, 0, 0, 0, 8, 0, 0, 0, 9]);
/// ```
pub fn check(plan_count: u32, words: &[u32], clocks: &mut [u32]) -> Answer {
    answer(|flow, tick, count| {
        // SAFETY: pointers and lengths are those of live slices, `clocks` lent to this call alone.
        unsafe {
            baarqidho_check(
                plan_count,
                words.as_ptr(),
                words.len(),
                clocks.as_mut_ptr(),
                clocks.len(),
                flow,
                tick,
                count,
            )
        }
    })
}

/// Runs a plain table over a log for some ticks. The log has, for each tick, one word per input row in row order;
/// the trace has one cell per tick and flow, a mark (1 present, 0 absent) and a value.
///
/// Success gives the count of ticks and writes exactly `ticks * plan_count` cells. Refusals that touch nothing: 11,
/// 13, 14, 15, 31, 32 and 33. A clash, 34, names tick and flow: the cells worked out before it are written, all
/// later ones are left as they were.
///
/// ```
/// // An input every second tick, and a register that keeps its values.
/// let (mut marks, mut values) = ([9; 7], [9; 7]);
/// let answer = baarqidho::run(2, &[0, 2, 0, 0, 7, 5, 0, 0], &[10, 11, 12], 3, &mut marks, &mut values);
/// assert_eq!((answer.number, answer.count), (0, 3));
/// assert_eq!(marks, [1, 1, 0, 0, 1, 1, 9]);
/// assert_eq!(values, [10, 5, 0, 0, 12, 10, 9]);
/// ```
pub fn run(plan_count: u32, words: &[u32], log: &[u32], ticks: u32, marks: &mut [u8], values: &mut [u32]) -> Answer {
    answer(|flow, tick, count| {
        // SAFETY: pointers and lengths are those of live slices, `marks` and `values` lent to this call alone.
        unsafe {
            baarqidho_run(
                plan_count,
                words.as_ptr(),
                words.len(),
                log.as_ptr(),
                log.len(),
                ticks,
                marks.as_mut_ptr(),
                marks.len(),
                values.as_mut_ptr(),
                values.len(),
                flow,
                tick,
                count,
            )
        }
    })
}

/// Checks a plain table and runs it over a log for up to [`MAX_LONG_TICKS`](crate::MAX_LONG_TICKS) ticks. Log and cells
/// are as in [`run()`]. The cells of the last [`WINDOW_TICKS`](crate::WINDOW_TICKS) ticks are kept, the window: those
/// of tick t from place `t % WINDOW_TICKS * plan_count` on. Of all ticks, [`TALLY_WORDS`](crate::TALLY_WORDS) words a
/// flow are kept: how many values it had, and its last one, 0 if it had none.
///
/// Success gives the count of ticks, and writes the tallies and the cells of the window that the ticks reach. Refusals,
/// none of which touches marks, values or tallies: 11, 13, 14, 15, those of the check (23, 21, 22 and 40), 31, 32, and
/// 35 where one of the three is too short, however few the ticks.
///
/// ```
/// use baarqidho::{TALLY_WORDS, WINDOW_TICKS};
///
/// // An input every second tick, and a register that keeps its values.
/// let words = [0, 2, 0, 0, 7, 5, 0, 0];
/// let log: Vec<u32> = (0..1_000_001).collect();
/// let (mut marks, mut values) = (vec![9; 2 * WINDOW_TICKS], vec![9; 2 * WINDOW_TICKS]);
/// let mut tallies = [9; 2 * TALLY_WORDS + 1];
/// let answer = baarqidho::long_run(2, &words, &log, 1_000_001, &mut marks, &mut values, &mut tallies);
/// assert_eq!((answer.number, answer.count), (0, 1_000_001));
/// assert_eq!(tallies, [500_001, 1_000_000, 500_001, 999_998, 9]);
/// let place = 1_000_000 % WINDOW_TICKS * 2;
/// assert_eq!((&marks[place..][..2], &values[place..][..2]), (&[1, 1][..], &[1_000_000, 999_998][..]));
/// ```
pub fn long_run(
    plan_count: u32,
    words: &[u32],
    log: &[u32],
    ticks: u32,
    marks: &mut [u8],
    values: &mut [u32],
    tallies: &mut [u32],
) -> Answer {
    answer(|flow, tick, count| {
        // SAFETY: pointers and lengths are those of live slices, `marks`, `values` and `tallies` lent to this call
        // alone.
        unsafe {
            baarqidho_long_run(
                plan_count,
                words.as_ptr(),
                words.len(),
                log.as_ptr(),
                log.len(),
                ticks,
                marks.as_mut_ptr(),
                marks.len(),
                values.as_mut_ptr(),
                values.len(),
                tallies.as_mut_ptr(),
                tallies.len(),
                flow,
                tick,
                count,
            )
        }
    })
}

/// Lists a packed table as text: its clocks, or the one line `no NUMBER FLOW` of its refusal.
///
/// The count is the length of the text, and exactly those bytes are written. A text buffer below
/// [`LISTING_MAX`](crate::LISTING_MAX) bytes is answered by 10 and left as it was.
///
/// ```
/// let mut text = [0; baarqidho::LISTING_MAX];
/// let answer = baarqidho::listing(&[0x01, 0x00, 0x05, 0x00, 0x00], &mut text);
/// assert_eq!((answer.number, answer.count), (0, 14));
/// assert_eq!(&text[..14], b"ok 1\n0 10 0 -\n");
/// ```
pub fn listing(packed: &[u8], text: &mut [u8]) -> Answer {
    answer(|flow, tick, count| {
        // SAFETY: pointers and lengths are those of live slices, `text` lent to this call alone.
        unsafe { baarqidho_listing(packed.as_ptr(), packed.len(), text.as_mut_ptr(), text.len(), flow, tick, count) }
    })
}

/// Checks a plain table and writes what each flow costs as text, from one worst time a flow in thousandths of a tick:
/// a line for each flow by period, equal periods by phase and only then by flow, and a last one with the sum of the
/// printed loads, each of [`PAGE_LINE`](crate::PAGE_LINE) bytes. A load is 1000 times the worst time divided by the
/// period, to the nearest whole, a half going to the even neighbour.
///
/// Success gives the count of bytes and writes exactly those. Refusals, none of which touches `page`: 11, 13, 14, 15,
/// those of the check (23, 21, 22 and 40), 36 where `times` is not one a flow, and 37 where `page` is too short.
/// [`PAGE_MAX`](crate::PAGE_MAX) bytes are enough for every table.
///
/// ```
/// use baarqidho::{load_page, PAGE_LINE};
///
/// // Flow, period, phase, how many conditions, and load: 62.5 goes down to 62.
/// let mut page = [b'.'; 2 * PAGE_LINE + 1];
/// let answer = load_page(1, &[0, 16, 5, 0], &[1], &mut page);
/// assert_eq!((answer.number, answer.count), (0, 52));
/// assert_eq!(&page, b" 0    16     5 0       62\ntotal                  62\n.");
/// ```
pub fn load_page(plan_count: u32, words: &[u32], times: &[u16], page: &mut [u8]) -> Answer {
    answer(|flow, tick, count| {
        // SAFETY: pointers and lengths are those of live slices, `page` lent to this call alone.
        unsafe {
            baarqidho_load_page(
                plan_count,
                words.as_ptr(),
                words.len(),
                times.as_ptr(),
                times.len(),
                page.as_mut_ptr(),
                page.len(),
                flow,
                tick,
                count,
            )
        }
    })
}

/// Gives the least part of a plain table that the check still answers with 21, in plain words,
/// [`ROW_WORDS`](crate::ROW_WORDS) a flow. A part is a set of flows that has, with a flow, all its operands, beats and
/// sources; its flows are renumbered in order. The least has the fewest flows; among equals it is the one drawn from
/// the lowest single flow that leads to all the rest of its part.
///
/// Success gives the count of the part's flows and writes exactly their words. Refusals, none of which touches `part`:
/// 11, 13, 14, 15, 38 where the check answers the plan with anything but 21, and 10 where `part` is too short. As many
/// words as the plan has are enough.
///
/// ```
/// // Two inputs, the tail of the second, and a sum of it and the first, which differ; the slower flow is not needed.
/// let words = [0, 10, 0, 0, 9, 0, 2, 0, 0, 10, 5, 0, 12, 2, 0, 0, 2, 0, 3, 0];
/// let mut part = [7; 20];
/// let answer = baarqidho::least_part(5, &words, &mut part);
/// assert_eq!((answer.number, answer.count), (0, 4));
/// assert_eq!(part, [0, 10, 0, 0, 0, 10, 5, 0, 12, 1, 0, 0, 2, 0, 2, 0, 7, 7, 7, 7]);
/// ```
pub fn least_part(plan_count: u32, words: &[u32], part: &mut [u32]) -> Answer {
    answer(|flow, tick, count| {
        // SAFETY: pointers and lengths are those of live slices, `part` lent to this call alone.
        unsafe {
            baarqidho_least_part(
                plan_count,
                words.as_ptr(),
                words.len(),
                part.as_mut_ptr(),
                part.len(),
                flow,
                tick,
                count,
            )
        }
    })
}

/// Gives the numbers that the flows of the least part have in the plan, ascending, one word a flow: row i of
/// [`least_part()`] is that of flow `flows[i]`.
///
/// Success gives the count of the part's flows and writes exactly their numbers. Refusals, none of which touches
/// `flows`: those of [`least_part()`], 10 where `flows` has fewer words than the part has flows. As many words as the
/// plan has flows are enough.
///
/// ```
/// let words = [0, 10, 0, 0, 9, 0, 2, 0, 0, 10, 5, 0, 12, 2, 0, 0, 2, 0, 3, 0];
/// let mut flows = [7; 5];
/// let answer = baarqidho::least_flows(5, &words, &mut flows);
/// assert_eq!((answer.number, answer.count), (0, 4));
/// assert_eq!(flows, [0, 2, 3, 4, 7]);
/// ```
pub fn least_flows(plan_count: u32, words: &[u32], flows: &mut [u32]) -> Answer {
    answer(|flow, tick, count| {
        // SAFETY: pointers and lengths are those of live slices, `flows` lent to this call alone.
        unsafe {
            baarqidho_least_flows(
                plan_count,
                words.as_ptr(),
                words.len(),
                flows.as_mut_ptr(),
                flows.len(),
                flow,
                tick,
                count,
            )
        }
    })
}

/// Fills in period and phase of each input without a rate, kind 16, and gives the whole table in plain words,
/// [`ROW_WORDS`](crate::ROW_WORDS) a flow. Two flows are joined when they stand in one row, a result with its operands,
/// beat and source; kinds 17 and 18 join their result with `a` only. Where a chain joins each flow to an input or
/// constant that has a rate, the check accepts at most one filling with periods 1 to 4095 and phases 0 to 4095: that is
/// the one.
///
/// Success gives the count of flows and writes exactly their words. Refusals, none of which touches `filled`: 11, 13,
/// 14, 15, 39 with the lowest flow that no chain joins to one with a rate, 21 with flow 0 where the check accepts no
/// filling, and 10 where `filled` is too short. As many words as the plan has are enough.
///
/// ```
/// // An input without a rate, every second of its values, an input (10, 4), and the sum of both.
/// let words = [16, 0, 0, 0, 9, 0, 2, 0, 0, 10, 4, 0, 2, 1, 2, 0];
/// let mut filled = [7; 17];
/// let answer = baarqidho::fill_rates(4, &words, &mut filled);
/// assert_eq!((answer.number, answer.count), (0, 4));
/// assert_eq!(filled, [0, 5, 4, 0, 9, 0, 2, 0, 0, 10, 4, 0, 2, 1, 2, 0, 7]);
/// ```
pub fn fill_rates(plan_count: u32, words: &[u32], filled: &mut [u32]) -> Answer {
    answer(|flow, tick, count| {
        // SAFETY: pointers and lengths are those of live slices, `filled` lent to this call alone.
        unsafe {
            baarqidho_fill_rates(
                plan_count,
                words.as_ptr(),
                words.len(),
                filled.as_mut_ptr(),
                filled.len(),
                flow,
                tick,
                count,
            )
        }
    })
}

/// Tells how many words a trace of a plain table has in the archive. That takes plans that the check accepts and that
/// have no row of kinds 13 to 15, 17 and 18, so that a flow is present exactly at its phase plus whole periods. Of a
/// trace of some ticks it has, flow after flow, the values present, each flow's in time order.
///
/// Success gives the count of words. Refusals: 11, 13, 14, 15, those of the check (23, 21, 22 and 40), 31 above
/// [`MAX_TICKS`](crate::MAX_TICKS) ticks, and 41 for a row of those kinds.
///
/// ```
/// // A reading every third tick from tick 1 on, and every second of them: at ticks 1, 4, 7 and 10, and at 1 and 7.
/// let words = [0, 3, 1, 0, 9, 0, 2, 0];
/// let answer = baarqidho::stored_words(2, &words, 12);
/// assert_eq!((answer.number, answer.count), (0, 6));
/// assert_eq!(baarqidho::stored_words(2, &words, 1).count, 0);
/// ```
pub fn stored_words(plan_count: u32, words: &[u32], ticks: u32) -> Answer {
    answer(|flow, tick, count| {
        // SAFETY: pointer and length are those of a live slice.
        unsafe { baarqidho_stored_words(plan_count, words.as_ptr(), words.len(), ticks, flow, tick, count) }
    })
}

/// Stores a trace of some ticks, marks and values as [`run()`] leaves them, in as many words as [`stored_words()`]
/// counts.
///
/// Success gives the count of words and writes all of `stored`. Refusals, none of which touches `stored`: those of
/// [`stored_words()`]; 42 where marks or values are not exactly `ticks * plan_count`, or `stored` not exactly as many
/// words as have to be; and 43 where a mark is not 1 at a tick of its flow's clock or not 0 at another, or where an
/// absent value is not 0.
///
/// ```
/// // A reading every second tick, and each of them a tick later.
/// let words = [0, 2, 0, 0, 10, 0, 1, 0];
/// let (marks, values) = ([1, 0, 0, 1, 1, 0], [70, 0, 0, 70, 80, 0]);
/// let mut stored = [9; 3];
/// let answer = baarqidho::store(2, &words, 3, &marks, &values, &mut stored);
/// assert_eq!((answer.number, answer.count), (0, 3));
/// assert_eq!(stored, [70, 80, 70]);
///
/// // A mark that is missing.
/// let answer = baarqidho::store(2, &words, 3, &[1, 0, 0, 0, 1, 0], &values, &mut stored);
/// assert_eq!(answer.number, 43);
/// ```
pub fn store(plan_count: u32, words: &[u32], ticks: u32, marks: &[u8], values: &[u32], stored: &mut [u32]) -> Answer {
    answer(|flow, tick, count| {
        // SAFETY: pointers and lengths are those of live slices, `stored` lent to this call alone.
        unsafe {
            baarqidho_store(
                plan_count,
                words.as_ptr(),
                words.len(),
                ticks,
                marks.as_ptr(),
                marks.len(),
                values.as_ptr(),
                values.len(),
                stored.as_mut_ptr(),
                stored.len(),
                flow,
                tick,
                count,
            )
        }
    })
}

/// Gives a trace of some ticks back: marks by the clocks, and the stored words as the values present, 0 where absent.
/// Any words will do, as many as [`stored_words()`] counts; [`store()`] gives them again.
///
/// Success gives the count of cells, `ticks * plan_count`, absent ones too, and writes all of `marks` and `values`.
/// Refusals, none of which touches either: those of [`stored_words()`], and 42 where `stored`, `marks` or `values` is
/// not exactly as long as it has to be.
///
/// ```
/// let words = [0, 2, 0, 0, 10, 0, 1, 0];
/// let (mut marks, mut values) = ([9; 6], [9; 6]);
/// let answer = baarqidho::restore(2, &words, 3, &[70, 80, 70], &mut marks, &mut values);
/// assert_eq!((answer.number, answer.count), (0, 6));
/// assert_eq!((marks, values), ([1, 0, 0, 1, 1, 0], [70, 0, 0, 70, 80, 0]));
/// ```
pub fn restore(
    plan_count: u32,
    words: &[u32],
    ticks: u32,
    stored: &[u32],
    marks: &mut [u8],
    values: &mut [u32],
) -> Answer {
    answer(|flow, tick, count| {
        // SAFETY: pointers and lengths are those of live slices, `marks` and `values` lent to this call alone.
        unsafe {
            baarqidho_restore(
                plan_count,
                words.as_ptr(),
                words.len(),
                ticks,
                stored.as_ptr(),
                stored.len(),
                marks.as_mut_ptr(),
                marks.len(),
                values.as_mut_ptr(),
                values.len(),
                flow,
                tick,
                count,
            )
        }
    })
}

/// Gives for each flow of a plain table the inputs that it feels, as a set in 64 bits, the lowest one for row 0: bit i
/// of `sets[f]` is 1 exactly where row i is an input from which flow f can be reached. A flow can be reached from
/// itself, from each flow that its row names (operands, beat and source) or that a condition of its clock is about, and
/// from whatever these can be reached from.
///
/// Two runs of more than t ticks whose logs agree on the inputs of a flow's set, at those inputs' own ticks up to tick
/// t, give that flow the same marks and values up to tick t.
///
/// Success gives the count of flows and writes exactly their sets. Refusals, none of which touches `sets`: 11, 13, 14,
/// 15, those of the check (23, 21, 22 and 40), and 10 where `sets` has fewer than one a flow.
/// [`MAX_FLOWS`](crate::MAX_FLOWS) are enough for every table.
///
/// ```
/// // Two inputs, a register of the sum that follows, the sum of the second input and it, and every fourth of the first.
/// let words = [0, 2, 0, 0, 0, 2, 0, 0, 7, 5, 1, 3, 2, 1, 2, 0, 9, 0, 4, 0];
/// let mut sets = [9; 6];
/// let answer = baarqidho::felt_inputs(5, &words, &mut sets);
/// assert_eq!((answer.number, answer.count), (0, 5));
/// assert_eq!(sets, [0b01, 0b10, 0b10, 0b10, 0b01, 9]);
/// ```
pub fn felt_inputs(plan_count: u32, words: &[u32], sets: &mut [u64]) -> Answer {
    answer(|flow, tick, count| {
        // SAFETY: pointers and lengths are those of live slices, `sets` lent to this call alone.
        unsafe {
            baarqidho_felt_inputs(
                plan_count,
                words.as_ptr(),
                words.len(),
                sets.as_mut_ptr(),
                sets.len(),
                flow,
                tick,
                count,
            )
        }
    })
}
