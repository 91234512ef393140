//! Every limit, and one past it.

use tests::compare::{check, felt_inputs, fill_rates, least_flows, least_part, listing, load_page, long_run, read};
use tests::compare::{restore, run, run_exactly, store, stored_words, write, written_up_to, Lengths, Outcome};
use tests::implementation::{Parts, ALL, QUICK};
use tests::rng::Rng;
use tests::{Plan, LISTING_MAX, TICKS};

mod derived;
mod views;

/// A long run without ticks, log or buffers: refused by 35 where nothing else is wrong.
fn without_buffers(plan: &Plan) -> Outcome {
    long_run(&ALL, plan, &[], 0, Lengths::default())
}

/// A load page without times or room: refused by 36 where nothing else is wrong.
fn without_times(plan: &Plan) -> Outcome {
    load_page(&ALL, plan, &[], 0)
}

/// A trace of a tick stored and restored without cells or words: refused by 41 or 42 where nothing else is wrong.
fn without_cells(plan: &Plan) -> [Outcome; 2] {
    [store(&ALL, plan, 1, (&[], &[]), 0), restore(&ALL, plan, 1, &[], (0, 0))]
}

/// Felt inputs without room: refused by 10 where nothing else is wrong.
fn without_sets(plan: &Plan) -> Outcome {
    felt_inputs(&ALL, plan, 0)
}

/// What the check answers. A long run, a load page, the archive and felt inputs hand on its refusal; the least part is
/// refused by 38, or for its room where the answer is 21; filling in rates, of which none is missing, by 21, or for its
/// room.
fn checked(rows: &[[u32; 4]]) -> Parts {
    let plan = Plan::of(rows);
    let parts = check(&ALL, &plan, 11 * rows.len()).parts;
    let archived = without_cells(&plan).map(|outcome| (outcome, if plan.free_of_sampling() { 42 } else { 41 }));
    let others = [(without_buffers(&plan), 35), (without_times(&plan), 36), (without_sets(&plan), 10)];
    for (outcome, number) in archived.into_iter().chain(others) {
        assert_eq!(outcome.parts, if parts.0 == 0 { (number, 0, 0, 0) } else { parts }, "{rows:?}");
    }
    for outcome in [least_part(&ALL, &plan, 0), least_flows(&ALL, &plan, 0)] {
        assert_eq!(outcome.parts, (if parts.0 == 21 { 10 } else { 38 }, 0, 0, 0), "{rows:?}");
    }
    assert_eq!(fill_rates(&ALL, &plan, 0).parts, (if parts.0 == 0 { 10 } else { 21 }, 0, 0, 0), "{rows:?}");
    parts
}

/// All of them refuse a plan by number and row, and touch nothing.
fn all_refuse<const N: usize>(outcomes: [Outcome; N], plan: &Plan, number: u32, row: u32) {
    for outcome in outcomes {
        assert_eq!(outcome.parts, (number, row, 0, 0), "{plan:?}");
        assert!(outcome.is_untouched(), "{plan:?}");
    }
}

/// Check, run, long run, load page, least part, archive and felt inputs refuse a plain table alike.
fn refused_by_check(plan: &Plan, number: u32, row: u32) {
    let run = run(&ALL, plan, &[1, 2], 2, (9, 8));
    let page = load_page(&ALL, plan, &[1, 2], 1_690);
    let [part, flows] = [least_part(&ALL, plan, 0), least_flows(&ALL, plan, 64)];
    all_refuse([check(&ALL, plan, 489), run, without_buffers(plan), page, part, flows], plan, number, row);
    all_refuse([stored_words(&ALL, plan, u32::MAX)], plan, number, row);
    all_refuse(without_cells(plan), plan, number, row);
    all_refuse([without_sets(plan), felt_inputs(&ALL, plan, 64)], plan, number, row);
}

/// Write and filling in rates, which know one kind more, refuse a plain table alike.
fn refused_by_write(plan: &Plan, number: u32, row: u32) {
    all_refuse([write(&ALL, plan, 489), fill_rates(&ALL, plan, 0), fill_rates(&ALL, plan, 489)], plan, number, row);
}

/// All of them refuse a plain table alike.
fn refused_plan(plan: &Plan, number: u32, row: u32) {
    refused_by_check(plan, number, row);
    refused_by_write(plan, number, row);
}

/// The same of rows.
fn refused(rows: &[[u32; 4]], number: u32, row: u32) {
    refused_plan(&Plan::of(rows), number, row);
}

/// The table is one: it can be written, and is read back.
fn is_table(rows: &[[u32; 4]]) {
    let plan = Plan::of(rows);
    let written = write(&ALL, &plan, 489);
    assert_eq!(written.parts.0, 0, "{rows:?}");
    let plain = read(&ALL, &written.bytes[..written.parts.3 as usize], plan.words.len());
    assert_eq!(plain.words[..plan.words.len()], plan.words, "{rows:?}");
}

/// Fields of each sort, at each place where a row has one: the ends of the range, and one past them.
#[test]
fn ranges_of_fields() {
    let base = [0, 1, 0, 0];
    // A row, the place of the word that varies, the words that fit and those that do not.
    let period = (&[1, 4095][..], &[0, 4096, u32::MAX][..]);
    let phase = (&[0, 4095][..], &[4096, u32::MAX][..]);
    let copies = (&[1, 63][..], &[0, 64, u32::MAX][..]);
    let value = (&[0, u32::MAX][..], &[][..]);
    let flow = (&[0][..], &[64, 65, u32::MAX][..]);
    let unused = (&[0][..], &[1, u32::MAX][..]);
    let rows: [([u32; 4], [_; 3]); 18] = [
        ([0, 1, 0, 0], [period, phase, unused]),
        ([1, 0, 1, 0], [value, period, phase]),
        ([2, 0, 0, 0], [flow, flow, unused]),
        ([3, 0, 0, 0], [flow, flow, unused]),
        ([4, 0, 0, 0], [flow, flow, unused]),
        ([5, 0, 0, 0], [flow, flow, unused]),
        ([6, 0, 0, 0], [flow, flow, unused]),
        ([7, 0, 0, 0], [value, flow, flow]),
        ([8, 0, 1, 1], [flow, copies, period]),
        ([9, 0, 1, 0], [flow, copies, unused]),
        ([10, 0, 0, 0], [flow, phase, unused]),
        ([11, 0, 0, 0], [flow, value, phase]),
        ([12, 0, 0, 0], [flow, unused, unused]),
        ([13, 0, 0, 0], [flow, flow, unused]),
        ([14, 0, 0, 0], [flow, flow, unused]),
        ([15, 0, 0, 0], [flow, flow, flow]),
        ([17, 0, 0, 1], [flow, flow, period]),
        ([18, 0, 0, 1], [flow, flow, period]),
    ];
    for (row, fields) in rows {
        for (place, (fitting, outside)) in fields.into_iter().enumerate() {
            for &word in fitting {
                let mut row = row;
                row[1 + place] = word;
                is_table(&[base, row]);
            }
            for &word in outside {
                let mut row = row;
                row[1 + place] = word;
                refused(&[base, row], 14, 1);
            }
        }
    }
    refused(&[[19, 0, 0, 0]], 13, 0);
    refused(&[base, [19, 0, 0, 1]], 13, 1);
    refused(&[base, [u32::MAX, 1, 1, 1]], 13, 1);
}

/// An input without a rate is a row to write, read and fill in. All others refuse it in row order, before its words are
/// looked at and before anything is looked at that comes after the rows.
#[test]
fn inputs_without_a_rate() {
    let (base, open, slower) = ([0, 1, 0, 0], [16, 0, 0, 0], [9, 0, 2, 0]);
    for (rows, row) in [
        (vec![open], 0),
        (vec![base, open], 1),
        (vec![open, base, open], 0),
        (vec![base, slower, open, [2, 1, 2, 0]], 2),
        (vec![base; 63].into_iter().chain([open]).collect(), 63),
        (vec![open; 64], 0),
    ] {
        is_table(&rows);
        let plan = Plan::of(&rows);
        refused_by_check(&plan, 13, row);
        all_refuse([check(&ALL, &plan, 0), run(&ALL, &plan, &[], TICKS + 1, (0, 0))], &plan, 13, row);
        let written = write(&ALL, &plan, 489);
        let listed = listing(&ALL, &written.bytes[..written.parts.3 as usize], LISTING_MAX);
        let text = format!("no 13 {row}\n");
        assert_eq!((listed.parts, &listed.bytes[..text.len()]), ((0, 0, 0, text.len() as u32), text.as_bytes()));
    }
    // A word that has to be 0.
    for row in [[16, 1, 0, 0], [16, 0, 1, 0], [16, 0, 0, 1], [16, u32::MAX, 0, 0], [16, 1, 1, 0]] {
        let plan = Plan::of(&[base, row]);
        refused_by_check(&plan, 13, 1);
        refused_by_write(&plan, 14, 1);
    }
    // Other causes before it, and behind it.
    for (wrong, number) in [([9, 0, 64, 0], 14), ([12, 3, 0, 0], 15), ([7, 0, 0, 6], 15), ([19, 0, 0, 0], 13)] {
        refused(&[base, base, base, wrong, base, open], number, 3);
        let plan = Plan::of(&[base, base, open, wrong, base, base]);
        refused_by_check(&plan, 13, 2);
        refused_by_write(&plan, number, 3);
    }
    refused_plan(&Plan { count: 2, words: open.to_vec() }, 11, 0);
    refused_plan(&Plan::of(&[open; 65]), 11, 0);
    // Clocks that differ come after all rows.
    refused_by_check(&Plan::of(&[base, slower, [2, 0, 1, 0], open]), 13, 3);
}

#[test]
fn operands_and_sources() {
    let base = [0, 1, 0, 0];
    for kind in [2, 3, 4, 5, 6, 13, 14, 15] {
        refused(&[base, [kind, 1, 0, 0], base], 15, 1);
        refused(&[base, [kind, 0, 1, 0], base], 15, 1);
        refused(&[base, [kind, 63, 0, 0], base], 15, 1);
    }
    refused(&[base, [15, 0, 0, 1], base], 15, 1);
    for row in [[8, 1, 1, 1], [9, 1, 1, 0], [10, 1, 0, 0], [11, 1, 0, 0], [12, 1, 0, 0]] {
        refused(&[base, row], 15, 1);
        let mut first = row;
        first[1] = 0;
        refused(&[first, base], 15, 0);
    }
    // A register's beat is lower; its source is any flow of the table, itself and the last included.
    refused(&[base, [7, 0, 1, 0]], 15, 1);
    is_table(&[base, [7, 0, 0, 1], base]);
    is_table(&[base, [7, 0, 0, 2], base]);
    refused(&[base, [7, 0, 0, 3], base], 15, 1);
    refused(&[base, [7, 0, 0, 63], base], 15, 1);
    // A field outside its range comes before an operand that is not lower, a lower row before both.
    refused(&[base, [8, 1, 0, 1]], 14, 1);
    refused(&[base, [2, 1, 0, 0], [19, 0, 0, 0]], 15, 1);
}

#[test]
fn counts_and_lengths() {
    let rows = vec![[1, 5, 1, 0]; 65];
    is_table(&rows[..64]);
    assert_eq!(checked(&rows[..64]), (0, 0, 0, 64));
    refused(&rows, 11, 0);
    refused(&[], 11, 0);
    let words = rows[..2].concat();
    for (count, len) in
        [(2, 7), (1, 8), (3, 8), (2, 4), (2, 0), (0, 0), (0, 4), (65, 4), (1, 5), (u32::MAX, 8), ((1 << 30) + 2, 8)]
    {
        refused_plan(&Plan { count, words: words[..len].to_vec() }, 11, 0);
    }
    refused_plan(&Plan { count: 2, words: [words, vec![0]].concat() }, 11, 0);
}

#[test]
fn five_conditions() {
    let mut rows = vec![[0, 4, 0, 0]];
    for flow in 0..4 {
        rows.push([13 + flow % 2, flow, flow, 0]);
        assert_eq!(checked(&rows), (0, 0, 0, flow + 2));
    }
    let four = rows.clone();
    rows.push([13, 4, 4, 0]);
    assert_eq!(checked(&rows), (22, 5, 0, 0));
    // Clocks that differ come before the fifth condition; a merge over four finds no clock with five.
    rows[5] = [13, 4, 3, 0];
    assert_eq!(checked(&rows), (21, 5, 0, 0));
    let merge = [four, vec![[15, 4, 4, 4]]].concat();
    assert_eq!(checked(&merge), (21, 5, 0, 0));
    // Kinds 8 to 12 over conditions come before all else.
    for row in [[8, 4, 1, 1], [9, 4, 63, 0], [10, 4, 4095, 0], [11, 4, 0, 9], [12, 4, 0, 0]] {
        rows[5] = row;
        assert_eq!(checked(&rows), (23, 5, 0, 0));
    }
    // So do views, whichever operand has conditions, and whatever w is.
    for row in [[17, 4, 0, 4], [18, 4, 0, 3], [17, 0, 1, 4], [18, 0, 1, 3], [17, 2, 3, 1]] {
        rows[5] = row;
        assert_eq!(checked(&rows), (23, 5, 0, 0));
    }
}

/// Conditions in another order are another clock.
#[test]
fn order_of_conditions() {
    let rows = [[0, 1, 0, 0], [0, 1, 0, 0], [13, 1, 0, 0], [13, 0, 0, 0], [13, 1, 1, 0], [13, 0, 1, 0]];
    let both = |a, b| [rows.to_vec(), vec![[2, a, b, 0]]].concat();
    assert_eq!(checked(&both(2, 3)).0, 0);
    assert_eq!(checked(&both(4, 5)).0, 0);
    assert_eq!(checked(&both(2, 4)), (21, 6, 0, 0));
    let truth = [[0, 1, 0, 0], [13, 0, 0, 0], [14, 0, 0, 0], [2, 1, 2, 0]];
    assert_eq!(checked(&truth), (21, 3, 0, 0));
}

#[test]
fn sources_after_all_rows() {
    // A later row is refused before an earlier register's source; of two registers the lower is named.
    let base = [[0, 2, 0, 0], [0, 3, 0, 0], [7, 0, 0, 1]];
    assert_eq!(checked(&base), (21, 2, 0, 0));
    assert_eq!(checked(&[base.to_vec(), vec![[2, 0, 1, 0]]].concat()), (21, 3, 0, 0));
    assert_eq!(checked(&[base.to_vec(), vec![[9, 0, 63, 0], [9, 3, 63, 0], [9, 4, 63, 0]]].concat()), (22, 5, 0, 0));
    assert_eq!(checked(&[base.to_vec(), vec![[7, 0, 1, 0]]].concat()), (21, 2, 0, 0));
    // A register's clock is its beat's, so that a source above it may rest on it.
    assert_eq!(checked(&[[0, 2, 0, 0], [7, 5, 0, 2], [2, 0, 1, 0]]), (0, 0, 0, 3));
}

#[test]
fn outputs_one_short_exact_and_one_long() {
    let plan = Plan::of(&[[0, 1, 0, 0], [1, 7, 2, 3], [9, 0, 2, 0]]);
    for (len, number) in [(32, 10), (33, 0), (34, 0), (0, 10), (21, 10)] {
        assert_eq!(check(&ALL, &plan, len).parts, (number, 0, 0, if number == 0 { 3 } else { 0 }));
    }
    // 8 + 29 + 61 + 17 bits.
    let packed = write(&ALL, &plan, 489).bytes[..15].to_vec();
    for (len, number) in [(14, 10), (15, 0), (16, 0), (0, 10)] {
        assert_eq!(write(&ALL, &plan, len).parts, (number, 0, 0, if number == 0 { 15 } else { 0 }));
    }
    for (len, number) in [(11, 10), (12, 0), (13, 0), (0, 10)] {
        assert_eq!(read(&ALL, &packed, len).parts, (number, 0, 0, if number == 0 { 3 } else { 0 }));
    }
    // 10 comes after all that is wrong with the table, and before the clocks.
    let wrong = Plan::of(&[[0, 1, 0, 0], [2, 0, 1, 0]]);
    assert_eq!(check(&ALL, &wrong, 0).parts, (15, 1, 0, 0));
    let differ = Plan::of(&[[0, 1, 0, 0], [0, 2, 0, 0], [2, 0, 1, 0]]);
    assert_eq!(check(&ALL, &differ, 32).parts, (10, 0, 0, 0));
    let bad_view = Plan::of(&[[0, 1, 0, 0], [0, 2, 0, 0], [17, 0, 1, 1]]);
    assert_eq!((check(&ALL, &bad_view, 32).parts, check(&ALL, &bad_view, 33).parts), ((10, 0, 0, 0), (40, 2, 0, 0)));
    assert_eq!(read(&ALL, &[packed, vec![0]].concat(), 0).parts, (16, 0, 0, 0));
}

#[test]
fn logs_and_traces_one_short_exact_and_one_long() {
    let plan = Plan::of(&[[0, 1, 0, 0], [0, 1, 0, 0], [2, 0, 1, 0]]);
    for ticks in [0_u32, 1, 9] {
        let (words, cells) = (2 * ticks as usize, 3 * ticks as usize);
        for log in 0..words + 3 {
            let number = if log == words { 0 } else { 32 };
            let outcome = run(&ALL, &plan, &vec![1; log], ticks, (cells, cells));
            assert_eq!(outcome.parts.0, number);
            assert!(number == 0 || outcome.is_untouched());
        }
        for (marks, values) in [(0, 0), (0, 1), (1, 0), (1, 1), (2, 2), (2, 9), (9, 2)] {
            // One short, exact, one long, and far longer, each for itself.
            let lengths = ((cells + marks).saturating_sub(1), (cells + values).saturating_sub(1));
            let fits = lengths.0 >= cells && lengths.1 >= cells;
            let outcome = run(&ALL, &plan, &vec![1; words], ticks, lengths);
            assert_eq!(outcome.parts, if fits { (0, 0, 0, ticks) } else { (33, 0, 0, 0) });
            assert!(written_up_to(&outcome, if fits { cells } else { 0 }));
        }
    }
    // 31 before 32 before 33.
    for (log, ticks, number) in [(1, TICKS + 1, 31), (1, u32::MAX, 31), (1, TICKS, 32), (2, 1, 33)] {
        let outcome = run(&ALL, &plan, &vec![1; log], ticks, (2, 2));
        assert_eq!(outcome.parts, (number, 0, 0, 0));
        assert!(outcome.is_untouched());
    }
}

/// 64 inputs over 131,071 ticks, each buffer one short, exact, and one long; and one tick more.
#[test]
fn the_greatest_run() {
    let mut rng = Rng::new(61);
    let plan = Plan::of(&[[0, 1, 0, 0]; 64]);
    let cells = 64 * TICKS as usize;
    let log = rng.log(cells);
    let outcome = run(&QUICK, &plan, &log, TICKS, (cells, cells + 1));
    assert_eq!(outcome.parts, (0, 0, 0, TICKS));
    assert_eq!(outcome.words[..cells], log);
    assert_eq!(run(&QUICK, &plan, &log, TICKS, (cells - 1, cells)).parts, (33, 0, 0, 0));
    assert_eq!(run(&QUICK, &plan, &log, TICKS, (cells, cells - 1)).parts, (33, 0, 0, 0));
    assert_eq!(run(&QUICK, &plan, &log[1..], TICKS, (cells, cells)).parts, (32, 0, 0, 0));
    let log = rng.log(cells + 64);
    assert_eq!(run(&QUICK, &plan, &log, TICKS + 1, (cells + 64, cells + 64)).parts, (31, 0, 0, 0));
    assert_eq!(run(&QUICK, &plan, &log[..cells + 1], TICKS, (cells, cells)).parts, (32, 0, 0, 0));
}

/// The whole count of ticks against the paper word by word, with the longest clocks: a recorder, what each kind of row makes
/// of its values from the second on, and readings that begin as late as they may.
#[test]
fn all_ticks_word_by_word() {
    let mut rows = vec![[0, 3855, 0, 0], [9, 0, 17, 0], [12, 1, 0, 0], [11, 2, 7, 0], [7, 5, 2, 2], [8, 2, 17, 3855]];
    rows.push([0, 4095, 4095, 0]);
    rows.extend((6..21).map(|before| [10, before, 4095, 0]));
    rows.push([10, 21, 15, 0]);
    let (plan, flows) = (Plan::of(&rows), rows.len());
    let log: Vec<u32> = (0..TICKS).flat_map(|tick| [tick, 1_000_000 + tick]).collect();
    let outcome = run_exactly(&ALL, &plan, &log, TICKS);
    assert_eq!(outcome.parts, (0, 0, 0, TICKS));
    let values = |flow: usize| -> Vec<(usize, u32)> {
        let places = (0..TICKS as usize).map(|tick| (tick, tick * flows + flow));
        places
            .filter(|&(_, place)| outcome.bytes[place] == 1)
            .map(|(tick, place)| (tick, outcome.words[place]))
            .collect()
    };
    assert_eq!(values(1), [(0, 0), (65_535, 65_535), (131_070, 131_070)]);
    assert_eq!(values(2), [(65_535, 65_535), (131_070, 131_070)]);
    assert_eq!(values(3), [(0, 7), (65_535, 65_535), (131_070, 131_070)]);
    assert_eq!(values(4), [(65_535, 5), (131_070, 65_535)]);
    let copies = (0..18).map(|copy| (65_535 + 3_855 * copy, if copy < 17 { 65_535 } else { 131_070 }));
    assert_eq!(values(5), copies.collect::<Vec<_>>());
    // 65,535 ticks after tick 0, and every 4,095 from there on.
    let latest = values(flows - 1);
    assert_eq!((latest.len(), latest[0], latest[16]), (17, (65_535, 1_004_095), (131_055, 1_069_615)));
}

/// The longest packed table and the longest listing.
#[test]
fn the_longest_forms() {
    let rows = [[1, u32::MAX, 4095, 4095]; 64];
    let outcome = write(&ALL, &Plan::of(&rows), 489);
    assert_eq!(outcome.parts, (0, 0, 0, 489));
    assert_eq!(write(&ALL, &Plan::of(&rows), 488).parts, (10, 0, 0, 0));
    // Fifteen delays of 4095 after an input, each line with a phase of 5 digits but the first two; one of 15; lines of 1 to
    // 4 conditions, and 43 more of 4: the first condition of each has a view period, so that its period has 4 digits.
    let mut rows = derived::chain(4095, 4095, &[[10, 0, 4095, 0]; 15]);
    rows.extend([[10, 15, 15, 0], [17, 16, 16, 4095]]);
    rows.extend((17..20).map(|flow| [13, flow, flow, 0]));
    rows.extend([[2, 20, 20, 0]; 43]);
    let written = write(&ALL, &Plan::of(&rows), 489);
    let packed = &written.bytes[..written.parts.3 as usize];
    let length = 6 + 2 * 14 + 8 * 15 + 7 * 16 + (24 + 28 + 32 + 36) + 43 * 36;
    let outcome = listing(&ALL, packed, LISTING_MAX);
    assert_eq!(outcome.parts, (0, 0, 0, length));
    let last = b"63 4095 65535 c16+@4095c17+c18+c19+\n";
    assert_eq!((last.len(), &outcome.bytes[length as usize - 36..length as usize]), (36, &last[..]));
    assert_eq!(listing(&ALL, packed, LISTING_MAX + 1).parts, (0, 0, 0, length));
    assert_eq!(listing(&ALL, packed, LISTING_MAX - 1).parts, (10, 0, 0, 0));
    assert_eq!(listing(&ALL, &[], LISTING_MAX - 1).parts, (10, 0, 0, 0));
    assert_eq!(LISTING_MAX, 2_374);
}
