//! Traces in the archive: by hand, at every edge, spoilt in every cell, and refused in the right order.

use tests::compare::{restore, store, stored_words, words_are, written_up_to};
use tests::faults::refused_plans;
use tests::implementation::{Implementation, Parts};
use tests::{Plan, TICKS};

use crate::endurance::FOUR;
use crate::traces::in_writing;

/// A trace, and the words that it has in store.
#[derive(Clone)]
pub struct Archived {
    pub ticks: u32,
    pub marks: Vec<u8>,
    pub values: Vec<u32>,
    pub stored: Vec<u32>,
}

impl Archived {
    /// A trace of flows with these periods and phases: flow after flow, and from each tick to the one a period later.
    pub fn new(clocks: &[(u32, u32)], ticks: u32, mut value: impl FnMut(u32, usize) -> u32) -> Self {
        let cells = ticks as usize * clocks.len();
        let mut trace = Archived { ticks, marks: vec![0; cells], values: vec![0; cells], stored: vec![] };
        for (flow, &(period, phase)) in clocks.iter().enumerate() {
            for tick in (phase..ticks).step_by(period as usize) {
                let (place, word) = (tick as usize * clocks.len() + flow, value(tick, flow));
                (trace.marks[place], trace.values[place]) = (1, word);
                trace.stored.push(word);
            }
        }
        trace
    }

    /// It has that many words, is stored as those, and comes back.
    pub fn goes_round(&self, of: &[&Implementation], plan: &Plan) {
        let (cells, words) = (self.marks.len(), self.stored.len());
        let context = || format!("{plan:?}, {} ticks", self.ticks);
        assert_eq!(stored_words(of, plan, self.ticks).parts, (0, 0, 0, words as u32), "{}", context());
        let outcome = store(of, plan, self.ticks, (&self.marks, &self.values), words);
        assert_eq!(outcome.parts, (0, 0, 0, words as u32), "{}", context());
        assert!(words_are(&outcome, &self.stored), "{}", context());
        let outcome = restore(of, plan, self.ticks, &self.stored, (cells, cells));
        assert_eq!(outcome.parts, (0, 0, 0, cells as u32), "{}", context());
        assert!(outcome.bytes[..cells] == self.marks && outcome.words[..cells] == self.values, "{}", context());
        assert!(written_up_to(&outcome, cells), "{}", context());
    }

    /// It is not on the calendar: refused by 43, and nothing is written.
    pub fn is_off_calendar(&self, of: &[&Implementation], plan: &Plan) {
        let outcome = store(of, plan, self.ticks, (&self.marks, &self.values), self.stored.len());
        assert_eq!(outcome.parts, (43, 0, 0, 0), "{plan:?}, {} ticks", self.ticks);
        assert!(outcome.is_untouched(), "{plan:?}, {} ticks", self.ticks);
    }

    /// With another mark and value in a cell it is off the calendar. Afterwards it is as it was.
    fn is_off_calendar_with(&mut self, plan: &Plan, place: usize, cell: (u8, u32)) {
        let before = (self.marks[place], self.values[place]);
        (self.marks[place], self.values[place]) = cell;
        self.is_off_calendar(&FOUR, plan);
        (self.marks[place], self.values[place]) = before;
    }

    /// What a cell may not be: present or absent the wrong way round, a mark that is none, a value where it is absent.
    fn wrong_cells(&self, place: usize) -> [(u8, u32); 6] {
        match (self.marks[place], self.values[place]) {
            (1, value) => [(0, value), (0, 0), (2, value), (3, value), (128, value), (255, value)],
            _ => [(1, 0), (1, 5), (2, 0), (255, 0), (0, 1), (0, 1 << 31)],
        }
    }
}

/// Constants with these periods and phases.
fn at(clocks: &[(u32, u32)]) -> Plan {
    Plan::of(&clocks.iter().map(|&(period, phase)| [1, 7, period, phase]).collect::<Vec<_>>())
}

/// A value of its own for each cell.
fn told_apart(tick: u32, flow: usize) -> u32 {
    tick << 6 | flow as u32
}

/// A trace in writing is stored as these words, and comes back.
fn stored_as(rows: &[[u32; 4]], trace: &str, stored: &[u32]) {
    let (plan, ticks) = (Plan::of(rows), trace.split('|').count());
    let cell = |text: &str| text.parse().map_or((0, 0), |value| (1, value));
    let cells = trace.split('|').flat_map(|tick| tick.split_whitespace().map(cell));
    let (marks, values): (Vec<u8>, Vec<u32>) = cells.unzip();
    let archived = Archived { ticks: ticks as u32, marks, values, stored: stored.to_vec() };
    archived.goes_round(&FOUR, &plan);
    let outcome = restore(&FOUR, &plan, archived.ticks, stored, (archived.marks.len(), archived.values.len()));
    assert_eq!(in_writing(&outcome, rows.len(), ticks), trace, "{rows:?}");
}

/// The README's worked example without its condition; later and earlier flows, one that has no value yet, and values at
/// the ends of their range.
#[test]
fn by_hand() {
    let rows = [[0, 2, 0, 0], [9, 0, 2, 0], [7, 20, 1, 1], [4, 2, 1, 0]];
    let trace = "18 18 20 0 | . . . . | 19 . . . | . . . . | 25 25 18 1 | . . . . | 24 . . . | . . . . | 22 22 25 0";
    stored_as(&rows, trace, &[18, 19, 25, 24, 22, 18, 25, 22, 20, 18, 25, 0, 1, 0]);
    stored_as(&[[0, 1, 0, 0]], "5 | 6 | 7", &[5, 6, 7]);
    stored_as(&[[0, 1, 2, 0], [1, 9, 3, 1]], ". . | . 9 | 7 . | 8 . | 6 10", &[7, 8, 6, 9, 10]);
    stored_as(&[[0, 5, 4095, 0], [0, 2, 1, 0]], ". . | . 6 | . .", &[6]);
    stored_as(&[[0, 2, 3, 0], [11, 0, 42, 1]], ". . | . 42 | . . | 23 24 | . . | 25 26", &[23, 25, 42, 24, 26]);
    let rows = [[0, 3, 2, 0], [8, 0, 3, 1], [12, 1, 0, 0]];
    stored_as(&rows, ". . . | . . . | 4 5 . | . 6 8 | . 7 9", &[4, 5, 6, 7, 8, 9]);
    stored_as(&[[0, 1, 0, 0]], "0 | 0 | 4294967295 | 2147483648", &[0, 0, u32::MAX, 1 << 31]);
}

/// How many words traces have, worked out by hand: below, at and past a phase, and of as many ticks as there may be.
#[test]
fn counts() {
    let recorder = [[0, 3855, 0, 0], [9, 0, 17, 0], [12, 1, 0, 0]];
    // From tick 4095 on, from 4095 ticks later each, and from tick 65,535 on.
    let mut late = vec![[0, 4095, 4095, 0]];
    late.extend((0..15).map(|before| [10, before, 4095, 0]));
    late.push([10, 15, 15, 0]);
    for (rows, counts) in [
        (&[[0, 1, 0, 0]][..], &[(0, 0), (1, 1), (2, 2), (63, 63), (64, 64), (65, 65), (TICKS, 131_071)][..]),
        (&[[1, 5, 3, 2]], &[(0, 0), (1, 0), (2, 0), (3, 1), (5, 1), (6, 2), (TICKS, 43_690)]),
        (&[[0, 4095, 4095, 0]], &[(4_094, 0), (4_095, 0), (4_096, 1), (8_190, 1), (8_191, 2), (TICKS, 32)]),
        (&[[0, 1, 4095, 0], [0, 4095, 0, 0]], &[(0, 0), (1, 1), (4_095, 1), (4_096, 3), (4_097, 4)]),
        (&recorder, &[(0, 0), (1, 2), (3_855, 2), (3_856, 3), (65_535, 18), (65_536, 21), (131_070, 37), (TICKS, 40)]),
        (&late, &[(4_095, 0), (4_096, 1), (65_535, 136), (65_536, 137), (TICKS, 409)]),
        (&[[1, 7, 1, 0]; 64], &[(0, 0), (1, 64), (64, 4_096), (TICKS, 8_388_544)]),
        (&[[1, 7, 4095, 4095]; 64], &[(4_095, 0), (4_096, 64), (TICKS, 2_048)]),
    ] {
        let plan = Plan::of(rows);
        for &(ticks, words) in counts {
            assert_eq!(stored_words(&FOUR, &plan, ticks).parts, (0, 0, 0, words), "{rows:?}, {ticks} ticks");
        }
        for ticks in [TICKS + 1, TICKS + 2, u32::MAX] {
            assert_eq!(stored_words(&FOUR, &plan, ticks).parts, (31, 0, 0, 0), "{rows:?}, {ticks} ticks");
        }
    }
}

/// Counts of ticks at which a block of ticks may end, and next to them.
const EDGES: [u32; 19] = [0, 1, 2, 31, 32, 33, 62, 63, 64, 65, 127, 128, 129, 255, 256, 257, 511, 512, 513];

/// Periods and phases next to the edges too: all flows in one plan, and each alone.
#[test]
fn edges_of_blocks() {
    let phases = [0, 1, 62, 63, 64, 65, 127, 128, 255, 256];
    for periods in [[1, 2, 3, 63], [64, 65, 100, 128], [127, 192, 256, 257]] {
        let clocks: Vec<(u32, u32)> =
            periods.into_iter().flat_map(|period| phases.map(|phase| (period, phase))).collect();
        for ticks in EDGES {
            Archived::new(&clocks, ticks, told_apart).goes_round(&FOUR, &at(&clocks));
            for clock in &clocks {
                Archived::new(&[*clock], ticks, told_apart).goes_round(&FOUR, &at(&[*clock]));
            }
        }
    }
}

/// Every cell of a trace that goes past the edges, wrong in every way; and with another value where it is present,
/// which is then the word in its place.
#[test]
fn every_cell() {
    let clocks = [(1, 0), (2, 1), (64, 63), (128, 0), (3, 255)];
    let plan = at(&clocks);
    for ticks in [1, 65, 257] {
        let mut archived = Archived::new(&clocks, ticks, |tick, flow| told_apart(tick, flow) + 1);
        for place in 0..archived.marks.len() {
            for cell in archived.wrong_cells(place) {
                archived.is_off_calendar_with(&plan, place, cell);
            }
            if archived.marks[place] == 1 {
                let mut other = archived.clone();
                let word = archived.stored.iter().position(|&word| word == archived.values[place]);
                other.values[place] = u32::MAX;
                other.stored[word.expect("each value is stored")] = u32::MAX;
                other.goes_round(&FOUR, &plan);
            }
        }
    }
}

/// As many ticks as there may be: a recorder, its values from the second on, and a flow that is always there. Cells at
/// the edges, at the first and the last tick and around the recorder's, each wrong in one of the ways.
#[test]
fn cells_of_all_ticks() {
    let plan = Plan::of(&[[0, 3855, 0, 0], [9, 0, 17, 0], [12, 1, 0, 0], [1, 7, 1, 0]]);
    let mut archived = Archived::new(&[(3855, 0), (65_535, 0), (65_535, 65_535), (1, 0)], TICKS, told_apart);
    archived.goes_round(&FOUR, &plan);
    let recorded = [0, 65_535, 131_070, 65_535, 131_070].map(|tick| tick << 6);
    let expected: Vec<u32> = recorded.into_iter().zip([1, 1, 1, 2, 2]).map(|(word, flow)| word | flow).collect();
    assert_eq!(archived.stored[35..40], expected);
    for (round, tick) in [0, 1, 63, 64, 65, 127, 128, 255, 256, 3_854, 3_855, 65_534, 65_535, 65_536, 131_069, 131_070]
        .into_iter()
        .enumerate()
    {
        for flow in 0..4 {
            let place = 4 * tick + flow;
            let cell = archived.wrong_cells(place)[(round + flow) % 6];
            archived.is_off_calendar_with(&plan, place, cell);
        }
    }
}

/// 64 flows over 131,071 ticks, all cells present.
#[test]
fn the_greatest_trace() {
    let clocks = [(1, 0); 64];
    Archived::new(&clocks, TICKS, told_apart).goes_round(&FOUR, &at(&clocks));
}

/// Each buffer one short, exact and one long, empty and twice as long, each for itself: 42 unless all are exact.
#[test]
fn lengths() {
    let clocks = [(1, 0), (3, 1)];
    let plan = at(&clocks);
    for ticks in [0, 1, 2, 64, 65, TICKS] {
        let archived = Archived::new(&clocks, ticks, told_apart);
        let (cells, words) = (archived.marks.len(), archived.stored.len());
        let [marks, values, stored] = [0, 1, 2].map(|which| {
            let exact = if which == 2 { words } else { cells };
            [exact, exact + 1, exact.saturating_sub(1), 0, 2 * exact]
        });
        // Twice as much of each: what is right, and zeros behind it.
        let all_marks = [&archived.marks[..], &vec![0; cells + 1]].concat();
        let all_values = [&archived.values[..], &vec![0; cells + 1]].concat();
        let all_stored = [&archived.stored[..], &vec![0; words + 1]].concat();
        for case in 0..125 {
            let lengths = (marks[case % 5], values[case / 5 % 5], stored[case / 25]);
            // With many ticks only those in which one buffer at the most is wrong.
            let wrong = [lengths.0 != cells, lengths.1 != cells, lengths.2 != words];
            let wrong = wrong.into_iter().filter(|wrong| *wrong).count();
            if ticks == TICKS && wrong > 1 {
                continue;
            }
            let trace = (&all_marks[..lengths.0], &all_values[..lengths.1]);
            let taken = store(&FOUR, &plan, ticks, trace, lengths.2);
            let given = restore(&FOUR, &plan, ticks, &all_stored[..lengths.2], (lengths.0, lengths.1));
            if wrong == 0 {
                assert_eq!((taken.parts, given.parts), ((0, 0, 0, words as u32), (0, 0, 0, cells as u32)));
                assert!(words_are(&taken, &archived.stored) && written_up_to(&given, cells));
            } else {
                assert_eq!((taken.parts, given.parts), ((42, 0, 0, 0), (42, 0, 0, 0)), "{ticks} ticks, {lengths:?}");
                assert!(taken.is_untouched() && given.is_untouched(), "{ticks} ticks, {lengths:?}");
            }
        }
    }
}

/// All three calls are refused with these parts and write nothing, with so many marks, values and words.
pub fn all_refuse(
    of: &[&Implementation],
    plan: &Plan,
    ticks: u32,
    (marks, values, words): (usize, usize, usize),
    parts: Parts,
) {
    for outcome in [
        stored_words(of, plan, ticks),
        store(of, plan, ticks, (&vec![1; marks], &vec![9; values]), words),
        restore(of, plan, ticks, &vec![9; words], (marks, values)),
    ] {
        assert_eq!(outcome.parts, parts, "{plan:?}, {ticks} ticks, {marks}, {values} and {words}");
        assert!(outcome.is_untouched(), "{plan:?}, {ticks} ticks");
    }
}

/// Of two causes the earlier one is told: the table's, the check's, the ticks, the conditions, the lengths, the cells.
#[test]
fn order_of_refusals() {
    for (ticks, lengths) in
        [(0, (0, 0, 0)), (2, (6, 6, 5)), (2, (0, 6, 5)), (TICKS + 1, (0, 0, 0)), (u32::MAX, (9, 8, 7))]
    {
        for (plan, parts) in refused_plans() {
            all_refuse(&FOUR, &plan, ticks, lengths, parts);
        }
    }
    let (plain, sampled) = (Plan::of(&[[0, 1, 0, 0]]), Plan::of(&[[0, 1, 0, 0], [13, 0, 0, 0]]));
    for lengths in [(0, 0, 0), (2, 2, 1), (9, 8, 7)] {
        for ticks in [TICKS + 1, u32::MAX] {
            all_refuse(&FOUR, &plain, ticks, lengths, (31, 0, 0, 0));
            all_refuse(&FOUR, &sampled, ticks, lengths, (31, 0, 0, 0));
        }
        for ticks in [0, 1, TICKS] {
            all_refuse(&FOUR, &sampled, ticks, lengths, (41, 0, 0, 0));
        }
    }
    // Marks that are none, in buffers one of which is too long or too short, and in buffers that fit.
    for (marks, values, words, number) in [(2, 3, 3, 42), (3, 4, 3, 42), (3, 3, 2, 42), (3, 3, 4, 42), (3, 3, 3, 43)] {
        let outcome = store(&FOUR, &plain, 3, (&vec![9; marks], &vec![9; values]), words);
        assert_eq!(outcome.parts, (number, 0, 0, 0), "{marks}, {values} and {words}");
        assert!(outcome.is_untouched());
    }
}

/// Each kind that samples or merges, behind one row, two and as many as there may be; and all other kinds in one plan.
#[test]
fn kinds() {
    let input = [0, 2, 1, 0];
    for others in [1, 2, 60] {
        for rows in [
            vec![[13, 0, 0, 0]],
            vec![[14, 0, 0, 0]],
            vec![[13, 0, 0, 0], [14, 0, 0, 0], [15, 0, others, others + 1]],
            vec![[17, 0, 0, 2]],
            vec![[18, 0, 0, 4]],
        ] {
            let rows = [vec![input; others as usize], rows].concat();
            for (ticks, words) in [(0, 0), (1, 0), (2, rows.len())] {
                let cells = ticks as usize * rows.len();
                all_refuse(&FOUR, &Plan::of(&rows), ticks, (cells, cells, words), (41, 0, 0, 0));
            }
        }
    }
    let rows = [
        input,
        [1, 3, 2, 1],
        [2, 0, 1, 0],
        [3, 0, 1, 0],
        [4, 0, 1, 0],
        [5, 0, 1, 0],
        [6, 0, 1, 0],
        [7, 9, 0, 6],
        [8, 0, 2, 1],
        [9, 0, 3, 0],
        [10, 0, 4, 0],
        [11, 10, 8, 3],
        [12, 0, 0, 0],
    ];
    let clocks = [[(2, 1); 8].to_vec(), vec![(1, 1), (6, 1), (2, 5), (2, 3), (2, 3)]].concat();
    for ticks in 0..12 {
        Archived::new(&clocks, ticks, told_apart).goes_round(&FOUR, &Plan::of(&rows));
    }
}
