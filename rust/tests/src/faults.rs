//! Faults planted in plans, in packed bytes and in traces.

use crate::implementation::Parts;
use crate::rng::Rng;
use crate::Plan;

/// The fields of each kind: f a flow, s a source, k copies, p a period, gap or view period, t a phase, delay or tick, v a
/// value.
pub const FIELDS: [&str; 19] = [
    "pt", "vpt", "ff", "ff", "ff", "ff", "ff", "vfs", "fkp", "fk", "ft", "fvt", "f", "ff", "ff", "fff", "", "ffp",
    "ffp",
];

/// Plants one to three faults of any kind.
pub fn plant(rng: &mut Rng, plan: &mut Plan) {
    for _ in 0..rng.pick(&[1, 1, 1, 2, 3]) {
        match rng.below(17) {
            0 => wrong_kind(rng, plan),
            1 => wrong_field(rng, plan),
            2 => unused_word(rng, plan),
            3 => wrong_operand(rng, plan),
            4 => wrong_count(rng, plan),
            5 => other_source(rng, plan),
            6 => beyond(rng, plan),
            7 => swap_rows(rng, plan),
            8 => any_word(rng, plan),
            9 => not_plain(rng, plan),
            10 => fifth_condition(rng, plan),
            11 => unrated(rng, plan),
            12 => any_view(rng, plan),
            _ => disturb(rng, plan),
        }
    }
}

/// The place of the first word of a random row, if there is a row.
fn some_row(rng: &mut Rng, plan: &Plan) -> Option<usize> {
    match plan.words.len() / 4 {
        0 => None,
        rows => Some(4 * rng.below(rows)),
    }
}

/// The fields of the row at a place.
fn fields(plan: &Plan, row: usize) -> &'static str {
    FIELDS.get(plan.words[row] as usize).copied().unwrap_or("")
}

/// The place of a random field of one of the given sorts, with its row and sort.
fn some_field(rng: &mut Rng, plan: &Plan, sorts: &str) -> Option<(usize, usize, char)> {
    let rows = plan.words.len() / 4;
    let has = |row: usize| fields(plan, 4 * row).chars().any(|sort| sorts.contains(sort));
    let row = 4 * rng.pick_where(rows, has)?;
    let of: Vec<(usize, char)> = fields(plan, row).char_indices().filter(|(_, sort)| sorts.contains(*sort)).collect();
    let (place, sort) = rng.pick(&of);
    Some((row, row + 1 + place, sort))
}

fn wrong_kind(rng: &mut Rng, plan: &mut Plan) {
    if let Some(row) = some_row(rng, plan) {
        plan.words[row] = rng.pick(&[16, 19, 31, 32, 255, 1 << 16, u32::MAX]);
    }
}

/// A field outside its range: one past either end, or far away.
fn wrong_field(rng: &mut Rng, plan: &mut Plan) {
    if let Some((_, place, sort)) = some_field(rng, plan, "fskpt") {
        let far = rng.word() | 1 << 20;
        plan.words[place] = match sort {
            'f' | 's' => rng.pick(&[64, 65, 128, far, u32::MAX]),
            'k' => rng.pick(&[0, 64, far]),
            'p' => rng.pick(&[0, 4096, far]),
            _ => rng.pick(&[4096, 4097, far]),
        };
    }
}

fn unused_word(rng: &mut Rng, plan: &mut Plan) {
    if let Some(row) = some_row(rng, plan) {
        let used = fields(plan, row).len();
        if used < 3 {
            plan.words[row + 1 + used + rng.below(3 - used)] = rng.pick(&[1, 63, u32::MAX]);
        }
    }
}

/// An operand that is the flow itself or above, or a source behind the table; both within 6 bits.
fn wrong_operand(rng: &mut Rng, plan: &mut Plan) {
    if let Some((row, place, sort)) = some_field(rng, plan, "fs") {
        let lowest = if sort == 'f' { row / 4 } else { plan.words.len() / 4 };
        if lowest < 64 {
            plan.words[place] = match rng.percent(60) {
                true => lowest as u32,
                false => rng.range(lowest as u32, 63),
            };
        }
    }
}

fn wrong_count(rng: &mut Rng, plan: &mut Plan) {
    match rng.below(6) {
        0 => plan.count = rng.pick(&[0, 65, 64, 256, 1 << 30, (1 << 30) + 1, u32::MAX]),
        1 => plan.count = plan.count.wrapping_add(1),
        2 => plan.count = plan.count.wrapping_sub(1),
        3 => plan.words.truncate(plan.words.len().saturating_sub(1 + rng.below(4))),
        4 => plan.words.push(0),
        _ => plan.words.clear(),
    }
}

/// Another source within the table.
fn other_source(rng: &mut Rng, plan: &mut Plan) {
    if let Some((_, place, _)) = some_field(rng, plan, "s") {
        plan.words[place] = rng.below(plan.words.len() / 4) as u32;
    }
}

/// The greatest copies, delay, period or phase that a field has; or a chain of rows, each with one over the row before,
/// where there were others. Three slower rows are beyond the limits whatever they stand on, or seventeen later ones.
pub fn beyond(rng: &mut Rng, plan: &mut Plan) {
    let rows = plan.words.len() / 4;
    let first = some_row(rng, plan).unwrap_or(0) / 4;
    if first > 0 && rng.percent(60) {
        let (kind, most) = rng.pick(&[(9, 63), (9, 63), (9, 41), (10, 4095), (10, 4094)]);
        let last = rows.min(first + rng.pick(&[1, 2, 3, 3, 17]));
        let mut a = rng.below(first) as u32;
        for flow in first..last {
            plan.words[4 * flow..][..4].copy_from_slice(&[kind, a, most, 0]);
            a = flow as u32;
        }
    } else if let Some((_, place, sort)) = some_field(rng, plan, "kpt") {
        plan.words[place] = match sort {
            'k' => 63,
            _ => rng.pick(&[4095, 4094, 2048]),
        };
    }
}

/// One of kinds 8 to 12, 17 and 18 over a row of kinds 13, 14, 17 and 18.
fn not_plain(rng: &mut Rng, plan: &mut Plan) {
    let rows = plan.words.len() / 4;
    let sampled = rng.pick_where(rows, |row| matches!(plan.words[4 * row], 13 | 14 | 17 | 18));
    if let Some(a) = sampled.filter(|a| a + 1 < rows) {
        let flow = a + 1 + rng.below(rows - a - 1);
        let (a, b) = (a as u32, rng.below(flow) as u32);
        let moves = [[8, a, 2, 1], [9, a, 2, 0], [10, a, 0, 0], [11, a, 5, 0], [12, a, 0, 0]];
        let views = [[17, a, b, 12], [17, b, a, 12], [18, a, a, 12]];
        let row = if rng.percent(70) { rng.pick(&moves) } else { rng.pick(&views) };
        plan.words[4 * flow..][..4].copy_from_slice(&row);
    }
}

/// A view of any lower flows, its period any small number or a multiple of many.
fn any_view(rng: &mut Rng, plan: &mut Plan) {
    let flow = some_row(rng, plan).unwrap_or(0) / 4;
    if flow > 0 {
        let [a, c] = [(); 2].map(|_| rng.below(flow) as u32);
        let w = if rng.percent(50) { rng.range(1, 12) } else { rng.pick(&[12, 60, 720, 2520, 4095]) };
        plan.words[4 * flow..][..4].copy_from_slice(&[rng.range(17, 18), a, c, w]);
    }
}

/// Five rows that each sample the one before.
fn fifth_condition(rng: &mut Rng, plan: &mut Plan) {
    let rows = plan.words.len() / 4;
    if rows > 5 {
        let first = 1 + rng.below(rows - 5);
        for flow in first..first + 5 {
            let before = flow as u32 - 1;
            let row = [rng.range(13, 14), before, before, 0];
            plan.words[4 * flow..][..4].copy_from_slice(&row);
        }
    }
}

/// An input without a rate where there was another row.
fn unrated(rng: &mut Rng, plan: &mut Plan) {
    if let Some(row) = some_row(rng, plan) {
        plan.words[row..row + 4].copy_from_slice(&[16, 0, 0, 0]);
    }
}

fn swap_rows(rng: &mut Rng, plan: &mut Plan) {
    if let (Some(row), Some(other)) = (some_row(rng, plan), some_row(rng, plan)) {
        for place in 0..4 {
            plan.words.swap(row + place, other + place);
        }
    }
}

fn any_word(rng: &mut Rng, plan: &mut Plan) {
    if !plan.words.is_empty() {
        let place = rng.below(plan.words.len());
        plan.words[place] = rng.pick(&[0, 1, 2, 3, 7, 8, 12, 13, 14, 15, 16, 17, 18, 19, 63, 64, 4095, 4096, u32::MAX]);
    }
}

/// Another number within the range of a field, or a like kind: what the check and the run have to find.
pub fn disturb(rng: &mut Rng, plan: &mut Plan) {
    if rng.percent(25) {
        if let Some(row) = some_row(rng, plan) {
            let like: &[u32] = match plan.words[row] {
                2..=6 | 13 | 14 => &[2, 3, 4, 5, 6, 13, 14],
                9 | 10 => &[9, 10],
                17 | 18 => &[17, 18],
                kind => &[kind],
            };
            plan.words[row] = rng.pick(like);
        }
    } else if let Some((row, place, sort)) = some_field(rng, plan, "ffkpt") {
        plan.words[place] = match sort {
            'f' => rng.below((row / 4).max(1)) as u32,
            'k' => rng.range(1, 6),
            'p' => rng.range(1, 12),
            _ => rng.range(0, 12),
        };
    }
}

/// Breaks a sound plan so that the check mostly answers it with 21: other numbers and like kinds, other sources, rows
/// over flows that do not go together.
pub fn break_clocks(rng: &mut Rng, plan: &mut Plan) {
    for _ in 0..rng.pick(&[1, 2, 3, 5, 8]) {
        match rng.below(21) {
            0 => beyond(rng, plan),
            1 => any_view(rng, plan),
            2..=6 => other_source(rng, plan),
            7..=10 => any_operands(rng, plan),
            _ => disturb(rng, plan),
        }
    }
}

/// A row that needs its operands' clocks to be equal or of some sort, over any lower flows.
fn any_operands(rng: &mut Rng, plan: &mut Plan) {
    let flow = some_row(rng, plan).unwrap_or(0) / 4;
    if flow > 0 {
        let [a, b, c] = [(); 3].map(|_| rng.below(flow) as u32);
        let row = rng.pick(&[[2, a, b, 0], [8, a, 2, 3], [11, a, 5, 7], [13, a, b, 0], [15, a, b, c]]);
        plan.words[4 * flow..][..4].copy_from_slice(&row);
    }
}

/// Small random rows of any kind: operands mostly lower, numbers small, nothing meant to fit. Few plans have inputs
/// without a rate.
pub fn any_rows(rng: &mut Rng) -> Plan {
    let sources: &[u32] = if rng.percent(5) { &[0, 1, 16] } else { &[0, 1] };
    rows_of(rng, sources, &[2, 3, 4, 5, 6, 7, 8, 9, 10, 11, 12, 13, 14, 15, 17, 18])
}

/// Such rows, but of few kinds: views most of all, and what gives these their clocks.
pub fn any_views(rng: &mut Rng) -> Plan {
    rows_of(rng, &[0, 0, 1], &[17, 18, 17, 18, 17, 18, 8, 9, 10, 12, 13])
}

/// Small random rows, with sources and others of these kinds.
fn rows_of(rng: &mut Rng, sources: &[u32], others: &[u32]) -> Plan {
    let flows = 1 + rng.below(8);
    let mut rows = Vec::new();
    for flow in 0..flows {
        let kind = if flow == 0 || rng.percent(25) { rng.pick(sources) } else { rng.pick(others) };
        let mut row = [kind, 0, 0, 0];
        for (word, sort) in row[1..].iter_mut().zip(FIELDS[kind as usize].chars()) {
            *word = match sort {
                'f' => rng.below(flow) as u32,
                's' => rng.below(flows) as u32,
                'k' => rng.range(1, 3),
                'p' => rng.range(1, 3),
                't' => rng.range(0, 2),
                _ => rng.value(),
            };
        }
        rows.push(row);
    }
    Plan::of(&rows)
}

/// Plans that are refused, and how: those that are no table, also where clocks differ in rows before the one that is
/// wrong, and then those that the check refuses, each number of it for each cause.
pub fn refused_plans() -> Vec<(Plan, Parts)> {
    let (input, slow, when) = ([0, 1, 0, 0], [0, 2, 0, 0], [13, 0, 0, 0]);
    let differ = [input, slow, [2, 0, 1, 0]];
    let wrong = |row: [u32; 4]| [&differ[..], &[row]].concat();
    let plans = [
        (vec![], (11, 0, 0, 0)),
        (vec![input; 65], (11, 0, 0, 0)),
        (wrong([16, 0, 0, 0]), (13, 3, 0, 0)),
        (wrong([19, 0, 0, 0]), (13, 3, 0, 0)),
        (wrong([17, 0, 0, 0]), (14, 3, 0, 0)),
        (wrong([9, 0, 64, 0]), (14, 3, 0, 0)),
        (wrong([12, 3, 0, 0]), (15, 3, 0, 0)),
        (differ.to_vec(), (21, 2, 0, 0)),
        (vec![input, when, slow, [7, 5, 0, 2]], (21, 3, 0, 0)),
        (vec![input, when, [0, 2048, 0, 0], [9, 2, 32, 0]], (22, 3, 0, 0)),
        (vec![input, [9, 0, 63, 0], [9, 1, 63, 0], [9, 2, 63, 0]], (22, 3, 0, 0)),
        (vec![input, when, [12, 1, 0, 0]], (23, 2, 0, 0)),
        (vec![input, slow, [17, 0, 1, 1]], (40, 2, 0, 0)),
        (vec![slow, [0, 3, 1, 0], [17, 0, 1, 6]], (40, 2, 0, 0)),
    ];
    plans.into_iter().map(|(rows, parts)| (Plan::of(&rows), parts)).collect()
}

/// Damages packed bytes: bits turned over, cut, lengthened, or filled up wrongly.
pub fn damage(rng: &mut Rng, packed: &mut Vec<u8>) {
    match rng.below(8) {
        0 => packed.truncate(rng.below(packed.len() + 1)),
        1 => packed.truncate(packed.len().saturating_sub(1)),
        2 => packed.push(rng.pick(&[0, 0, 1, 128, 255])),
        3 => packed.extend(vec![0; 1 + rng.below(600)]),
        4 => *packed.last_mut().expect("packed bytes are not empty") |= 1 << rng.below(3),
        5 => packed[0] = rng.pick(&[0, 1, 63, 64, 65, 255, packed[0].wrapping_add(1), packed[0].wrapping_sub(1)]),
        _ => {
            for _ in 0..rng.pick(&[1, 1, 1, 2, 5]) {
                let bit = rng.below(8 * packed.len());
                packed[bit / 8] ^= 0x80 >> (bit % 8);
            }
        }
    }
}

/// Spoils a cell of a trace that is on its calendar, often the first or the last: another mark, or a value where it is
/// absent. Tells whether there was one.
pub fn spoil(rng: &mut Rng, marks: &mut [u8], values: &mut [u32]) -> bool {
    let cells = marks.len().min(values.len());
    if cells == 0 {
        return false;
    }
    let place = rng.below(cells);
    let place = rng.pick(&[0, cells - 1, place, place, place]);
    match marks[place] {
        0 if rng.percent(40) => values[place] = rng.value().max(1),
        0 => marks[place] = rng.pick(&[1, 1, 2, 128, 255]),
        _ => marks[place] = rng.pick(&[0, 0, 2, 3, 129, 255]),
    }
    true
}
