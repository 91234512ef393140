//! Rows: the kinds, their fields, the ranges and widths of the fields, and the plain form.

use crate::{refuse, refuse_at, Refused};

/// One row of a table that is checked or run, so of any kind but 16. `a`, `b`, `c`, `beat` and `source` are flow numbers.
#[derive(Clone, Copy, Debug)]
pub enum Row {
    Input { period: u32, phase: u32 },
    Constant { value: u32, period: u32, phase: u32 },
    Add { a: usize, b: usize },
    Subtract { a: usize, b: usize },
    Less { a: usize, b: usize },
    Equal { a: usize, b: usize },
    Larger { a: usize, b: usize },
    Register { initial: u32, beat: usize, source: usize },
    Faster { a: usize, k: u32, gap: u32 },
    Slower { a: usize, k: u32 },
    Later { a: usize, d: u32 },
    Head { a: usize, value: u32, s: u32 },
    Tail { a: usize },
    When { a: usize, c: usize },
    WhenNot { a: usize, c: usize },
    Merge { c: usize, a: usize, b: usize },
    WhenSeen { a: usize, c: usize, w: u32 },
    WhenNotSeen { a: usize, c: usize, w: u32 },
}

/// What a field of a row is.
#[derive(Clone, Copy, Debug, PartialEq, Eq)]
pub enum Field {
    Operand,
    Source,
    K,
    Period,
    Gap,
    Phase,
    D,
    S,
    View,
    Value,
}

use Field::*;

impl Field {
    /// Flow numbers and k take 6 bits; period, phase, gap, d, s and a view period take 12; values take 32.
    pub fn width(self) -> u32 {
        match self {
            Operand | Source | K => 6,
            Period | Gap | Phase | D | S | View => 12,
            Value => 32,
        }
    }

    /// Period, g and a view period: 1 to 4095. Phase, d, s: 0 to 4095. k: 1 to 63. Values: any 32-bit number.
    fn in_range(self, word: u32) -> bool {
        match self {
            Operand | Source => word <= 63,
            K => (1..=63).contains(&word),
            Period | Gap | View => (1..=4095).contains(&word),
            Phase | D | S => word <= 4095,
            Value => true,
        }
    }

    /// Whether it is an operand, a beat among them, or a source.
    pub fn is_flow(self) -> bool {
        matches!(self, Operand | Source)
    }
}

/// The fields of a kind, in the order given.
pub fn fields(kind: u32) -> &'static [Field] {
    match kind {
        0 => &[Period, Phase],
        1 => &[Value, Period, Phase],
        2..=6 => &[Operand, Operand],
        7 => &[Value, Operand, Source],
        8 => &[Operand, K, Gap],
        9 => &[Operand, K],
        10 => &[Operand, D],
        11 => &[Operand, Value, S],
        12 => &[Operand],
        13 | 14 => &[Operand, Operand],
        15 => &[Operand, Operand, Operand],
        16 => &[],
        17 | 18 => &[Operand, Operand, View],
        _ => unreachable!("the kind was tested"),
    }
}

/// The kind of the input without fields.
pub const UNRATED: u32 = 16;

/// The kinds that a call knows: 0 to 18, and only those that read, write or fill a table the input without fields.
#[derive(Clone, Copy, Debug, PartialEq, Eq)]
pub enum Known {
    All,
    AllButUnrated,
}

/// Number 13: a kind above 18, or the input without fields where it is not known.
pub fn test_kind(flow: usize, kind: u32, known: Known) -> Refused<()> {
    if kind > 18 || kind == UNRATED && known == Known::AllButUnrated {
        return refuse_at(13, flow);
    }
    Ok(())
}

/// Numbers 14 and 15 of a row whose kind was tested.
pub fn test_fields(flow: usize, count: usize, words: &[u32]) -> Refused<()> {
    let fields = fields(words[0]);
    for (place, &word) in words[1..].iter().enumerate() {
        match fields.get(place) {
            Some(field) if !field.in_range(word) => return refuse_at(14, flow),
            None if word != 0 => return refuse_at(14, flow),
            _ => {}
        }
    }
    for (&field, &word) in fields.iter().zip(&words[1..]) {
        let operand_not_lower = field == Operand && word as usize >= flow;
        let source_not_in_table = field == Source && word as usize >= count;
        if operand_not_lower || source_not_in_table {
            return refuse_at(15, flow);
        }
    }
    Ok(())
}

/// The row of four words that passed every test, of any kind but 16.
pub fn row(words: &[u32]) -> Row {
    let (x, y, z) = (words[1], words[2], words[3]);
    let (flow_x, flow_y, flow_z) = (x as usize, y as usize, z as usize);
    match words[0] {
        0 => Row::Input { period: x, phase: y },
        1 => Row::Constant { value: x, period: y, phase: z },
        2 => Row::Add { a: flow_x, b: flow_y },
        3 => Row::Subtract { a: flow_x, b: flow_y },
        4 => Row::Less { a: flow_x, b: flow_y },
        5 => Row::Equal { a: flow_x, b: flow_y },
        6 => Row::Larger { a: flow_x, b: flow_y },
        7 => Row::Register { initial: x, beat: flow_y, source: flow_z },
        8 => Row::Faster { a: flow_x, k: y, gap: z },
        9 => Row::Slower { a: flow_x, k: y },
        10 => Row::Later { a: flow_x, d: y },
        11 => Row::Head { a: flow_x, value: y, s: z },
        12 => Row::Tail { a: flow_x },
        13 => Row::When { a: flow_x, c: flow_y },
        14 => Row::WhenNot { a: flow_x, c: flow_y },
        15 => Row::Merge { c: flow_x, a: flow_y, b: flow_z },
        17 => Row::WhenSeen { a: flow_x, c: flow_y, w: z },
        18 => Row::WhenNotSeen { a: flow_x, c: flow_y, w: z },
        _ => unreachable!("the kind was tested"),
    }
}

/// Number 11: count not 1 to 64.
pub fn test_count(count: u32) -> Refused<usize> {
    if !(1..=64).contains(&count) {
        return refuse(11);
    }
    Ok(count as usize)
}

/// The refusals of a count and plain words, in the paper's order.
pub fn test_table(plan_count: u32, words: &[u32], known: Known) -> Refused<()> {
    let count = test_count(plan_count)?;
    if words.len() != 4 * count {
        return refuse(11);
    }
    for (flow, words) in words.chunks(4).enumerate() {
        test_kind(flow, words[0], known)?;
        test_fields(flow, count, words)?;
    }
    Ok(())
}

/// The table that a count and plain words stand for where it is checked or run: without kind 16.
pub fn table(plan_count: u32, words: &[u32]) -> Refused<Vec<Row>> {
    test_table(plan_count, words, Known::AllButUnrated)?;
    Ok(words.chunks(4).map(row).collect())
}

/// The operands, beats and sources of a row in four words.
pub fn needed(row: &[u32]) -> impl Iterator<Item = usize> + '_ {
    let all = fields(row[0]).iter().zip(&row[1..]);
    all.filter(|(field, _)| field.is_flow()).map(|(_, &word)| word as usize)
}
