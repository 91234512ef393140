//! What each kind of row gives at a tick, from the history of the trace alone.

use crate::rows::Row;

/// A cell of the trace: a value, or absent.
pub type Cell = Option<u32>;

/// The operands of a row do not fit together at this tick.
pub struct Clash;

/// The cells worked out so far, tick after tick; the last tick may be incomplete.
pub struct History {
    ticks: Vec<Vec<Cell>>,
    /// The ticks at which each flow was present, in order.
    presences: Vec<Vec<usize>>,
}

impl History {
    /// That of so many flows before their first tick.
    pub fn new(flows: usize) -> Self {
        History { ticks: Vec::new(), presences: vec![Vec::new(); flows] }
    }

    /// Begins a tick.
    pub fn begin_tick(&mut self) {
        self.ticks.push(Vec::new());
    }

    /// Adds the cell of the next flow.
    pub fn push(&mut self, cell: Cell) {
        let tick = self.ticks.len() - 1;
        let flow = self.ticks[tick].len();
        if cell.is_some() {
            self.presences[flow].push(tick);
        }
        self.ticks[tick].push(cell);
    }

    /// The cell of a flow at a tick.
    pub fn cell(&self, a: usize, t: usize) -> Cell {
        self.ticks[t][a]
    }

    /// Whether a flow is present at a tick.
    pub fn present(&self, a: usize, t: usize) -> bool {
        self.cell(a, t).is_some()
    }

    /// Every cell with its tick and flow, in the order in which they were worked out.
    pub fn cells(&self) -> impl Iterator<Item = (usize, usize, Cell)> + '_ {
        let ticks = self.ticks.iter().enumerate();
        ticks.flat_map(|(tick, cells)| cells.iter().enumerate().map(move |(flow, &cell)| (tick, flow, cell)))
    }

    /// The ticks before t at which a flow was present, in order.
    fn earlier_presences(&self, a: usize, t: usize) -> &[usize] {
        let until = self.presences[a].partition_point(|&tick| tick < t);
        &self.presences[a][..until]
    }

    /// The tick of a flow's first presence, if it has begun by tick t, t included.
    fn first_presence(&self, a: usize, t: usize) -> Option<usize> {
        self.presences[a].first().copied().filter(|&first| first <= t)
    }

    /// The tick of a flow's latest earlier presence.
    fn latest_earlier_presence(&self, a: usize, t: usize) -> Option<usize> {
        self.earlier_presences(a, t).last().copied()
    }
}

/// The cell of a row at tick t, or a clash. `logged` is the log's word for this tick, if the row is an input.
pub fn work_out(row: &Row, t: usize, logged: u32, history: &History) -> Result<Cell, Clash> {
    let both = |a, b, of: fn(u32, u32) -> u32| of_both(history.cell(a, t), history.cell(b, t), of);
    match *row {
        Row::Input { period, phase } => Ok(on_calendar(period, phase, t).then_some(logged)),
        Row::Constant { value, period, phase } => Ok(on_calendar(period, phase, t).then_some(value)),
        Row::Add { a, b } => both(a, b, u32::wrapping_add),
        Row::Subtract { a, b } => both(a, b, u32::wrapping_sub),
        Row::Less { a, b } => both(a, b, |a, b| if signed(a) < signed(b) { 1 } else { 0 }),
        Row::Equal { a, b } => both(a, b, |a, b| if a == b { 1 } else { 0 }),
        Row::Larger { a, b } => both(a, b, |a, b| if signed(a) > signed(b) { a } else { b }),
        Row::Register { initial, beat, source } => Ok(register(history, initial, beat, source, t)),
        Row::Faster { a, k, gap } => faster(history, a, k as usize, gap as usize, t),
        Row::Slower { a, k } => Ok(slower(history, a, k as usize, t)),
        Row::Later { a, d } => Ok(later(history, a, d as usize, t)),
        Row::Head { a, value, s } => head(history, a, value, s as usize, t),
        Row::Tail { a } => Ok(tail(history, a, t)),
        Row::When { a, c } => sampled(history.cell(a, t), history.cell(c, t), |c| c != 0),
        Row::WhenNot { a, c } => sampled(history.cell(a, t), history.cell(c, t), |c| c == 0),
        Row::Merge { c, a, b } => merge(history.cell(c, t), history.cell(a, t), history.cell(b, t)),
        Row::WhenSeen { a, c, w } => seen(history, a, c, w as usize, |c| c != 0, t),
        Row::WhenNotSeen { a, c, w } => seen(history, a, c, w as usize, |c| c == 0, t),
    }
}

/// Present at phase plus whole periods.
pub fn on_calendar(period: u32, phase: u32, t: usize) -> bool {
    t.checked_sub(phase as usize).is_some_and(|since| since.is_multiple_of(period as usize))
}

/// The number that 32 bits stand for in two's complement: the top bit counts −2 to the 31, the others as in any number.
fn signed(bits: u32) -> i64 {
    let (top, others) = (i64::from(bits >> 31), i64::from(bits & 0x7FFF_FFFF));
    others - top * 0x8000_0000
}

/// Present when both operands are. One alone: clash.
fn of_both(a: Cell, b: Cell, of: fn(u32, u32) -> u32) -> Result<Cell, Clash> {
    match (a, b) {
        (Some(a), Some(b)) => Ok(Some(of(a, b))),
        (None, None) => Ok(None),
        _ => Err(Clash),
    }
}

/// Present when its beat is. Its value is that of the source's latest earlier presence, or the initial value if none.
fn register(history: &History, initial: u32, beat: usize, source: usize, t: usize) -> Cell {
    if !history.present(beat, t) {
        return None;
    }
    match history.latest_earlier_presence(source, t) {
        Some(earlier) => history.cell(source, earlier),
        None => Some(initial),
    }
}

/// Present at t if a was present at t − i × g for some i from 0 to k − 1, with that value. Clash if a is present
/// and had an earlier presence, the latest of which was not exactly k × g ticks before.
fn faster(history: &History, a: usize, k: usize, gap: usize, t: usize) -> Result<Cell, Clash> {
    if history.present(a, t) {
        if let Some(latest) = history.latest_earlier_presence(a, t) {
            if t - latest != k * gap {
                return Err(Clash);
            }
        }
    }
    for i in 0..k {
        if i * gap <= t && history.present(a, t - i * gap) {
            return Ok(history.cell(a, t - i * gap));
        }
    }
    Ok(None)
}

/// Presences number 0, k, 2k, .. of a.
fn slower(history: &History, a: usize, k: usize, t: usize) -> Cell {
    let number = history.earlier_presences(a, t).len();
    if number.is_multiple_of(k) {
        history.cell(a, t)
    } else {
        None
    }
}

/// a's cell d ticks before, absent where there is no such tick.
fn later(history: &History, a: usize, d: usize, t: usize) -> Cell {
    if d <= t {
        history.cell(a, t - d)
    } else {
        None
    }
}

/// The value at tick s, afterwards a. Clash if a is present at or before s; also if at a's second presence t2, with
/// its first t1, t1 − s differs from t2 − t1.
fn head(history: &History, a: usize, value: u32, s: usize, t: usize) -> Result<Cell, Clash> {
    if t <= s && history.present(a, t) {
        return Err(Clash);
    }
    if let (true, [t1]) = (history.present(a, t), history.earlier_presences(a, t)) {
        if t1 - s != t - t1 {
            return Err(Clash);
        }
    }
    if t < s {
        Ok(None)
    } else if t == s {
        Ok(Some(value))
    } else {
        Ok(history.cell(a, t))
    }
}

/// a without its first presence.
fn tail(history: &History, a: usize, t: usize) -> Cell {
    if history.earlier_presences(a, t).is_empty() {
        None
    } else {
        history.cell(a, t)
    }
}

/// a and c both present or both absent, else clash. Present when both are and c is as wanted, with a's value.
fn sampled(a: Cell, c: Cell, wanted: fn(u32) -> bool) -> Result<Cell, Clash> {
    match (a, c) {
        (Some(a), Some(c)) if wanted(c) => Ok(Some(a)),
        (Some(_), Some(_)) | (None, None) => Ok(None),
        _ => Err(Clash),
    }
}

/// c absent needs a and b absent; c non-zero needs a alone; c zero needs b alone; else clash. Present when c is,
/// with the value of the one present.
fn merge(c: Cell, a: Cell, b: Cell) -> Result<Cell, Clash> {
    match (c, a, b) {
        (None, None, None) => Ok(None),
        (Some(c), Some(a), None) if c != 0 => Ok(Some(a)),
        (Some(0), None, Some(b)) => Ok(Some(b)),
        _ => Err(Clash),
    }
}

/// At tick t with a present, let t1 be the latest tick not past t that lies zero or more times w after a's first tick;
/// the condition is c's value at t1 minus a's first tick plus c's first tick. That tick past t, c absent at it, or c not
/// yet begun is a clash. Present when the condition is as wanted, with a's value.
fn seen(history: &History, a: usize, c: usize, w: usize, wanted: fn(u32) -> bool, t: usize) -> Result<Cell, Clash> {
    let Some(value) = history.cell(a, t) else { return Ok(None) };
    let first_of_a = history.first_presence(a, t).expect("a is present at t");
    let Some(first_of_c) = history.first_presence(c, t) else { return Err(Clash) };
    let shifted = latest_view(first_of_a, w, t) - first_of_a + first_of_c;
    if shifted > t {
        return Err(Clash);
    }
    let Some(condition) = history.cell(c, shifted) else { return Err(Clash) };
    Ok(wanted(condition).then_some(value))
}

/// The latest tick not past t that lies zero or more times w after a first tick, which is not past t.
fn latest_view(first: usize, w: usize, t: usize) -> usize {
    (first..=t).rev().find(|tick| (tick - first).is_multiple_of(w)).expect("the first lies zero times w after itself")
}
