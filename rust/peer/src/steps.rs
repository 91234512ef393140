//! Rows made ready to run: their operands, and what each carries from tick to tick.

use crate::plan::Row;
use crate::MOST_FLOWS;

/// A tick that never comes.
const NEVER: u32 = u32::MAX;

/// A cell in one word: the mark above the 32 bits of the value. All of it is 0 where the flow is absent.
#[derive(Clone, Copy, PartialEq, Eq)]
pub struct Cell(u64);

impl Cell {
    pub const ABSENT: Cell = Cell(0);
    const MARK: u64 = 1 << 32;

    #[inline(always)]
    pub fn new(mark: u8, value: u32) -> Self {
        Cell(u64::from(mark) << 32 | u64::from(value))
    }

    #[inline(always)]
    pub fn present(value: u32) -> Self {
        Cell(Cell::MARK | u64::from(value))
    }

    #[inline(always)]
    pub fn mark(self) -> u8 {
        (self.0 >> 32) as u8
    }

    #[inline(always)]
    pub fn is_present(self) -> bool {
        self.0 >= Cell::MARK
    }

    #[inline(always)]
    pub fn value(self) -> u32 {
        self.0 as u32
    }

    /// This cell if it is wanted, else absent.
    #[inline(always)]
    fn only_if(self, wanted: bool) -> Self {
        Cell(self.0 & u64::from(wanted).wrapping_neg())
    }

    /// Whether its value is not 0; nothing if it is absent.
    #[inline(always)]
    fn truth(self) -> Option<bool> {
        self.is_present().then_some(self.value() != 0)
    }

    /// The same presence with another value, which is 0 if it is absent.
    #[inline(always)]
    fn with(self, value: u32) -> Self {
        Cell(self.0 & Cell::MARK | u64::from(value))
    }
}

/// The cells of the present tick that are worked out.
pub struct Now([Cell; MOST_FLOWS]);

impl Now {
    pub fn new() -> Self {
        Now([Cell::ABSENT; MOST_FLOWS])
    }

    #[inline(always)]
    pub fn cell(&self, flow: u8) -> Cell {
        self.0[usize::from(flow) % MOST_FLOWS]
    }

    #[inline(always)]
    pub fn set(&mut self, flow: usize, cell: Cell) {
        self.0[flow % MOST_FLOWS] = cell;
    }

    /// Two operands that have to be present together; `of` gives 0 for 0 and 0, so that absent cells need no branch.
    #[inline(always)]
    fn both(&self, a: u8, b: u8, of: impl Fn(u32, u32) -> u32) -> Option<Cell> {
        let (a, b) = (self.cell(a), self.cell(b));
        (a.mark() == b.mark()).then(|| a.with(of(a.value(), b.value())))
    }

    /// a where c is present and its truth as wanted; both present or both absent.
    #[inline(always)]
    fn sample(&self, a: u8, c: u8, truth: bool) -> Option<Cell> {
        let (a, c) = (self.cell(a), self.cell(c));
        (a.mark() == c.mark()).then(|| a.only_if((c.value() != 0) == truth))
    }
}

/// Cells of earlier ticks, in the order in which they were worked out.
#[derive(Clone, Copy)]
pub struct Cells<'a> {
    pub marks: &'a [u8],
    pub values: &'a [u32],
}

impl Cells<'_> {
    /// The cell that lies so many cells before the end, or by how many there are too few.
    #[inline(always)]
    fn back(self, cells: usize) -> Result<Cell, usize> {
        match self.marks.len().checked_sub(cells) {
            Some(place) => Ok(Cell::new(self.marks[place], self.values[place])),
            None => Err(cells - self.marks.len()),
        }
    }
}

/// What a tick sees of the ticks before, and of the log. The older cells lie before the others.
#[derive(Clone, Copy)]
pub struct Past<'a> {
    pub tick: u32,
    pub cells: Cells<'a>,
    pub older: Cells<'a>,
    pub log: &'a [u32],
}

impl Past<'_> {
    /// The cell that lies so many cells before the first of the tick, absent where there is no such tick.
    #[inline(always)]
    fn back(self, cells: usize) -> Cell {
        self.cells.back(cells).or_else(|missing| self.older.back(missing)).unwrap_or(Cell::ABSENT)
    }
}

/// A row made ready to run, and its state. Operands are flow numbers.
#[derive(Clone, Copy)]
#[rustfmt::skip]
pub enum Step {
    Input { due: u32, period: u32, column: u32 },
    Constant { due: u32, period: u32, value: u32 },
    Add { a: u8, b: u8 },
    Subtract { a: u8, b: u8 },
    Less { a: u8, b: u8 },
    Equal { a: u8, b: u8 },
    Larger { a: u8, b: u8 },
    /// `held` is the value of the source's latest earlier presence, or the initial value.
    Register { beat: u8, source: u8, held: u32 },
    Faster { a: u8, copies: Copies },
    /// `left` presences of a are to be left out before the next one that counts.
    Slower { a: u8, k: u8, left: u8 },
    /// a's cell lies `back` cells before the first cell of the tick.
    Later { a: u8, back: u32 },
    Head { a: u8, value: u32, s: u32, seen: Seen },
    Tail { a: u8, seen: bool },
    When { a: u8, c: u8 },
    WhenNot { a: u8, c: u8 },
    Merge { c: u8, a: u8, b: u8 },
    WhenSeen { a: u8, c: u8, truth: bool, view: View },
}

/// The copies that a faster row still has to give.
#[derive(Clone, Copy)]
pub struct Copies {
    k: u32,
    gap: u32,
    /// The tick of the next copy.
    due: u32,
    left: u32,
    value: u32,
    /// The only tick at which the operand may be present again, once it was.
    again: u32,
}

/// How often the operand of a head was present, and the first tick while that still matters.
#[derive(Clone, Copy)]
pub enum Seen {
    Never,
    Once(u32),
    Often,
}

/// A flow c as it is seen beside a flow a: looked at when a begins and every w ticks after it, as it was by the ticks
/// before by which it began before a.
#[derive(Clone, Copy)]
pub struct View {
    w: u32,
    /// The tick at which c is looked at next; never before a has begun.
    due: u32,
    /// The ticks by which c began before a. Before a has begun, the tick at which c did.
    lag: u32,
    /// The truth of c's cell looked at last, nothing if it was absent. Before a has begun, that of c's first one.
    seen: Option<bool>,
    /// How many flows the plan has.
    flows: u8,
}

impl Step {
    /// A tested row, ready for tick 0. An input has the log's word of its column.
    pub fn new(&[kind, x, y, z]: &Row, flows: usize, column: u32) -> Self {
        let (a, b) = (x as u8, y as u8);
        match kind {
            0 => Step::Input { due: y, period: x, column },
            1 => Step::Constant { due: z, period: y, value: x },
            2 => Step::Add { a, b },
            3 => Step::Subtract { a, b },
            4 => Step::Less { a, b },
            5 => Step::Equal { a, b },
            6 => Step::Larger { a, b },
            7 => Step::Register { beat: b, source: z as u8, held: x },
            8 => Step::Faster { a, copies: Copies { k: y, gap: z, due: NEVER, left: 0, value: 0, again: NEVER } },
            9 => Step::Slower { a, k: y as u8, left: 0 },
            10 => Step::Later { a, back: (y * flows as u32).saturating_sub(x) },
            11 => Step::Head { a, value: y, s: z, seen: Seen::Never },
            12 => Step::Tail { a, seen: false },
            13 => Step::When { a, c: b },
            14 => Step::WhenNot { a, c: b },
            15 => Step::Merge { c: a, a: b, b: z as u8 },
            _ => {
                let view = View { w: z, due: NEVER, lag: 0, seen: None, flows: flows as u8 };
                Step::WhenSeen { a, c: b, truth: kind == 17, view }
            }
        }
    }

    /// The cell of this flow at this tick, its state moved on; nothing on a clash.
    #[inline(always)]
    pub fn advance(&mut self, now: &Now, past: Past) -> Option<Cell> {
        let tick = past.tick;
        match self {
            Step::Input { due, period, column } => Some(when_due(due, *period, tick, || past.log[*column as usize])),
            Step::Constant { due, period, value } => Some(when_due(due, *period, tick, || *value)),
            Step::Add { a, b } => now.both(*a, *b, u32::wrapping_add),
            Step::Subtract { a, b } => now.both(*a, *b, u32::wrapping_sub),
            Step::Less { a, b } => now.both(*a, *b, |a, b| u32::from((a as i32) < b as i32)),
            Step::Equal { a, b } => {
                let both = now.both(*a, *b, |a, b| u32::from(a == b))?;
                Some(both.only_if(both.is_present()))
            }
            Step::Larger { a, b } => now.both(*a, *b, |a, b| (a as i32).max(b as i32) as u32),
            Step::Register { beat, held, .. } => Some(Cell::present(*held).only_if(now.cell(*beat).is_present())),
            Step::Faster { a, copies } => copies.advance(now.cell(*a), tick),
            Step::Slower { a, k, left } => {
                let cell = now.cell(*a);
                let counts = *left == 0;
                if cell.is_present() {
                    *left = if counts { *k } else { *left } - 1;
                }
                Some(cell.only_if(counts))
            }
            Step::Later { a, back: 0 } => Some(now.cell(*a)),
            Step::Later { back, .. } => Some(past.back(*back as usize)),
            Step::Head { a, value, s, seen } => seen.advance(now.cell(*a), *value, *s, tick),
            Step::Tail { a, seen } => {
                let cell = now.cell(*a);
                let before = *seen;
                *seen |= cell.is_present();
                Some(cell.only_if(before))
            }
            Step::When { a, c } => now.sample(*a, *c, true),
            Step::WhenNot { a, c } => now.sample(*a, *c, false),
            Step::Merge { c, a, b } => {
                let (c, a, b) = (now.cell(*c), now.cell(*a), now.cell(*b));
                let truth = c.value() != 0;
                let fits = a.mark() == c.only_if(truth).mark() && b.mark() == c.only_if(!truth).mark();
                fits.then_some(Cell(a.0 | b.0))
            }
            Step::WhenSeen { a, c, truth, view } => {
                let a = now.cell(*a);
                view.advance(a.is_present(), *c, now, past);
                match view.seen {
                    None if a.is_present() => None,
                    seen => Some(a.only_if(seen == Some(*truth))),
                }
            }
        }
    }

    /// After all flows of a tick: a register takes over its source. False on a clash.
    #[inline(always)]
    pub fn latch(&mut self, now: &Now) -> bool {
        if let Step::Register { beat, source, held } = self {
            let source = now.cell(*source);
            if source.is_present() {
                *held = source.value();
            }
            return source.mark() == now.cell(*beat).mark();
        }
        true
    }
}

/// Present at its due tick, and then due one period later.
#[inline(always)]
fn when_due(due: &mut u32, period: u32, tick: u32, value: impl FnOnce() -> u32) -> Cell {
    if *due != tick {
        return Cell::ABSENT;
    }
    *due += period;
    Cell::present(value())
}

impl Copies {
    /// A presence starts k copies, unless it comes at the wrong tick; in between the next copy, when it is due.
    #[inline(always)]
    fn advance(&mut self, a: Cell, tick: u32) -> Option<Cell> {
        if a.is_present() {
            if self.again != NEVER && self.again != tick {
                return None;
            }
            self.due = tick + self.gap;
            self.left = self.k - 1;
            self.value = a.value();
            self.again = tick + self.k * self.gap;
            return Some(a);
        }
        if self.due != tick || self.left == 0 {
            return Some(Cell::ABSENT);
        }
        self.due += self.gap;
        self.left -= 1;
        Some(Cell::present(self.value))
    }
}

impl Seen {
    /// The value at s, afterwards the operand; nothing on a clash.
    #[inline(always)]
    fn advance(&mut self, a: Cell, value: u32, s: u32, tick: u32) -> Option<Cell> {
        if tick <= s {
            return (!a.is_present()).then(|| Cell::present(value).only_if(tick == s));
        }
        if a.is_present() {
            *self = match *self {
                Seen::Never => Seen::Once(tick),
                Seen::Once(first) if first - s != tick - first => return None,
                _ => Seen::Often,
            };
        }
        Some(a)
    }
}

impl View {
    /// Looks at c if this is the tick for it. What was seen before is kept, whether a is present or not.
    #[inline(always)]
    fn advance(&mut self, a_is_present: bool, c: u8, now: &Now, past: Past) {
        let tick = past.tick;
        if self.due == NEVER {
            if self.seen.is_none() {
                self.lag = tick;
                self.seen = now.cell(c).truth();
            }
            if a_is_present {
                self.lag = tick - self.lag;
                self.due = tick + self.w;
            }
        } else if self.due == tick {
            let cell = match self.lag as usize * usize::from(self.flows) {
                0 => now.cell(c),
                cells => past.back(cells - usize::from(c)),
            };
            self.seen = cell.truth();
            self.due += self.w;
        }
    }
}
