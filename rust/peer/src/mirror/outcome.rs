//! What each kind of row comes to at a tick, with the words that it carries from tick to tick.

use super::Held;
use crate::plan::Row;

/// A flow at a tick: its mark, 1 present or 0 absent, and its value.
#[derive(Clone, Copy)]
pub struct Signal {
    pub mark: u8,
    pub value: u32,
}

/// What a row comes to at a tick: its cell, or the mark of a clash.
#[derive(Clone, Copy)]
pub struct Outcome {
    pub mark: u8,
    pub value: u32,
}

/// The mark of a clash.
pub const CLASHED: u8 = 2;

const ABSENT: Outcome = Outcome { mark: 0, value: 0 };
const CLASH: Outcome = Outcome { mark: CLASHED, value: 0 };

fn present(value: u32) -> Outcome {
    Outcome { mark: 1, value }
}

/// What a row comes to at tick t: one decision over the kind.
pub fn outcome(
    [kind, p, q, r]: Row,
    t: u32,
    log: &[u32],
    at: usize,
    held: &mut Held,
    marks: &[u8],
    values: &[u32],
) -> Outcome {
    let signal = |flow: u32| Signal { mark: marks[flow as usize], value: values[flow as usize] };
    match kind {
        0 => input(t, p, log, at, held),
        1 => constant(t, p, q, held),
        2..=6 => combined(kind, signal(p), signal(q)),
        7 => registered(signal(q), held[0]),
        8 => faster(t, signal(p), q, r, held),
        9 => slower(signal(p), q, held),
        10 => later(q, signal(p), held),
        11 => head(t, signal(p), q, r, held),
        12 => tail(signal(p), held),
        13 => sampled(true, signal(p), signal(q)),
        14 => sampled(false, signal(p), signal(q)),
        15 => merged(signal(p), signal(q), signal(r)),
        17 => seen(t, NOT_ZERO, signal(p), signal(q), r, held),
        18 => seen(t, ZERO, signal(p), signal(q), r, held),
        16 | 19..=u32::MAX => CLASH,
    }
}

/// Input: carries the next tick at which it is present, and its number among the inputs.
fn input(t: u32, period: u32, log: &[u32], at: usize, held: &mut Held) -> Outcome {
    if t != held[0] {
        return ABSENT;
    }
    held[0] = t + period;
    present(log[at + held[1] as usize])
}

/// Constant: carries the next tick at which it is present.
fn constant(t: u32, value: u32, period: u32, held: &mut Held) -> Outcome {
    if t != held[0] {
        return ABSENT;
    }
    held[0] = t + period;
    present(value)
}

/// Kinds 2 to 6: present when both operands are.
fn combined(kind: u32, x: Signal, y: Signal) -> Outcome {
    if x.mark == 0 {
        return if y.mark == 0 { ABSENT } else { CLASH };
    }
    if y.mark == 0 {
        return CLASH;
    }
    let (x, y) = (x.value, y.value);
    present(match kind {
        2 => x.wrapping_add(y),
        3 => x.wrapping_sub(y),
        4 => u32::from((x as i32) < y as i32),
        5 => u32::from(x == y),
        _ => (x as i32).max(y as i32) as u32,
    })
}

/// Register: carries the value of its source's latest presence, at first the initial value.
fn registered(beat: Signal, held: u32) -> Outcome {
    if beat.mark == 0 {
        ABSENT
    } else {
        present(held)
    }
}

/// Faster: carries the latest value, the next copy's tick, and the tick at which the next presence is due, 0 before
/// the first.
fn faster(t: u32, a: Signal, k: u32, gap: u32, held: &mut Held) -> Outcome {
    let due = held[2];
    if a.mark == 0 {
        if t != held[1] || t >= due {
            return ABSENT;
        }
        held[1] = t + gap;
        return present(held[0]);
    }
    if due != 0 && due != t {
        return CLASH;
    }
    held[0] = a.value;
    held[1] = t + gap;
    held[2] = t + k * gap;
    present(a.value)
}

/// Slower: carries how many presences are still to be left out.
fn slower(a: Signal, k: u32, held: &mut Held) -> Outcome {
    if a.mark == 0 {
        return ABSENT;
    }
    if held[0] != 0 {
        held[0] -= 1;
        return ABSENT;
    }
    held[0] = k - 1;
    present(a.value)
}

/// Later: the operand itself where d is 0, else what was collected.
fn later(d: u32, a: Signal, held: &Held) -> Outcome {
    if d == 0 {
        return if a.mark == 0 { ABSENT } else { present(a.value) };
    }
    if held[0] == 0 {
        ABSENT
    } else {
        present(held[1])
    }
}

/// Head: carries 0 before the operand's first presence, then the tick at which the second is due, and 1 after that.
fn head(t: u32, a: Signal, value: u32, s: u32, held: &mut Held) -> Outcome {
    if a.mark == 0 {
        return if t == s { present(value) } else { ABSENT };
    }
    if t <= s {
        return CLASH;
    }
    match held[0] {
        0 => held[0] = t + (t - s),
        1 => {}
        due if due == t => held[0] = 1,
        _ => return CLASH,
    }
    present(a.value)
}

/// Tail: carries 0 before the operand's first presence, then 1.
fn tail(a: Signal, held: &mut Held) -> Outcome {
    if a.mark == 0 {
        return ABSENT;
    }
    if held[0] == 0 {
        held[0] = 1;
        return ABSENT;
    }
    present(a.value)
}

/// When, when-not: present where both are and c has the truth wanted.
fn sampled(wanted: bool, a: Signal, c: Signal) -> Outcome {
    if a.mark == 0 {
        return if c.mark == 0 { ABSENT } else { CLASH };
    }
    if c.mark == 0 {
        return CLASH;
    }
    if (c.value != 0) == wanted {
        present(a.value)
    } else {
        ABSENT
    }
}

/// Merge: the one that the truth of c names, alone.
fn merged(c: Signal, a: Signal, b: Signal) -> Outcome {
    if c.mark == 0 {
        return if a.mark == 0 && b.mark == 0 { ABSENT } else { CLASH };
    }
    let (x, y) = if c.value == 0 { (b, a) } else { (a, b) };
    if x.mark == 0 || y.mark != 0 {
        return CLASH;
    }
    present(x.value)
}

/// The statuses of a cell: absent, zero, and not zero.
const GONE: u32 = 0;
const ZERO: u32 = 1;
const NOT_ZERO: u32 = 2;

/// The status of c's cell.
pub fn status(c: Signal) -> u32 {
    match c {
        Signal { mark: 0, .. } => GONE,
        Signal { value: 0, .. } => ZERO,
        _ => NOT_ZERO,
    }
}

/// When-seen, when-not-seen: carries the next start of a view, by how many ticks c began before a, and the status of c
/// that is seen. Before a's first presence the first is 0, and the others are the tick of c's first presence and its
/// status.
fn seen(t: u32, wanted: u32, a: Signal, c: Signal, w: u32, held: &mut Held) -> Outcome {
    if held[0] == 0 {
        if held[2] == GONE && c.mark != 0 {
            held[1] = t;
            held[2] = status(c);
        }
        if a.mark == 0 {
            return ABSENT;
        }
        held[0] = t + w;
        held[1] = t - held[1];
    } else if held[0] == t {
        if held[1] == 0 {
            held[2] = status(c);
        }
        held[0] = t + w;
    }
    if a.mark == 0 {
        return ABSENT;
    }
    match held[2] {
        GONE => CLASH,
        status if status == wanted => present(a.value),
        _ => ABSENT,
    }
}
