//! The listing of a packed table: its clocks, or the one line of its refusal.

use crate::check::clocks_of;
use crate::clock::{Clock, Condition};
use crate::packed::unpack;
use crate::rows::table;
use crate::{answer, refuse, success, Answer, Refused, LISTING_MAX};

/// Lists a packed table as text: its clocks, or the one line of its refusal. The count is the length of the text. A
/// text buffer below [`LISTING_MAX`] is answered by 10 and left as it was.
pub fn listing(packed: &[u8], text: &mut [u8]) -> Answer {
    if text.len() < LISTING_MAX {
        return answer(refuse(10));
    }
    let lines = match clocks_of_packed(packed) {
        Ok(clocks) => accepted(&clocks),
        Err(refusal) => format!("no {} {}\n", refusal.number, refusal.flow),
    };
    text[..lines.len()].copy_from_slice(lines.as_bytes());
    success(lines.len())
}

/// Reading, and then the check.
fn clocks_of_packed(packed: &[u8]) -> Refused<Vec<Clock>> {
    let words = unpack(packed)?;
    let rows = table(words.len() as u32 / 4, &words)?;
    clocks_of(&rows)
}

/// Count first, then flow, period, phase, conditions, or a lone `-` where there are none.
fn accepted(clocks: &[Clock]) -> String {
    let mut lines = format!("ok {}\n", clocks.len());
    for (flow, clock) in clocks.iter().enumerate() {
        lines += &format!("{} {} {} {}\n", flow, clock.period, clock.phase, conditions(clock));
    }
    lines
}

/// The conditions of a clock; several follow each other without spaces.
fn conditions(clock: &Clock) -> String {
    if clock.conditions.is_empty() {
        return "-".to_string();
    }
    clock.conditions.iter().map(condition).collect()
}

/// The letter `c`, the flow, and `+` for true or `-` for false, with `@w` appended where w isn't 0.
fn condition(condition: &Condition) -> String {
    let Condition { flow, truth, view: w } = *condition;
    let sign = if truth { '+' } else { '-' };
    if w == 0 {
        format!("c{flow}{sign}")
    } else {
        format!("c{flow}{sign}@{w}")
    }
}
