//! The listing of a packed table.

use std::io::Write;

use crate::check::{derive, Clock};
use crate::packed::unpack;
use crate::plan::UNRATED;
use crate::{Answer, LISTING_MAX, MOST_FLOWS};

/// Lists a packed table as text: its clocks, or the one line of its refusal. The count is the length of the text. A
/// text buffer below [`LISTING_MAX`] is answered by 10 and left as it was.
pub fn listing(packed: &[u8], text: &mut [u8]) -> Answer {
    if text.len() < LISTING_MAX {
        return Answer::number(10);
    }
    let mut clocks = [Clock::default(); MOST_FLOWS];
    let mut rest = &mut text[..];
    let written = match clocks_of(packed, &mut clocks) {
        Ok(flows) => lines(&clocks[..flows], &mut rest),
        Err(refusal) => writeln!(rest, "no {} {}", refusal.number, refusal.flow),
    };
    debug_assert!(written.is_ok(), "a listing fits into LISTING_MAX bytes");
    let left = rest.len();
    Answer { count: (text.len() - left) as u32, ..Answer::default() }
}

/// Reading, and then the check; gives how many flows there are.
fn clocks_of(packed: &[u8], clocks: &mut [Clock; MOST_FLOWS]) -> Result<usize, Answer> {
    let mut plain = [[0; 4]; MOST_FLOWS];
    let flows = unpack(packed, &mut plain)?;
    if let Some(row) = plain[..flows].iter().position(|row| row[0] == UNRATED) {
        return Err(Answer::at(13, row));
    }
    derive(&plain[..flows], clocks)?;
    Ok(flows)
}

/// The count, and a line for each flow.
fn lines(clocks: &[Clock], text: &mut &mut [u8]) -> std::io::Result<()> {
    writeln!(text, "ok {}", clocks.len())?;
    for (flow, clock) in clocks.iter().enumerate() {
        write!(text, "{flow} {} {} ", clock.period, clock.phase)?;
        for (condition, view) in clock.conditions().iter().zip(clock.views()) {
            write!(text, "c{}{}", condition / 2, if condition % 2 == 1 { '+' } else { '-' })?;
            if view > 0 {
                write!(text, "@{view}")?;
            }
        }
        text.write_all(if clock.conditions().is_empty() { b"-\n" } else { b"\n" })?;
    }
    Ok(())
}
