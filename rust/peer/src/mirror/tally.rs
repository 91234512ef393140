//! The tallies of a long run: for each flow how many values it had, and its last one.

use super::first_cell;

/// The tallies of n flows begin at 0.
pub fn clear(n: usize, tallies: &mut [u32]) {
    tallies[..2 * n].fill(0);
}

/// The tallies of n flows take the cells of the ticks from one on, up to but not including another.
pub fn add_ticks(from: u32, to: u32, mask: u32, n: usize, marks: &[u8], values: &[u32], tallies: &mut [u32]) {
    for t in from..to {
        add(first_cell(t, mask, n), n, marks, values, tallies);
    }
}

/// The tallies of n flows take their cells, the first of which stands at a place.
fn add(first: usize, n: usize, marks: &[u8], values: &[u32], tallies: &mut [u32]) {
    let cells = marks[first..][..n].iter().zip(&values[first..][..n]);
    for (tally, (&mark, &value)) in tallies.chunks_exact_mut(2).zip(cells) {
        if mark != 0 {
            tally[0] += 1;
            tally[1] = value;
        }
    }
}
