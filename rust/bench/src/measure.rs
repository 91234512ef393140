//! Several implementations of one thing measured by turns.

use std::time::{Duration, Instant};

/// How often each is measured at least, and for how long all of them together.
const TURNS: usize = 31;
const ENOUGH: Duration = Duration::from_millis(1_500);

/// The times of each implementation, turn by turn.
pub struct Measured<const N: usize> {
    turns: Vec<[f64; N]>,
}

impl<const N: usize> Measured<N> {
    /// The least time of one of them, in nanoseconds.
    pub fn least(&self, which: usize) -> f64 {
        self.turns.iter().map(|turn| turn[which]).fold(f64::INFINITY, f64::min)
    }

    /// The first against another: the ratio of the least times, and the median of the ratios of all turns.
    pub fn ratios(&self, other: usize) -> (f64, f64) {
        let mut ratios: Vec<f64> = self.turns.iter().map(|turn| turn[0] / turn[other]).collect();
        ratios.sort_by(f64::total_cmp);
        (self.least(0) / self.least(other), ratios[ratios.len() / 2])
    }
}

/// Measures N things by turns, so that each turn meets one state of the machine; another one begins in each turn. The
/// first turn warms up caches and pages and does not count.
pub fn by_turns<const N: usize>(mut work: impl FnMut(usize)) -> Measured<N> {
    let mut turns = Vec::new();
    let start = Instant::now();
    while turns.len() <= TURNS || start.elapsed() < ENOUGH {
        let mut times = [0.0; N];
        for place in 0..N {
            let which = (turns.len() + place) % N;
            let start = Instant::now();
            work(which);
            times[which] = start.elapsed().as_nanos() as f64;
        }
        turns.push(times);
    }
    turns.remove(0);
    Measured { turns }
}

/// The heading of a table: the names of what is measured, and of the first against each of the others.
pub fn heading<const N: usize>(title: &str, names: [&str; N]) {
    println!("\n{title}");
    print!("{:<34}", "");
    names.iter().for_each(|name| print!(" {name:>11}"));
    names[1..].iter().for_each(|name| print!("   {:>16}", format!("{}/{name}", names[0])));
    println!();
}

/// Prints the line of what was measured over so many cells, and gives the first one's time a cell.
pub fn line<const N: usize>(name: &str, measured: &Measured<N>, cells: usize) -> f64 {
    let times: [f64; N] = std::array::from_fn(|which| measured.least(which) / cells as f64);
    print!("{name:<34}");
    times.iter().for_each(|time| print!(" {time:>11.2}"));
    for which in 1..N {
        let (least, median) = measured.ratios(which);
        print!("   {least:>9.2} {median:>6.2}");
    }
    println!();
    times[0]
}

/// Says how the library's time a cell changed over a growth: it is linear if that stays about the same.
pub fn linear(growth: &str, times: &[f64]) {
    let (first, last) = (times[0], times[times.len() - 1]);
    println!("{growth}: {:.2} times the time a cell (linear: about 1)", last / first);
}
