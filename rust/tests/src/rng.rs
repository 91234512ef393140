//! A small generator of pseudo-random numbers (splitmix64), and the seed that all tests share.

use std::env;
use std::io::{self, Write};
use std::sync::OnceLock;

/// The seed of a run of the tests that names none.
const DEFAULT_SEED: u64 = 1;

/// The seed of this run of the tests: BAARQIDHO_SEED, or the default. It is told once on standard error, past the
/// capture of a test's output, so that every run shows it.
fn seed() -> u64 {
    static SEED: OnceLock<u64> = OnceLock::new();
    *SEED.get_or_init(|| {
        let seed = match env::var("BAARQIDHO_SEED") {
            Ok(seed) => seed.parse().expect("BAARQIDHO_SEED is a whole number below 2 to the 64"),
            Err(_) => DEFAULT_SEED,
        };
        let text = format!("\nrandom tests with BAARQIDHO_SEED={seed}\n");
        io::stderr().write_all(text.as_bytes()).expect("standard error takes the seed");
        seed
    })
}

/// A generator.
#[derive(Clone, Debug)]
pub struct Rng(u64);

impl Rng {
    /// The generator of a test, which has a number of its own, under the seed of this run. A test that fails shows
    /// both.
    pub fn new(test: u64) -> Self {
        let seed = seed();
        println!("BAARQIDHO_SEED={seed}, generator {test}");
        Rng(Rng(seed).any() ^ test)
    }

    /// Any 64-bit number.
    pub fn any(&mut self) -> u64 {
        self.0 = self.0.wrapping_add(0x9E37_79B9_7F4A_7C15);
        let mut z = self.0;
        z = (z ^ (z >> 30)).wrapping_mul(0xBF58_476D_1CE4_E5B9);
        z = (z ^ (z >> 27)).wrapping_mul(0x94D0_49BB_1331_11EB);
        z ^ (z >> 31)
    }

    /// Any 32-bit number.
    pub fn word(&mut self) -> u32 {
        (self.any() >> 32) as u32
    }

    /// A number below `bound`, which is not 0.
    pub fn below(&mut self, bound: usize) -> usize {
        (((self.any() >> 32) * bound as u64) >> 32) as usize
    }

    /// A number from `low` to `high`, both included.
    pub fn range(&mut self, low: u32, high: u32) -> u32 {
        low + self.below((high - low) as usize + 1) as u32
    }

    /// True `chances` times out of a hundred.
    pub fn percent(&mut self, chances: usize) -> bool {
        self.below(100) < chances
    }

    /// One of some things.
    pub fn pick<T: Copy>(&mut self, things: &[T]) -> T {
        things[self.below(things.len())]
    }

    /// One of the things that pass a test, or nothing if none does.
    pub fn pick_where(&mut self, things: usize, test: impl Fn(usize) -> bool) -> Option<usize> {
        let start = self.below(things.max(1));
        (start..things).chain(0..start).find(|&thing| test(thing))
    }

    /// A value: often small, sometimes at an edge, sometimes any.
    pub fn value(&mut self) -> u32 {
        match self.below(8) {
            0..=2 => 0,
            3 | 4 => self.range(1, 3),
            5 => self.pick(&[u32::MAX, u32::MAX - 1, 1 << 31, (1 << 31) - 1]),
            _ => self.word(),
        }
    }

    /// A log of that many words.
    pub fn log(&mut self, words: usize) -> Vec<u32> {
        let truths = self.percent(50);
        (0..words).map(|_| if truths { self.word() >> 31 } else { self.value() }).collect()
    }

    /// A worst time: often 0 or the greatest, sometimes small, sometimes any.
    pub fn time(&mut self) -> u16 {
        match self.below(8) {
            0 => 0,
            1 => u16::MAX,
            2 | 3 => self.range(1, 99) as u16,
            _ => self.word() as u16,
        }
    }

    /// That many worst times.
    pub fn times(&mut self, flows: usize) -> Vec<u16> {
        (0..flows).map(|_| self.time()).collect()
    }

    /// A length that is mostly the one needed, else close to it or far off.
    pub fn around(&mut self, needed: usize) -> usize {
        match self.below(20) {
            0 => needed.saturating_sub(1),
            1 | 2 => needed + 1,
            3 => needed + self.below(40),
            4 => self.below(needed + 1),
            _ => needed,
        }
    }
}
