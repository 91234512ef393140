//! How many plans were accepted, refused by each number, and clashed: every number has to occur.

use std::io::Write;

use tests::faults::{any_rows, damage};
use tests::implementation::{Implementation, ALL};
use tests::rng::Rng;
use tests::rounds;
use tests::tally::Tally;

use crate::packed::{packed, read_and_back};
use crate::short::{every_call, faulty, sound};

/// All calls on a mixture of sound plans, plans with faults, small rows and damaged bytes. Gives the answers, of which
/// every number has to be at least one in 200 plans.
pub fn mixture(mut rng: Rng, of: &[&Implementation], plans: usize) -> Tally {
    let mut tally = Tally::default();
    for round in 0..plans {
        let plan = match round % 5 {
            0 | 1 => sound(&mut rng).0,
            2 => any_rows(&mut rng),
            _ => faulty(&mut rng),
        };
        every_call(&mut rng, of, &plan, &mut tally);
        let mut packed = packed(&mut rng);
        damage(&mut rng, &mut packed);
        read_and_back(&mut rng, of, &packed, &mut tally);
    }
    for number in (10..=16).chain(21..=23).chain(31..=43) {
        assert!(tally.total(number) >= plans / 200, "number {number} occurs: {tally}");
    }
    tally
}

/// The same mixture as in the other tests, with another generator, counted.
#[test]
fn every_number_occurs() {
    let plans = rounds(100_000);
    let tally = mixture(Rng::new(31), &ALL, plans);
    let (accepted, clashed) = (tally.count("check", 0), tally.count("run", 34));
    // Written past the capture of the test's output, so that it is seen in every run.
    let text = format!("\n{plans} plans: {accepted} accepted, {clashed} clashed; answers by call and number:{tally}");
    std::io::stderr().write_all(text.as_bytes()).expect("standard error takes the summary");
    assert!(accepted > plans * 2 / 5);
    assert!(clashed > plans / 20);
}
