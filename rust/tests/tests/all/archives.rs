//! Traces in the archive of random plans: those of runs and those of any words, spoilt ones, and all that is refused.

use tests::compare::{check, restore, run_exactly, store};
use tests::faults::{any_rows, beyond, disturb, spoil};
use tests::generate::{accepted, Clock, Shape};
use tests::implementation::{Implementation, Parts, LIBRARY};
use tests::rng::Rng;
use tests::tally::Tally;
use tests::{rounds, Plan, CLOCK_WORDS, TICKS, WRITTEN};

use crate::archive::{all_refuse, Archived};
use crate::endurance::FOUR;
use crate::short::{faulty, sound};

/// Periods and phases of a plan whose traces can be stored, or how all three calls refuse it: as the check does, for
/// its ticks, or for its conditions.
fn clocks(of: &[&Implementation], plan: &Plan, ticks: u32) -> Result<Vec<(u32, u32)>, Parts> {
    let flows = plan.words.len() / 4;
    let checked = check(&of[..1], plan, CLOCK_WORDS * flows);
    match checked.parts.0 {
        0 if ticks > TICKS => Err((31, 0, 0, 0)),
        0 if !plan.free_of_sampling() => Err((41, 0, 0, 0)),
        0 => Ok(checked.words.chunks(CLOCK_WORDS).take(flows).map(|clock| (clock[0], clock[1])).collect()),
        _ => Err(checked.parts),
    }
}

/// All three calls on a plan: refused alike; or any words given back as the trace that they are, and stored again, then
/// with a wrong length, and with a cell that is spoilt.
pub fn archive(rng: &mut Rng, of: &[&Implementation], plan: &Plan, ticks: u32, tally: &mut Tally) {
    match clocks(of, plan, ticks) {
        Err(parts) => {
            let lengths = [(); 3].map(|_| rng.below(40));
            all_refuse(of, plan, ticks, lengths.into(), parts);
            tally.add("archive", parts.0);
        }
        Ok(clocks) => {
            let mut archived = Archived::new(&clocks, ticks, |_, _| rng.value());
            archived.goes_round(of, plan);
            tally.add("archive", 0);
            wrong_length(rng, of, plan, &archived);
            tally.add("archive", 42);
            if spoil(rng, &mut archived.marks, &mut archived.values) {
                archived.is_off_calendar(of, plan);
                tally.add("archive", 43);
            }
        }
    }
}

/// One of the lengths is wrong: by 42, and nothing is written.
fn wrong_length(rng: &mut Rng, of: &[&Implementation], plan: &Plan, archived: &Archived) {
    let Archived { ticks, marks, values, stored } = archived;
    let (mut marks, mut values, mut stored) = (marks.clone(), values.clone(), stored.clone());
    let which = rng.below(3);
    let exact = [marks.len(), values.len(), stored.len()][which];
    let any = rng.below(2 * exact + 9);
    let length = match rng.pick(&[exact.saturating_sub(1), exact + 1, any]) {
        length if length == exact => exact + 1,
        length => length,
    };
    match which {
        0 => marks.resize(length, 0),
        1 => values.resize(length, 0),
        _ => stored.resize(length, 0),
    }
    let taken = store(of, plan, *ticks, (&marks, &values), stored.len());
    let given = restore(of, plan, *ticks, &stored, (marks.len(), values.len()));
    for outcome in [taken, given] {
        assert_eq!(outcome.parts, (42, 0, 0, 0), "{plan:?}, {ticks} ticks, {length} for {exact} of {which}");
        assert!(outcome.is_untouched(), "{plan:?}, {ticks} ticks");
    }
}

/// Few ticks of sound plans, plans with faults and rows that were not made to fit.
pub fn few_ticks(mut rng: Rng, of: &[&Implementation], plans: usize) {
    let mut tally = Tally::default();
    for round in 0..plans {
        let plan = match round % 4 {
            0 => sound(&mut rng).0,
            1 => plain(&mut rng, &[1, 2, 4, 6, 12, 100]).0,
            2 => any_rows(&mut rng),
            _ => faulty(&mut rng),
        };
        let ticks = match rng.below(40) {
            0 => rng.pick(&[TICKS + 1, TICKS + 2, u32::MAX]),
            1 => 0,
            2..=4 => rng.range(60, 70),
            5 => rng.range(120, 300),
            _ => rng.range(0, 30),
        };
        archive(&mut rng, of, &plan, ticks, &mut tally);
    }
    for number in [0, 11, 13, 14, 15, 21, 22, 23, 31, 40, 41, 42, 43] {
        assert!(tally.total(number) > plans / 1_000, "number {number} occurs: {tally}");
    }
    assert_eq!(tally.total(10), 0, "{tally}");
}

/// A sound plan without conditions, with clocks up to one of these scales.
fn plain(rng: &mut Rng, scales: &[u32]) -> (Plan, Vec<Clock>) {
    let flows = match rng.below(20) {
        0 => 64,
        1 | 2 => 17 + rng.below(47),
        _ => 1 + rng.below(12),
    };
    let scale = rng.pick(scales);
    accepted(rng, Shape { flows, scale, sampling: false })
}

#[test]
fn few_ticks_first() {
    few_ticks(Rng::new(131), &FOUR, rounds(40_000));
}

#[test]
fn few_ticks_second() {
    few_ticks(Rng::new(132), &FOUR, rounds(40_000));
}

/// Clocks up to their limits, and counts of ticks next to one at which a flow has its first value or a later one; plans
/// with one number changed or led past the limits among them.
#[test]
fn slow_clocks() {
    let mut rng = Rng::new(133);
    let mut tally = Tally::default();
    let (mut late, mut slow, mut all) = (0, 0, 0);
    let plans = rounds(400);
    for round in 0..plans {
        let flows = 1 + rng.below(8);
        let (mut plan, clocks) = accepted(&mut rng, Shape { flows, scale: WRITTEN, sampling: round % 8 == 0 });
        match round % 16 {
            1 => beyond(&mut rng, &mut plan),
            2 | 3 => disturb(&mut rng, &mut plan),
            _ => {}
        }
        let Clock { period, phase, .. } = clocks[rng.below(clocks.len())];
        let ticks = match rng.below(8) {
            0 => rng.pick(&[TICKS - 1, TICKS, TICKS, TICKS + 1]),
            place => {
                let later = phase + rng.pick(&[0, 1, 1, 2]) * period;
                (later + [0, 0, 1, 1, 2, 3, 64, 65][place]).saturating_sub(1).min(TICKS)
            }
        };
        late += usize::from(clocks.iter().any(|clock| clock.phase > WRITTEN && clock.phase < ticks));
        slow += usize::from(clocks.iter().any(|clock| clock.period > WRITTEN && clock.period < ticks));
        all += usize::from(ticks == TICKS);
        archive(&mut rng, &FOUR, &plan, ticks, &mut tally);
    }
    for number in [0, 21, 22, 31, 41, 42, 43] {
        assert!(tally.total(number) > plans / 400, "number {number} occurs: {tally}");
    }
    assert!(late > plans / 50 && slow > plans / 50 && all > plans / 50, "{late}, {slow} and {all} of {plans}");
}

/// The trace that a run leaves can be stored, as the values that are marked, and comes back.
fn run_goes_round(rng: &mut Rng, of: &[&Implementation], plan: &Plan, ticks: u32) {
    let flows = plan.words.len() / 4;
    let log = rng.log(ticks as usize * plan.inputs());
    let outcome = run_exactly(&[&LIBRARY], plan, &log, ticks);
    assert_eq!(outcome.parts, (0, 0, 0, ticks), "{plan:?}");
    let cells = ticks as usize * flows;
    let (marks, values) = (outcome.bytes[..cells].to_vec(), outcome.words[..cells].to_vec());
    let places = (0..flows).flat_map(|flow| (flow..cells).step_by(flows));
    let stored = places.filter(|&place| marks[place] == 1).map(|place| values[place]).collect();
    Archived { ticks, marks, values, stored }.goes_round(of, plan);
}

/// Few ticks of many plans, thousands of some, and all ticks of few.
#[test]
fn traces_of_runs() {
    let mut rng = Rng::new(134);
    for _ in 0..rounds(20_000) {
        let (plan, _) = plain(&mut rng, &[1, 2, 4, 6, 12]);
        let ticks = rng.range(0, 50);
        run_goes_round(&mut rng, &FOUR, &plan, ticks);
    }
    for _ in 0..rounds(40) {
        let (plan, _) = plain(&mut rng, &[6, 100, WRITTEN]);
        let ticks = rng.range(1, 6_000);
        run_goes_round(&mut rng, &FOUR, &plan, ticks);
    }
    for (flows, scale) in [(1, 6), (7, 100), (16, 6), (16, WRITTEN), (64, 40)] {
        let (plan, _) = accepted(&mut rng, Shape { flows, scale, sampling: false });
        run_goes_round(&mut rng, &FOUR, &plan, TICKS);
    }
}
