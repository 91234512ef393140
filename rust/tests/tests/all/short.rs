//! Many plans with short runs: all calls of all implementations, every cell compared.

use tests::compare::{check, felt_inputs, fill_rates, least_flows, least_part, listing, load_page, long_run};
use tests::compare::{page_bytes, read, restore, run, store, stored_words, window, words_are, write, Lengths};
use tests::faults::{any_rows, beyond, disturb, plant, spoil};
use tests::generate::{accepted, erase_rates, Clock, Shape};
use tests::implementation::{Implementation, ALL};
use tests::rng::Rng;
use tests::tally::Tally;
use tests::{rounds, Plan, CLOCK_WORDS, DERIVED, LISTING_MAX, WRITTEN};

/// A plan that is meant to be accepted, with its clocks.
pub fn sound(rng: &mut Rng) -> (Plan, Vec<Clock>) {
    let shape = Shape::short(rng);
    accepted(rng, shape)
}

/// A plan with planted faults.
pub fn faulty(rng: &mut Rng) -> Plan {
    let (mut plan, _) = sound(rng);
    plant(rng, &mut plan);
    plan
}

/// All calls on one plan, with buffers and logs of right and wrong lengths. Gives the packed bytes if there are any.
pub fn every_call(rng: &mut Rng, of: &[&Implementation], plan: &Plan, tally: &mut Tally) -> Option<Vec<u8>> {
    let flows = plan.words.len() / 4;
    let checked = check(of, plan, rng.around(CLOCK_WORDS * flows));
    tally.add("check", checked.parts.0);
    assert!(checked.parts.0 == 0 || checked.is_untouched());

    short_run(rng, of, plan, tally);
    short_long_run(rng, of, plan, tally);
    page(rng, of, plan, tally);
    least(rng, of, plan, tally);
    fill(rng, of, plan, tally);
    archive(rng, of, plan, tally);
    felt(rng, of, plan, tally);

    let written = write(of, plan, 520);
    tally.add("write", written.parts.0);
    if written.parts.0 != 0 {
        assert!(written.is_untouched());
        return None;
    }
    let bytes = written.parts.3 as usize;
    let again = write(of, plan, rng.around(bytes));
    tally.add("write", again.parts.0);
    Some(written.bytes[..bytes].to_vec())
}

/// Few ticks, now and then one of the others, and a log for the first 64 of them, now and then of the wrong length.
fn ticks_and_log(rng: &mut Rng, plan: &Plan, others: &[u32]) -> (u32, Vec<u32>) {
    let ticks = match rng.below(50) {
        0 => 0,
        1 => 1,
        2 => rng.pick(others),
        _ => rng.below(rng.clone().pick(&[8, 24, 48])) as u32,
    };
    let words = ticks.min(64) as usize * plan.inputs();
    let log_len = if rng.percent(95) { words } else { rng.around(words) };
    (ticks, rng.log(log_len))
}

/// A run of few ticks, its log and traces now and then of the wrong length, its ticks now and then too many.
fn short_run(rng: &mut Rng, of: &[&Implementation], plan: &Plan, tally: &mut Tally) {
    let (ticks, log) = ticks_and_log(rng, plan, &[131_071, 131_072, 131_073, u32::MAX]);
    let cells = ticks.min(64) as usize * (plan.words.len() / 4);
    let lengths = match rng.percent(80) {
        true => (cells, cells),
        false => (rng.around(cells), rng.around(cells)),
    };
    let outcome = run(of, plan, &log, ticks, lengths);
    tally.add("run", outcome.parts.0);
    assert!(matches!(outcome.parts.0, 0 | 34) || outcome.is_untouched());
}

/// A long run of few ticks. Its window is long and takes time to compare, so that it is mostly too short here;
/// `endurance` has the others.
fn short_long_run(rng: &mut Rng, of: &[&Implementation], plan: &Plan, tally: &mut Tally) {
    let (ticks, log) = ticks_and_log(rng, plan, &[4_194_304, 4_194_305, u32::MAX]);
    let lengths = match rng.below(4_000) {
        0 => window(plan.words.len() / 4),
        _ => Lengths { bytes: rng.below(64), words: rng.below(64), tallies: rng.below(130), sets: 0 },
    };
    let outcome = long_run(of, plan, &log, ticks, lengths);
    tally.add("long run", outcome.parts.0);
    assert_ne!(outcome.parts.0, 34, "{plan:?}");
    assert!(outcome.parts.0 == 0 || outcome.is_untouched());
}

/// A load page, its times and its room now and then of the wrong length.
fn page(rng: &mut Rng, of: &[&Implementation], plan: &Plan, tally: &mut Tally) {
    let flows = plan.words.len() / 4;
    let times_len = rng.around(flows);
    let times = rng.times(times_len);
    let outcome = load_page(of, plan, &times, rng.around(page_bytes(flows)));
    tally.add("load page", outcome.parts.0);
    assert!(outcome.parts.0 == 0 || outcome.is_untouched());
}

/// The least part and its flows, the room now and then too little.
fn least(rng: &mut Rng, of: &[&Implementation], plan: &Plan, tally: &mut Tally) {
    let flows = plan.words.len() / 4;
    let part = least_part(of, plan, rng.around(4 * flows));
    tally.add("least part", part.parts.0);
    assert!(part.parts.0 == 0 || part.is_untouched());
    let numbers = least_flows(of, plan, rng.around(flows));
    tally.add("least flows", numbers.parts.0);
    assert!(numbers.parts.0 == 0 || numbers.is_untouched());
}

/// Rates filled in, some of the plan's own erased before, the room now and then too little.
fn fill(rng: &mut Rng, of: &[&Implementation], plan: &Plan, tally: &mut Tally) {
    let mut plan = plan.clone();
    let chances = rng.pick(&[0, 30, 60, 100]);
    erase_rates(rng, &mut plan, chances);
    let outcome = fill_rates(of, &plan, rng.around(plan.words.len()));
    tally.add("fill rates", outcome.parts.0);
    assert!(outcome.parts.0 == 0 || outcome.is_untouched());
}

/// Any words given back as a trace, and that stored again, now and then spoilt. Lengths are now and then wrong, and
/// ticks too many.
fn archive(rng: &mut Rng, of: &[&Implementation], plan: &Plan, tally: &mut Tally) {
    let ticks = match rng.below(50) {
        0 => 0,
        1 => rng.pick(&[131_072, 131_073, u32::MAX]),
        _ => rng.range(1, 40),
    };
    let counted = stored_words(of, plan, ticks);
    tally.add("stored words", counted.parts.0);
    let (words, cells) = (counted.parts.3 as usize, ticks.min(64) as usize * (plan.words.len() / 4));
    let lengths = match rng.percent(80) {
        true => (cells, cells),
        false => (rng.around(cells), rng.around(cells)),
    };
    let stored_len = rng.around(words);
    let stored = rng.log(stored_len);
    let restored = restore(of, plan, ticks, &stored, lengths);
    tally.add("restore", restored.parts.0);
    assert!(restored.parts.0 == 0 || restored.is_untouched());

    let (mut marks, mut values) = (restored.bytes[..lengths.0].to_vec(), restored.words[..lengths.1].to_vec());
    let is_spoilt = rng.percent(30) && spoil(rng, &mut marks, &mut values);
    let again = store(of, plan, ticks, (&marks, &values), rng.around(words));
    tally.add("store", again.parts.0);
    match again.parts.0 {
        0 => assert!(!is_spoilt && words_are(&again, &stored[..words]), "{plan:?}"),
        _ => assert!(again.is_untouched()),
    }
}

/// The inputs that the flows feel, the room now and then too little.
fn felt(rng: &mut Rng, of: &[&Implementation], plan: &Plan, tally: &mut Tally) {
    let outcome = felt_inputs(of, plan, rng.around(plan.words.len() / 4));
    tally.add("felt inputs", outcome.parts.0);
    assert!(outcome.parts.0 == 0 || outcome.is_untouched());
}

/// Sound plans: accepted with the clocks that they were made to have, read back as written, and never a clash.
fn sound_plans(seed: u64, plans: usize) {
    let mut rng = Rng::new(seed);
    let mut tally = Tally::default();
    for _ in 0..rounds(plans) {
        let (plan, clocks) = sound(&mut rng);
        let checked = check(&ALL, &plan, CLOCK_WORDS * clocks.len());
        assert_eq!(checked.parts, (0, 0, 0, clocks.len() as u32), "{plan:?}");
        let words: Vec<u32> = clocks.iter().flat_map(Clock::words).collect();
        assert_eq!(checked.words[..words.len()], words, "{plan:?}");

        let packed = every_call(&mut rng, &ALL, &plan, &mut tally).expect("a sound plan is written");
        let plain = read(&ALL, &packed, plan.words.len());
        assert_eq!(plain.parts, (0, 0, 0, plan.count));
        assert_eq!(plain.words[..plan.words.len()], plan.words);
        listing(&ALL, &packed, rng.around(LISTING_MAX));
    }
    assert_eq!(tally.count("run", 34), 0);
    assert!(tally.count("run", 0) > rounds(plans) * 3 / 4);
}

#[test]
fn sound_plans_first() {
    sound_plans(1, 120_000);
}

#[test]
fn sound_plans_second() {
    sound_plans(2, 120_000);
}

/// Plans with planted faults.
fn faulty_plans(seed: u64, plans: usize) {
    let mut rng = Rng::new(seed);
    let mut tally = Tally::default();
    for _ in 0..rounds(plans) {
        let plan = faulty(&mut rng);
        if let Some(packed) = every_call(&mut rng, &ALL, &plan, &mut tally) {
            listing(&ALL, &packed, LISTING_MAX + 9);
        }
    }
    for number in [11, 13, 14, 15, 21, 22, 23, 34, 40] {
        assert!(tally.total(number) > plans / 500, "number {number} occurs: {tally}");
    }
}

#[test]
fn faulty_plans_first() {
    faulty_plans(3, 120_000);
}

#[test]
fn faulty_plans_second() {
    faulty_plans(4, 120_000);
}

/// Small rows that were not made to fit: accepted, refused and clashing in every way.
fn any_plans(seed: u64, plans: usize) {
    let mut rng = Rng::new(seed);
    let mut tally = Tally::default();
    for _ in 0..rounds(plans) {
        let plan = any_rows(&mut rng);
        every_call(&mut rng, &ALL, &plan, &mut tally);
    }
    assert!(tally.count("check", 0) > plans / 20, "{tally}");
    assert!(tally.count("run", 34) > plans / 10, "{tally}");
}

#[test]
fn any_plans_first() {
    any_plans(5, 120_000);
}

#[test]
fn any_plans_second() {
    any_plans(6, 120_000);
}

/// Periods, phases and delays as great as fields have them, where clocks come up to their limits: sound, with one number
/// changed, or led past them.
#[test]
fn large_numbers() {
    let mut rng = Rng::new(7);
    let mut tally = Tally::default();
    let plans = 60_000;
    // The periods and the phases at their limit, of plans as they were made.
    let (mut periods, mut phases) = (0, 0);
    for round in 0..rounds(plans) {
        let flows = 1 + rng.below(16);
        let (mut plan, clocks) = accepted(&mut rng, Shape { flows, scale: WRITTEN, sampling: round % 4 == 0 });
        periods += clocks.iter().filter(|clock| clock.period == DERIVED).count();
        phases += clocks.iter().filter(|clock| clock.phase == DERIVED).count();
        match round % 16 {
            0 => beyond(&mut rng, &mut plan),
            place if place % 2 == 0 => disturb(&mut rng, &mut plan),
            _ => {}
        }
        if let Some(packed) = every_call(&mut rng, &ALL, &plan, &mut tally) {
            assert_eq!(read(&ALL, &packed, plan.words.len()).parts, (0, 0, 0, plan.count));
            listing(&ALL, &packed, LISTING_MAX);
        }
    }
    for number in [21, 22] {
        assert!(tally.count("check", number) > plans / 500, "number {number} occurs: {tally}");
    }
    assert!(periods > plans / 500 && phases > plans / 5_000, "{periods} and {phases} of {plans} plans");
}
