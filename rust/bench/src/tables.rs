//! Check, write, read, load page, felt inputs, least part and rates filled in: library and quick implementation. The
//! library's calls, with the listing and the least part's flows, so many times.

use std::hint::black_box;

use crate::measure::{by_turns, Measured};
use crate::plans::Plan;

/// How many calls make one measurement.
const CALLS: u32 = 2_000;

/// What the calls take.
struct Given<'a> {
    count: u32,
    words: &'a [u32],
    packed: Vec<u8>,
    times: Vec<u16>,
    clashing: Vec<u32>,
}

impl<'a> Given<'a> {
    fn new(plan: &'a Plan) -> Self {
        let (count, words, mut packed) = (plan.flows() as u32, &plan.words[..], [0; baarqidho::PACKED_MAX]);
        let bytes = baarqidho::write(count, words, &mut packed).count as usize;
        Given { count, words, packed: packed[..bytes].to_vec(), times: plan.times(), clashing: plan.clashing() }
    }
}

/// The buffers that the calls are lent: of clocks, plain rows or flows, of packed rows or text, and of sets.
#[derive(PartialEq)]
struct Lent {
    words: [u32; baarqidho::CLOCK_WORDS * 64],
    bytes: [u8; baarqidho::LISTING_MAX],
    sets: [u64; 64],
}

impl Lent {
    fn new() -> Self {
        Lent { words: [0; baarqidho::CLOCK_WORDS * 64], bytes: [0; baarqidho::LISTING_MAX], sets: [0; 64] }
    }
}

/// A call; gives the number and count of its answer.
type Make = fn(&Given, &mut Lent) -> (u32, u32);

/// A call by its name.
struct Call {
    name: &'static str,
    library: Make,
    quick: Make,
}

macro_rules! call {
    ($name:literal, $call:ident, |$given:ident, $lent:ident| ($($argument:expr),+)) => {
        Call {
            name: $name,
            library: |$given, $lent| {
                let answer = baarqidho::$call($($argument),+);
                (answer.number, answer.count)
            },
            quick: |$given, $lent| {
                let answer = peer::$call($($argument),+);
                (answer.number, answer.count)
            },
        }
    };
}

/// The calls that are measured on every plan, the last one over the plan that clashes.
const MEASURED: [Call; 6] = [
    call!("check", check, |given, lent| (given.count, given.words, &mut lent.words)),
    call!("write", write, |given, lent| (given.count, given.words, &mut lent.bytes)),
    call!("read", read, |given, lent| (&given.packed, &mut lent.words)),
    call!("page", load_page, |given, lent| (given.count, given.words, &given.times, &mut lent.bytes)),
    FELT,
    call!("least", least_part, |given, lent| (given.count, &given.clashing, &mut lent.words)),
];

/// The inputs that flows feel, which is also measured on plans of registers that feed each other.
const FELT: Call = call!("felt", felt_inputs, |given, lent| (given.count, given.words, &mut lent.sets));

/// Rates filled in, which is measured on plans that lack some.
const FILL: Call = call!("fill", fill_rates, |given, lent| (given.count, given.words, &mut lent.words));

/// The listing, and the flows of the least part.
const OTHERS: [Call; 2] = [
    call!("listing", listing, |given, lent| (&given.packed, &mut lent.bytes)),
    call!("flows", least_flows, |given, lent| (given.count, &given.clashing, &mut lent.words)),
];

/// The calls of [`MEASURED`], [`FILL`] and those of [`OTHERS`].
fn all() -> impl Iterator<Item = Call> {
    MEASURED.into_iter().chain([FILL]).chain(OTHERS)
}

/// The names of all calls.
pub fn names() -> Vec<&'static str> {
    all().map(|call| call.name).collect()
}

/// The heading of a table of calls.
pub fn heading(title: &str) {
    println!("\n{title}");
    println!("{:<34} {:>11} {:>11} {:>11}   {:>16}   {:>16}", "", "library", "", "quick", "", "library/quick");
}

fn line(call: &str, plan: &Plan, measured: &Measured<2>) {
    let [library, quick] = [0, 1].map(|which| measured.least(which) / f64::from(CALLS));
    let (ratio, median) = measured.ratios(1);
    let name = format!("{call}, {}, {} flows", plan.name, plan.flows());
    println!("{name:<34} {library:>11.0} {:>11} {quick:>11.0}   {:>16}   {ratio:>9.2} {median:>6.2}", "", "");
}

/// Makes a call so many times and sees to it that it always succeeds with one count.
fn many(calls: u32, count: u32, make: Make, given: &Given, lent: &mut Lent) {
    for _ in 0..calls {
        assert_eq!(black_box(make(black_box(given), lent)), (0, count));
    }
}

/// Measures check, write, read, load page, felt inputs and least part of one plan; both give the same clocks, bytes,
/// words, text and sets. One flow has no least part.
pub fn table(plan: &Plan) {
    calls(plan, MEASURED);
}

/// Measures felt inputs of one plan; both give the same sets.
pub fn felt(plan: &Plan) {
    calls(plan, [FELT]);
}

/// Measures rates filled in of one plan; both give the same words.
pub fn fill(plan: &Plan) {
    calls(plan, [FILL]);
}

/// Measures calls of one plan.
fn calls<const N: usize>(plan: &Plan, calls: [Call; N]) {
    let (given, mut lent, mut quick_lent) = (Given::new(plan), Lent::new(), Lent::new());
    for Call { name, library, quick } in calls {
        let (number, count) = library(&given, &mut lent);
        if number == 38 {
            continue;
        }
        let measured = by_turns(|which| match which {
            0 => many(CALLS, count, library, &given, &mut lent),
            _ => many(CALLS, count, quick, &given, &mut quick_lent),
        });
        assert!(lent == quick_lent, "{name}");
        assert!(name != "read" || lent.words[..plan.words.len()] == plan.words, "{name}");
        line(name, plan, &measured);
    }
}

/// Makes the library's call of a name so many times, and nothing else that depends on how many. Nothing if there is no
/// such call, or if it does not succeed.
pub fn only(name: &str, plan: &Plan, calls: u32) -> Option<()> {
    let call = all().find(|call| call.name == name)?;
    let (given, mut lent) = (Given::new(plan), Lent::new());
    let answer = (call.library)(&given, &mut lent);
    if answer.0 != 0 {
        return None;
    }
    many(calls, answer.1, call.library, &given, &mut lent);
    println!("answer {answer:?}");
    Some(())
}
