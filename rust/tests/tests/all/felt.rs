//! The inputs that a flow feels: by hand, through every place of every row, at every limit, and refused in the right
//! order.

use tests::compare::{check, felt_inputs, run_exactly, sets_are};
use tests::faults::refused_plans;
use tests::implementation::ALL;
use tests::{Plan, CLOCK_WORDS};

/// The input of a clock.
fn at(period: u32, phase: u32) -> [u32; 4] {
    [0, period, phase, 0]
}

/// A constant at every tick.
const CONSTANT: [u32; 4] = [1, 5, 1, 0];

/// The set of some flows.
fn set(flows: &[u32]) -> u64 {
    flows.iter().map(|flow| 1 << flow).sum()
}

/// The check accepts rows, and their flows feel exactly these inputs, in order. All of it is worked out by hand.
fn feel(rows: &[[u32; 4]], felt: &[&[u32]]) {
    have_sets(rows, &felt.iter().map(|flows| set(flows)).collect::<Vec<_>>());
}

/// The same of sets.
fn have_sets(rows: &[[u32; 4]], sets: &[u64]) {
    let (plan, count) = (Plan::of(rows), rows.len() as u32);
    assert_eq!(check(&ALL, &plan, CLOCK_WORDS * rows.len()).parts, (0, 0, 0, count), "{rows:?}");
    let outcome = felt_inputs(&ALL, &plan, rows.len());
    assert_eq!(outcome.parts, (0, 0, 0, count), "{rows:?}");
    assert!(sets_are(&outcome, sets), "{rows:?}: {:?}", outcome.sets);
}

/// Behind three inputs on one clock and more rows, the last row feels these inputs.
fn last_feels(others: &[[u32; 4]], row: [u32; 4], felt: &[u32]) {
    let plan = Plan::of(&[&[at(6, 6); 3], others, &[row]].concat());
    let outcome = felt_inputs(&ALL, &plan, 64);
    assert_eq!((outcome.parts, outcome.sets[3 + others.len()]), ((0, 0, 0, plan.count), set(felt)), "{plan:?}");
}

/// The README's worked example, and the paper's case I behind inputs that it does not feel.
#[test]
fn by_hand() {
    have_sets(&[at(2, 0), [9, 0, 2, 0], [7, 20, 1, 1], [4, 2, 1, 0], [13, 1, 3, 0]], &[1; 5]);
    let rows = [at(1, 0), at(4, 0), at(1, 0), at(4, 0), [13, 1, 3, 0], [14, 1, 3, 0], [15, 3, 4, 5]];
    feel(&rows, &[&[0], &[1], &[2], &[3], &[1, 3], &[1, 3], &[1, 3]]);
}

/// Every kind, over the same flow and over others, in either order. Values, copies, gaps, delays, ticks and view
/// periods that could be flows are none.
#[test]
fn every_place() {
    for kind in 2..=6 {
        last_feels(&[], [kind, 0, 1, 0], &[0, 1]);
        last_feels(&[], [kind, 2, 1, 0], &[1, 2]);
        last_feels(&[], [kind, 2, 2, 0], &[2]);
    }
    last_feels(&[], [7, 2, 0, 1], &[0, 1]);
    last_feels(&[], [7, 0, 2, 1], &[1, 2]);
    last_feels(&[], [7, 1, 2, 2], &[2]);
    last_feels(&[], [7, 1, 0, 3], &[0]);
    last_feels(&[], [8, 0, 2, 3], &[0]);
    last_feels(&[], [8, 1, 3, 2], &[1]);
    last_feels(&[], [9, 0, 2, 0], &[0]);
    last_feels(&[], [9, 2, 1, 0], &[2]);
    last_feels(&[], [10, 0, 2, 0], &[0]);
    last_feels(&[], [10, 2, 0, 0], &[2]);
    last_feels(&[], [11, 1, 2, 0], &[1]);
    last_feels(&[], [11, 2, 0, 0], &[2]);
    last_feels(&[], [12, 0, 0, 0], &[0]);
    last_feels(&[], [12, 2, 0, 0], &[2]);
    for kind in [13, 14] {
        last_feels(&[], [kind, 0, 1, 0], &[0, 1]);
        last_feels(&[], [kind, 2, 1, 0], &[1, 2]);
        last_feels(&[], [kind, 1, 1, 0], &[1]);
    }
    for kind in [17, 18] {
        last_feels(&[], [kind, 0, 1, 6], &[0, 1]);
        last_feels(&[at(2, 1), at(3, 1), at(1, 6)], [kind, 3, 4, 6], &[3, 4]);
        last_feels(&[at(2, 1), at(3, 1), at(1, 6)], [kind, 5, 3, 2], &[3, 5]);
        last_feels(&[], [kind, 2, 2, 6], &[2]);
    }
    // By flow 0: flow 1 and flow 2, flow 1 twice, and flow 0 itself.
    last_feels(&[[13, 1, 0, 0], [14, 2, 0, 0]], [15, 0, 3, 4], &[0, 1, 2]);
    last_feels(&[[13, 1, 0, 0], [14, 1, 0, 0]], [15, 0, 3, 4], &[0, 1]);
    last_feels(&[[13, 0, 0, 0], [14, 0, 0, 0]], [15, 0, 3, 4], &[0]);
}

/// Places through which alone an input is felt: a source, a beat, the c of a view, the c of a sample. What the c of a
/// merge feels both branches feel as well, since it stands in their clocks, and so in a row below them.
#[test]
fn through_one_place_alone() {
    let constant = [1, 5, 2, 0];
    feel(&[constant, at(2, 0), [7, 9, 0, 1]], &[&[], &[1], &[1]]);
    feel(&[constant, at(2, 0), [7, 9, 1, 0]], &[&[], &[1], &[1]]);
    feel(&[at(2, 0), [7, 9, 0, 1]], &[&[0], &[0]]);
    for kind in [17, 18] {
        feel(&[constant, at(3, 0), [kind, 0, 1, 6]], &[&[], &[1], &[1]]);
        feel(&[constant, at(3, 0), [kind, 1, 0, 6]], &[&[], &[1], &[1]]);
    }
    for kind in [13, 14] {
        feel(&[constant, at(2, 0), [kind, 0, 1, 0]], &[&[], &[1], &[1]]);
        feel(&[constant, at(2, 0), [kind, 1, 0, 0]], &[&[], &[1], &[1]]);
    }
    let sampled = |a, b| [constant, at(2, 0), at(2, 0), at(2, 0), [13, a, 1, 0], [14, b, 1, 0], [15, 1, 4, 5]];
    let inputs: [&[u32]; 4] = [&[], &[1], &[2], &[3]];
    feel(&sampled(0, 0), &[&inputs[..], &[&[1], &[1], &[1]]].concat());
    feel(&sampled(2, 0), &[&inputs[..], &[&[1, 2], &[1], &[1, 2]]].concat());
    feel(&sampled(0, 3), &[&inputs[..], &[&[1], &[1, 3], &[1, 3]]].concat());
}

/// Conditions of conditions, up to four, and on top of a view: each flow feels what all of them feel. A condition is
/// about the c of a row further down: no plan is known in which it alone tells of an input.
#[test]
fn conditions() {
    let rows = [at(2, 0), at(2, 0), at(2, 0), at(2, 0), [13, 0, 1, 0], [14, 2, 1, 0]];
    feel(&rows, &[&[0], &[1], &[2], &[3], &[0, 1], &[1, 2]]);
    let rows = [[1, 5, 2, 0], at(2, 0), [13, 0, 1, 0], [13, 2, 2, 0], [14, 3, 3, 0], [14, 4, 4, 0], [7, 9, 5, 5]];
    feel(&rows, &[&[], &[1], &[1], &[1], &[1], &[1], &[1]]);
    // Flows under two conditions whose rows name neither of them.
    let first = [[1, 5, 2, 0], at(2, 0), at(2, 0), [13, 0, 1, 0], [13, 2, 1, 0], [14, 3, 4, 0]];
    let second = [[1, 6, 2, 0], [13, 6, 1, 0], [14, 7, 4, 0], [2, 8, 5, 0], [7, 9, 8, 9]];
    let felt: [&[u32]; 6] = [&[], &[1], &[2], &[1], &[1, 2], &[1, 2]];
    feel(&[first.to_vec(), second.to_vec()].concat(), &[&felt[..], &[&[], &[1], &[1, 2], &[1, 2], &[1, 2]]].concat());
    let rows = [[1, 5, 2, 0], at(3, 0), [17, 0, 1, 6], at(2, 0), [18, 3, 1, 6], [17, 3, 1, 6], [13, 2, 5, 0]];
    feel(&rows, &[&[], &[1], &[1], &[3], &[1, 3], &[1, 3], &[1, 3]]);
}

/// Registers that feed themselves, each other, and on in rings; with sources before them and behind them.
#[test]
fn registers_in_loops() {
    // Themselves, with nothing but constants to feel, and with an input for a beat.
    feel(&[CONSTANT, [7, 9, 0, 1]], &[&[], &[]]);
    feel(&[at(1, 0), [7, 9, 0, 1]], &[&[0], &[0]]);
    // A sum that a register feeds back.
    feel(&[CONSTANT, [7, 9, 0, 3], at(1, 0), [2, 1, 2, 0]], &[&[], &[2], &[2], &[2]]);
    // Two that feed each other; an input beside them, in the beat of one, and in a sum that one of them is fed by.
    feel(&[CONSTANT, at(1, 0), [7, 9, 0, 3], [7, 9, 0, 2]], &[&[], &[1], &[], &[]]);
    feel(&[CONSTANT, at(1, 0), [7, 9, 0, 3], [7, 9, 1, 2]], &[&[], &[1], &[1], &[1]]);
    feel(&[CONSTANT, at(1, 0), [7, 9, 0, 3], [7, 9, 0, 4], [2, 1, 2, 0]], &[&[], &[1], &[1], &[1], &[1]]);
    // Two loops, of which the second is fed by the first: it feels both inputs, the first one its own alone.
    let first = [CONSTANT, at(1, 0), at(1, 0), [7, 9, 0, 4], [2, 1, 3, 0]];
    let second = [[7, 9, 0, 7], [3, 5, 2, 0], [6, 6, 4, 0], [5, 3, 4, 0]];
    let felt: [&[u32]; 9] = [&[], &[1], &[2], &[1], &[1], &[1, 2], &[1, 2], &[1, 2], &[1]];
    feel(&[&first[..], &second].concat(), &felt);
    // The other way round: what stands below is fed from above.
    let rows = [CONSTANT, at(1, 0), [7, 9, 0, 3], [7, 9, 0, 5], [2, 2, 1, 0], [7, 9, 0, 6], at(1, 0)];
    feel(&rows, &[&[], &[1], &[6], &[6], &[1, 6], &[6], &[6]]);
    // Under a condition and under a view: the loop feels those as well.
    let rows = [CONSTANT, at(1, 0), [13, 0, 1, 0], [7, 9, 2, 4], [2, 2, 3, 0]];
    feel(&rows, &[&[], &[1], &[1], &[1], &[1]]);
    let rows = [CONSTANT, at(2, 0), [18, 0, 1, 2], [7, 9, 2, 4], [7, 9, 2, 3]];
    feel(&rows, &[&[], &[1], &[1], &[1], &[1]]);
}

/// 62 registers in rings, each with one some places on for its source, between a constant and an input. The input is
/// the source of none of them, and then of one, and all of its ring feels it.
#[test]
fn rings() {
    for (step, rings) in [(1, 1), (2, 2), (5, 1), (31, 31), (61, 1)] {
        let mut ring = vec![CONSTANT];
        ring.extend((1..63).map(|flow| [7, 9, 0, 1 + (flow - 1 + step) % 62]));
        ring.push(at(1, 0));
        have_sets(&ring, &[&[0; 63][..], &[1 << 63]].concat());
        for fed in [1, 2, 31, 62] {
            let mut rows = ring.clone();
            rows[fed][3] = 63;
            let feels = |flow: usize| flow == 63 || flow > 0 && flow % rings == fed % rings;
            have_sets(&rows, &(0..64).map(|flow| u64::from(feels(flow)) << 63).collect::<Vec<_>>());
        }
    }
    // The input as the beat of one.
    for beaten in [2, 40, 63] {
        let mut rows = vec![at(1, 0), CONSTANT];
        rows.extend((2..64).map(|flow| [7, 9, u32::from(flow != beaten), 2 + (flow - 1) % 62]));
        have_sets(&rows, &[&[1, 0][..], &[1; 62]].concat());
    }
}

/// Sets are of what can be reached, not of what values feel: an input less itself, one that a condition never lets
/// through, and one that is a register's beat. Two logs that differ in it everywhere give these flows the same trace.
#[test]
fn more_than_values_feel() {
    let rows = [[1, 0, 1, 0], at(1, 0), [13, 1, 0, 0], [3, 1, 1, 0], [5, 1, 1, 0], [7, 9, 1, 0]];
    feel(&rows, &[&[], &[1], &[1], &[1], &[1], &[1]]);
    let [first, second] = [[3, 1, 4, 1, 5], [9, 2, 6, 5, 3]].map(|log| run_exactly(&ALL, &Plan::of(&rows), &log, 5));
    for tick in 0..5 {
        for place in [2, 3, 4, 5].map(|flow| 6 * tick + flow) {
            assert_eq!((first.bytes[place], first.words[place]), (second.bytes[place], second.words[place]));
        }
        assert_ne!(first.words[6 * tick + 1], second.words[6 * tick + 1]);
    }
}

/// Constants are no inputs, whatever their number in the table.
#[test]
fn constants() {
    have_sets(&[CONSTANT], &[0]);
    have_sets(&[CONSTANT; 64], &[0; 64]);
    let rows = [CONSTANT, CONSTANT, [2, 0, 1, 0], [13, 2, 0, 0], [14, 2, 0, 0], [15, 0, 3, 4], [7, 0, 5, 6]];
    have_sets(&rows, &[0; 7]);
    feel(&[CONSTANT, at(1, 0), CONSTANT, [2, 0, 1, 0], [2, 0, 2, 0]], &[&[], &[1], &[], &[1], &[]]);
}

/// One flow and 64, of which the last has the highest bit; chains over all of them, up and, through sources, down.
#[test]
fn the_greatest_plans() {
    have_sets(&[at(1, 0)], &[1]);
    have_sets(&[at(4095, 4095)], &[1]);
    let inputs: Vec<[u32; 4]> = (1..65).map(|period| at(period, 65 - period)).collect();
    have_sets(&inputs, &(0..64).map(|flow| 1 << flow).collect::<Vec<_>>());

    let mut chain = vec![at(1, 0)];
    chain.extend((0..63).map(|before| [10, before, 1, 0]));
    have_sets(&chain, &[1; 64]);
    let mut down = vec![CONSTANT];
    down.extend((1..63).map(|flow| [7, 9, 0, flow + 1]));
    down.push(at(1, 0));
    have_sets(&down, &[&[0][..], &[1 << 63; 63]].concat());
    down[63] = CONSTANT;
    have_sets(&down, &[0; 64]);

    // Each sum has one input more, the last one 32 of them; with inputs between, and with all of them first.
    let mut by_turns = vec![at(1, 0), at(1, 0)];
    by_turns.extend((1..32).flat_map(|pair| [[2, 2 * pair - 2, 2 * pair - 1, 0], at(1, 0)]));
    let odd = |below: u32| (0..below).filter(|flow| flow % 2 == 1).map(|flow| 1 << flow).sum::<u64>() | 1;
    let sets: Vec<u64> = (0..64).map(|flow| if flow % 2 == 1 { 1 << flow } else { odd(flow) }).collect();
    have_sets(&by_turns, &sets);
    let mut first = vec![at(1, 0); 32];
    first.extend((0..31).map(|sum| [6, if sum == 0 { 0 } else { 31 + sum }, 1 + sum, 0]));
    first.push([7, 9, 62, 63]);
    let sets = (0..32).map(|flow| 1 << flow).chain((0..31).map(|sum| (4_u64 << sum) - 1)).chain([u64::from(u32::MAX)]);
    have_sets(&first, &sets.collect::<Vec<_>>());
}

/// Every room from none to more than there are flows: too little, and nothing is written; enough, and sets behind those
/// of the plan stay as they were.
#[test]
fn rooms() {
    let mut down = vec![CONSTANT];
    down.extend((1..63).map(|flow| [7, 9, 0, flow + 1]));
    down.push(at(1, 0));
    for (rows, sets) in [
        (vec![at(9, 1)], vec![1]),
        (vec![CONSTANT, CONSTANT], vec![0, 0]),
        (vec![at(4, 0), at(4, 0), [13, 0, 1, 0], [14, 0, 1, 0], [15, 1, 2, 3]], vec![1, 2, 3, 3, 3]),
        (down, [&[0][..], &[1 << 63; 63]].concat()),
    ] {
        let (plan, count) = (Plan::of(&rows), rows.len() as u32);
        for len in 0..rows.len() + 9 {
            let outcome = felt_inputs(&ALL, &plan, len);
            let is_enough = len >= rows.len();
            assert_eq!(outcome.parts, if is_enough { (0, 0, 0, count) } else { (10, 0, 0, 0) }, "{len} sets");
            assert!(sets_are(&outcome, if is_enough { &sets } else { &[] }), "{len} sets: {rows:?}");
        }
    }
}

/// Of two causes the earlier one is told: the table's, the check's, the room. Nothing is written.
#[test]
fn order_of_refusals() {
    let is_refused = |plan: &Plan, parts| {
        for len in [0, 1, 2, 3, 4, 64, 65, 300] {
            let outcome = felt_inputs(&ALL, plan, len);
            assert_eq!(outcome.parts, parts, "{plan:?} into {len} sets");
            assert!(outcome.is_untouched(), "{plan:?} into {len} sets");
        }
    };
    for (plan, parts) in refused_plans() {
        is_refused(&plan, parts);
    }
    // A count that is wrong by one, words that are; rows that are accepted, and refused as they are.
    for rows in [[at(1, 0), at(1, 0), [2, 0, 1, 0]], [at(1, 0), at(2, 0), [2, 0, 1, 0]]] {
        let words = rows.concat();
        for (count, len) in [(0, 12), (2, 12), (4, 12), (3, 11), (3, 8), (3, 0), (65, 12), (u32::MAX, 12)] {
            is_refused(&Plan { count, words: words[..len].to_vec() }, (11, 0, 0, 0));
        }
        is_refused(&Plan { count: (1 << 30) + 3, words: words.clone() }, (11, 0, 0, 0));
        is_refused(&Plan { count: 3, words: [words, vec![0]].concat() }, (11, 0, 0, 0));
        is_refused(&Plan::of(&[&rows[..], &[[16, 0, 0, 0]]].concat()), (13, 3, 0, 0));
        is_refused(&Plan::of(&[&[[16, 0, 0, 0]], &rows[..]].concat()), (13, 0, 0, 0));
    }
    // The room comes after what the check says of clocks, and not before it as in the check.
    let differ = Plan::of(&[at(1, 0), at(2, 0), [2, 0, 1, 0]]);
    assert_eq!(check(&ALL, &differ, 0).parts, (10, 0, 0, 0));
    assert_eq!(felt_inputs(&ALL, &differ, 0).parts, (21, 2, 0, 0));
}
