//! Packed bytes: valid, damaged, cut, lengthened, and any.

use tests::compare::{check, listing, read, write};
use tests::faults::{beyond, damage};
use tests::generate::erase_rates;
use tests::implementation::{Implementation, ALL};
use tests::rng::Rng;
use tests::tally::Tally;
use tests::{rounds, Plan, CLOCK_WORDS, LISTING_MAX};

use crate::short::sound;

/// Reads bytes into buffers of several lengths; what is read is written again as the same bytes.
pub fn read_and_back(rng: &mut Rng, of: &[&Implementation], packed: &[u8], tally: &mut Tally) {
    let plain = read(of, packed, 256);
    tally.add("read", plain.parts.0);
    listing(of, packed, LISTING_MAX);
    if plain.parts.0 != 0 {
        assert!(plain.is_untouched());
        return;
    }
    let count = plain.parts.3;
    let words = plain.words[..4 * count as usize].to_vec();
    tally.add("read", read(of, packed, rng.around(words.len())).parts.0);
    let plan = Plan { count, words };
    tally.add("check", check(of, &plan, CLOCK_WORDS * count as usize).parts.0);
    let written = write(of, &plan, packed.len());
    assert_eq!(written.parts, (0, 0, 0, packed.len() as u32));
    assert_eq!(&written.bytes[..packed.len()], packed);
}

/// The packed bytes of a sound plan, now and then with some rates erased, or beyond the limits.
pub fn packed(rng: &mut Rng) -> Vec<u8> {
    let (mut plan, _) = sound(rng);
    if rng.percent(15) {
        erase_rates(rng, &mut plan, 60);
    }
    if rng.percent(5) {
        beyond(rng, &mut plan);
    }
    let written = write(&ALL[..1], &plan, 520);
    written.bytes[..written.parts.3 as usize].to_vec()
}

#[test]
fn damaged_bytes() {
    let mut rng = Rng::new(11);
    let mut tally = Tally::default();
    let plans = 150_000;
    for _ in 0..rounds(plans) {
        let mut packed = packed(&mut rng);
        damage(&mut rng, &mut packed);
        read_and_back(&mut rng, &ALL, &packed, &mut tally);
    }
    for number in [0, 10, 11, 12, 13, 14, 15, 16] {
        assert!(tally.count("read", number) > plans / 500, "number {number} occurs: {tally}");
    }
    for number in [21, 22, 23, 40] {
        assert!(tally.count("check", number) > 20, "number {number} occurs: {tally}");
    }
}

#[test]
fn any_bytes() {
    let mut rng = Rng::new(12);
    let mut tally = Tally::default();
    for _ in 0..rounds(100_000) {
        let mut packed: Vec<u8> = (0..rng.below(40)).map(|_| rng.word() as u8 & rng.word() as u8).collect();
        if let (Some(count), true) = (packed.first_mut(), rng.percent(80)) {
            *count = rng.range(1, 4) as u8;
        }
        read_and_back(&mut rng, &ALL, &packed, &mut tally);
    }
}

/// Every length that bytes can be cut to, every bit turned over, and every filling bit.
#[test]
fn every_cut_and_every_bit() {
    let mut rng = Rng::new(13);
    let mut tally = Tally::default();
    for _ in 0..rounds(60) {
        let whole = packed(&mut rng);
        for len in 0..whole.len() {
            let outcome = read(&ALL, &whole[..len], 256);
            assert_eq!(outcome.parts.0, 12, "a cut table ends too early");
        }
        for bit in 0..8 * whole.len() {
            let mut other = whole.clone();
            other[bit / 8] ^= 0x80 >> (bit % 8);
            read_and_back(&mut rng, &ALL, &other, &mut tally);
        }
        let mut longer = whole.clone();
        longer.push(0);
        assert_eq!(read(&ALL, &longer, 256).parts, (16, 0, 0, 0));
    }
    assert!(tally.count("read", 16) > 0, "{tally}");
}

/// The bits of a packed row, kinds 0 to 18.
const LENGTHS: [usize; 19] = [29, 61, 17, 17, 17, 17, 17, 49, 29, 17, 23, 55, 11, 17, 17, 23, 5, 29, 29];

/// A row of each kind behind 0 to 15 inputs, that is at each place of a byte, within the first eight bytes and past
/// them; every field with each number next to a limit of some field. What is accepted has the length of its kind, is
/// read back, and does not go into a byte less.
#[test]
fn every_kind_at_every_place() {
    let mut rng = Rng::new(14);
    let mut tally = Tally::default();
    let mut accepted = [0; 19];
    let numbers = [0, 1, 63, 64, 4095, 4096, u32::MAX];
    for (kind, inputs) in (0..19).flat_map(|kind| (0..16).map(move |inputs| (kind, inputs))) {
        for choice in 0..numbers.len().pow(3) {
            let field = |place: u32| numbers[choice / numbers.len().pow(place) % numbers.len()];
            let mut rows = vec![[0, 4095, 4095, 0]; inputs];
            rows.push([kind as u32, field(0), field(1), field(2)]);
            let plan = Plan::of(&rows);
            let written = write(&ALL, &plan, 520);
            tally.add("write", written.parts.0);
            if written.parts.0 != 0 {
                assert_eq!(written.parts.1, inputs as u32, "the row itself is refused: {plan:?}");
                assert!(written.is_untouched());
                continue;
            }
            let bytes = (8 + LENGTHS[0] * inputs + LENGTHS[kind]).div_ceil(8);
            assert_eq!(written.parts.3 as usize, bytes, "{plan:?}");
            assert_eq!(write(&ALL, &plan, bytes - 1).parts, (10, 0, 0, 0));
            read_and_back(&mut rng, &ALL, &written.bytes[..bytes], &mut tally);
            accepted[kind] += 1;
        }
    }
    assert!(accepted.iter().all(|&plans| plans >= 15), "each kind is accepted at each place: {accepted:?}");
    for number in [14, 15] {
        assert!(tally.count("write", number) > 0, "number {number} occurs: {tally}");
    }
}

/// Inputs without a rate, five bits each: tables of nothing else, of every length; and some of them before, between and
/// behind two rows of each kind, at each place of a byte.
#[test]
fn rows_of_five_bits() {
    let mut rng = Rng::new(15);
    let mut tally = Tally::default();
    let open = [16, 0, 0, 0];
    for count in 1..=64 {
        let written = write(&ALL, &Plan::of(&vec![open; count]), 489);
        let bytes = (8 + 5 * count).div_ceil(8);
        assert_eq!(written.parts, (0, 0, 0, bytes as u32));
        read_and_back(&mut rng, &ALL, &written.bytes[..bytes], &mut tally);
    }
    for (kind, length) in LENGTHS.into_iter().enumerate() {
        let row = match kind as u32 {
            0 => [0, 4095, 4095, 0],
            1 => [1, u32::MAX, 4095, 4095],
            7 => [7, u32::MAX, 0, 0],
            8 => [8, 0, 63, 4095],
            9 => [9, 0, 63, 0],
            11 => [11, 0, u32::MAX, 4095],
            17 | 18 => [kind as u32, 0, 0, 4095],
            kind => [kind, 0, 0, 0],
        };
        for (before, between, behind) in (1..10).flat_map(|m| (0..9).flat_map(move |n| [(m, n, 0), (m, n, 1)])) {
            let rows = [&vec![open; before][..], &[row], &vec![open; between], &[row], &vec![open; behind]].concat();
            let written = write(&ALL, &Plan::of(&rows), 489);
            let bytes = (8 + 2 * length + 5 * (before + between + behind)).div_ceil(8);
            assert_eq!(written.parts, (0, 0, 0, bytes as u32), "{rows:?}");
            read_and_back(&mut rng, &ALL, &written.bytes[..bytes], &mut tally);
            let cut = read(&ALL, &written.bytes[..bytes - 1], 256);
            assert_eq!(cut.parts.0, 12, "{rows:?}");
        }
    }
}
