//! The C header: its constants and numbers, its fourteen calls, and its example.

use std::io::Write;
use std::path::Path;
use std::process::Command;

use baarqidho::{Answer, Refusal};
use tests::implementation::LIBRARY;
use tests::rng::Rng;
use tests::rounds;

use crate::bridge::{compiled, declarations, header, C, C99};
use crate::summary::mixture;

/// A constant of the header.
fn constant(name: &str) -> usize {
    let header = header();
    let mut lines =
        header.lines().filter_map(|line| line.strip_prefix("#define ")?.strip_prefix(name)?.strip_prefix(' '));
    lines.next().expect(name).trim().parse().expect(name)
}

#[test]
fn constants_agree() {
    assert_eq!(constant("BAARQIDHO_LISTING_MAX"), baarqidho::LISTING_MAX);
    assert_eq!(constant("BAARQIDHO_PACKED_MAX"), baarqidho::PACKED_MAX);
    assert_eq!(constant("BAARQIDHO_PAGE_LINE"), baarqidho::PAGE_LINE);
    assert_eq!(constant("BAARQIDHO_PAGE_MAX"), baarqidho::PAGE_MAX);
    assert_eq!(constant("BAARQIDHO_MAX_FLOWS"), baarqidho::MAX_FLOWS);
    assert_eq!(constant("BAARQIDHO_MAX_DERIVED"), baarqidho::MAX_DERIVED as usize);
    assert_eq!(constant("BAARQIDHO_MAX_TICKS"), baarqidho::MAX_TICKS as usize);
    assert_eq!(constant("BAARQIDHO_MAX_LONG_TICKS"), baarqidho::MAX_LONG_TICKS as usize);
    assert_eq!(constant("BAARQIDHO_WINDOW_TICKS"), baarqidho::WINDOW_TICKS);
    assert_eq!(constant("BAARQIDHO_ROW_WORDS"), baarqidho::ROW_WORDS);
    assert_eq!(constant("BAARQIDHO_CLOCK_WORDS"), baarqidho::CLOCK_WORDS);
    assert_eq!(constant("BAARQIDHO_TALLY_WORDS"), baarqidho::TALLY_WORDS);
}

/// The numbers that have a refusal of their own in Rust.
pub fn refusals() -> Vec<u32> {
    let is_other = |number| matches!(Answer { number, ..Answer::default() }.result(), Err(Refusal::Other { .. }));
    (1..100).filter(|&number| !is_other(number)).collect()
}

/// The header names success and the same refusals.
#[test]
fn numbers_agree() {
    let header = header();
    let (_, after) = header.split_once("enum baarqidho_number {").expect("the numbers are there");
    let (numbers, _) = after.split_once('}').expect("the numbers end");
    let number = |rest: &str| rest.split([',', ' ']).next().expect("a number").parse().expect("a number");
    let numbers: Vec<u32> = numbers.split(" = ").skip(1).map(number).collect();
    assert_eq!(numbers, [vec![0], refusals()].concat());
}

/// A length follows its slice, and flow, tick and count come last: also where no answer can tell two of them apart, as
/// the lengths of marks and values, or flow and tick of a listing.
#[test]
fn names_of_parameters() {
    let calls = declarations();
    let names: Vec<&str> = calls.iter().map(|call| &call.0[..]).collect();
    let plain = ["read", "write", "check", "run", "long_run", "listing"];
    let planned = ["load_page", "least_part", "least_flows", "fill_rates"];
    let expected = [&plain[..], &planned, &["stored_words", "store", "restore", "felt_inputs"]].concat();
    assert_eq!(names, expected);
    for (call, names) in calls {
        assert!(names.ends_with(&["flow", "tick", "count"].map(String::from)), "{call}: {names:?}");
        for (slice, length) in names.iter().zip(&names[1..]).filter(|pair| pair.1.ends_with("_len")) {
            assert_eq!(*length, format!("{slice}_len"), "{call}");
        }
    }
}

/// What a program prints, if it ends well.
fn printed(program: &Path) -> String {
    let said = Command::new(program).output().expect("the program runs");
    assert!(said.status.success(), "{}: {}", said.status, String::from_utf8_lossy(&said.stderr));
    String::from_utf8(said.stdout).expect("text")
}

/// The example, compiled and linked as its comment says, prints exactly the paper's lines.
#[test]
fn the_example_lists_the_paper_plan() {
    assert_eq!(printed(&compiled(&C99, "include/example.c")), "ok 2\n0 10 0 -\n1 20 0 -\n");
}

/// Every number by its name, and every limit.
fn all_programs_end_well(compiler: &[&str]) {
    for program in ["numbers", "views", "slow", "archive", "felt"] {
        printed(&compiled(compiler, &format!("rust/tests/c/{program}.c")));
    }
}

#[test]
fn numbers_from_c() {
    all_programs_end_well(&C99);
}

/// The same as C++, where there is a compiler for it.
#[test]
fn numbers_from_cpp() {
    if Command::new("c++").arg("--version").output().is_err() {
        let text = b"\nno command c++: the header was not tried from C++\n";
        std::io::stderr().write_all(text).expect("standard error takes the line");
        return;
    }
    all_programs_end_well(&["c++", "-x", "c++", "-std=c++11"]);
}

/// All calls on random plans, faults and damaged bytes: C has every part and every cell that Rust has.
#[test]
fn calls_from_c() {
    mixture(Rng::new(81), &[&LIBRARY, &C], rounds(10_000));
}
