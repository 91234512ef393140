//! The README's commands and its worked example: what it shows is what the library does.

use baarqidho::{list, Plan, Refusal};
use tests::root;

use crate::header::refusals;

/// The README's blocks between fences, in order, each with its language.
fn blocks() -> Vec<(String, String)> {
    let text = std::fs::read_to_string(root().join("README.md")).expect("the README is there");
    let mut parts = text.split("```");
    let mut blocks = Vec::new();
    while let (Some(_), Some(block)) = (parts.next(), parts.next()) {
        let (language, body) = block.split_once('\n').expect("a fence ends its line");
        blocks.push((language.to_string(), body.to_string()));
    }
    blocks
}

/// The bytes that a command hands to the listing program, if it does.
fn listed(command: &str) -> Option<Vec<u8>> {
    let (_, rest) = command.split_once("printf '")?;
    let (bytes, _) = rest.split_once("' | target/bin/list")?;
    let byte = |byte| u8::from_str_radix(byte, 16).expect("a byte in hexadecimal");
    Some(bytes.split("\\x").skip(1).map(byte).collect())
}

/// The numbers of a text.
fn numbers(text: &str) -> Vec<u32> {
    text.split_whitespace().map(|word| word.parse().expect("a number")).collect()
}

/// The worked example: its words, bits, packed bytes and log, which stand in this order.
fn example() -> (Plan, String, Vec<u8>, Vec<u32>) {
    let blocks = blocks();
    let texts: Vec<&str> = blocks.iter().filter(|block| block.0 == "text").map(|block| block.1.as_str()).collect();
    let [_, words, bits, _, log, ..] = texts[..] else { panic!("the example's blocks are there") };
    let commands: Vec<Vec<u8>> = blocks.iter().filter_map(|block| listed(&block.1)).collect();
    (Plan::new(numbers(words)), bits.split_whitespace().collect(), commands[1].clone(), numbers(log))
}

/// Each listing is followed by what it prints.
#[test]
fn listings() {
    let blocks = blocks();
    let mut commands = 0;
    for (command, output) in blocks.iter().zip(&blocks[1..]) {
        if let Some(packed) = listed(&command.1) {
            assert_eq!((command.0.as_str(), output.0.as_str()), ("bash", "text"));
            assert_eq!(list(&packed), output.1);
            commands += 1;
        }
    }
    assert_eq!(commands, 4);
}

/// The table of refusals has each number once, in order.
#[test]
fn table_of_refusals() {
    let readme = include_str!("../../../../README.md");
    let (_, after) = readme.split_once("\n## Refusals\n").expect("the table is there");
    let (table, _) = after.split_once("\n## ").expect("another section follows");
    let numbers: Vec<u32> = table.lines().filter_map(|line| line.split('|').nth(1)?.trim().parse().ok()).collect();
    assert_eq!(numbers, refusals());
}

/// Rows, plain words, bits and packed bytes are one plan.
#[test]
fn forms_of_the_example() {
    let (plan, bits, packed, _) = example();
    assert_eq!(plan.words(), [0, 2, 0, 0, 9, 0, 2, 0, 7, 20, 1, 1, 4, 2, 1, 0, 13, 1, 3, 0]);
    assert_eq!(plan.to_packed().expect("a table"), packed);
    assert_eq!(bits, packed.iter().map(|byte| format!("{byte:08b}")).collect::<String>());
}

/// The table of the trace is that of a run.
#[test]
fn trace_of_the_example() {
    let (plan, _, _, log) = example();
    let trace = plan.run(&log, 9).expect("accepted");
    let readme = include_str!("../../../../README.md");
    for flow in 0..5 {
        let cells = (0..9).map(|tick| trace.value(tick, flow).map_or(".".to_string(), |value| value.to_string()));
        let line = format!("\n| flow {flow} | {} |\n", cells.collect::<Vec<_>>().join(" | "));
        assert!(readme.contains(&line), "{line}");
    }
}

/// The mistake that the example shows clashes where it says.
#[test]
fn mistake_of_the_example() {
    let (plan, _, _, log) = example();
    let mut words = plan.words().to_vec();
    words[17] = 0;
    let mistaken = Plan::new(words);
    let commands: Vec<Vec<u8>> = blocks().iter().filter_map(|block| listed(&block.1)).collect();
    assert_eq!(mistaken.to_packed().expect("a table"), commands[2]);
    assert_eq!(mistaken.clocks(), Err(Refusal::ClocksDiffer { flow: 4 }));
    let clash = mistaken.run(&log, 9).expect_err("a clash");
    assert_eq!(clash.refusal(), Refusal::Clash { tick: 2, flow: 4 });
}
