//! The cases of the programs over texts are what they are meant for, and the files have them.

use program::texts::{all, cases, stdout, Asked, CASES, STDOUT};
use std::collections::BTreeSet;

#[test]
fn each_output_starts_as_stated() {
    for case in all() {
        let printed = case.printed();
        assert!(printed.starts_with(case.start), "{}: {:?}", case.name, &printed[..printed.len().min(100)]);
    }
}

#[test]
fn every_refusal() {
    let numbers = |reading: bool| -> BTreeSet<String> {
        let asked = all().into_iter().filter(|case| matches!(case.asked, Asked::Read(_)) == reading);
        let lines = asked.filter_map(|case| String::from_utf8(case.printed()).ok());
        lines.filter_map(|line| Some(line.strip_prefix("refused ")?.split_whitespace().next()?.to_string())).collect()
    };
    assert_eq!(numbers(true), ["1", "2", "4", "5", "10", "11"].map(String::from).into());
    assert_eq!(numbers(false), ["1", "2", "3", "4", "5"].map(String::from).into());
}

#[test]
fn names_differ() {
    let names: BTreeSet<_> = all().iter().map(|case| case.name).collect();
    assert_eq!(names.len(), all().len());
}

/// Written by `cargo run --release --offline --bin text_cases`.
#[test]
fn files_are_as_written() {
    let read = |path| std::fs::read(path).expect("the file");
    assert!(read(CASES) == cases(&all()), "{CASES}");
    assert!(read(STDOUT) == stdout(&all()), "{STDOUT}");
}
