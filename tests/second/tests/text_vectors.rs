//! The files of texts read and of decks written, byte for byte.

use second::text::vectors::{parse_reads, parse_writes, read_result};

fn file(name: &str) -> String {
    let folder = concat!(env!("CARGO_MANIFEST_DIR"), "/../vectors");
    std::fs::read_to_string(format!("{folder}/{name}")).expect("the file of cases")
}

#[test]
fn all_texts_are_read_so() {
    let cases = parse_reads(&file("read_text.txt")).expect("the file reads");
    assert_eq!(cases.len(), 263);
    for (case, expected) in &cases {
        assert_eq!(&read_result(case), expected, "{}", case.name);
    }
}

#[test]
fn all_decks_are_written_so() {
    let cases = parse_writes(&file("write_text.txt")).expect("the file reads");
    assert_eq!(cases.len(), 264);
    for (case, expected) in &cases {
        assert_eq!(&case.write(), expected, "{}", case.name);
    }
}
