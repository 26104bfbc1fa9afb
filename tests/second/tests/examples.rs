//! Each deck of the examples has its rules as text beside it.

use second::text::program::{read_program, write_program};
use std::fs;

const FOLDER: &str = concat!(env!("CARGO_MANIFEST_DIR"), "/../../examples");

#[test]
fn rules_read_to_the_decks_words() {
    let mut decks = 0;
    for entry in fs::read_dir(FOLDER).expect("the examples") {
        let path = entry.expect("a file").path();
        if path.extension().is_some_and(|end| end == "dck") {
            let rules = fs::read(path.with_extension("rules")).expect("rules beside the deck");
            assert!(
                read_program(&rules) == fs::read(&path).expect("a deck"),
                "{path:?}"
            );
            decks += 1;
        }
    }
    assert_eq!(decks, 4);
}

#[test]
fn a_deck_written_is_read_again() {
    let deck = fs::read(format!("{FOLDER}/clubs.dck")).expect("a deck");
    let text = write_program(Some(&deck));
    assert_eq!(read_program(&text), deck);
}

#[test]
fn what_the_programs_say() {
    let said = |bytes: Vec<u8>| String::from_utf8(bytes).expect("a line");
    assert_eq!(said(read_program(b"")), "refused 1\n");
    assert_eq!(said(read_program(b"pr p/0.p")), "refused 10 8\n");
    assert_eq!(said(read_program(&[b' '; 262_144])), "refused 1\n");
    assert_eq!(said(read_program(&[b' '; 262_145])), "refused 11\n");
    assert_eq!(said(write_program(None)), "refused 1\n");
    assert_eq!(said(write_program(Some(&[1, 0, 1]))), "refused 1\n");
    assert_eq!(said(write_program(Some(&[0; 32_770]))), "refused 1\n");
}
