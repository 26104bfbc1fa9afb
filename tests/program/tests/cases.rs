//! The cases are what they are meant for, and the files have them.

use program::cases::{all, Case};
use program::file;
use program::inputs::{long_listing, Inputs};
use std::collections::BTreeSet;

fn inputs() -> Vec<Inputs> {
    all().into_iter().map(|case| case.inputs).collect()
}

fn listing(case: &Case) -> String {
    String::from_utf8(case.inputs.listing()).expect("plain text")
}

#[test]
fn each_listing_starts_as_stated() {
    for case in all() {
        let text = listing(&case);
        let shown: String = text.chars().take(100).collect();
        assert!(text.starts_with(case.start), "{}: {shown}", case.inputs.name);
    }
}

#[test]
fn every_verdict_stop_and_refusal() {
    let first_lines: BTreeSet<String> = all().iter().map(|case| first(&listing(case), '\n')).collect();
    let refusals = (1..=7).chain([13, 14]).map(|number| format!("refused {number}"));
    let verdicts = ["all", "no", "open"].map(String::from);
    assert_eq!(first_lines, refusals.chain(verdicts).collect());
    let stops: BTreeSet<String> = all().iter().filter_map(|case| stop(&listing(case))).collect();
    assert_eq!(stops, ["finished", "budget", "answers", "store"].map(String::from).into());
}

fn first(text: &str, end: char) -> String {
    text.split(end).next().unwrap_or_default().to_string()
}

fn stop(listing: &str) -> Option<String> {
    listing.lines().nth(1).map(|line| first(line, ' '))
}

/// But for mark 1, which no query comes to.
#[test]
fn every_mark() {
    let mut marks = BTreeSet::new();
    for case in all() {
        let Some(outcome) = outcome(&case) else {
            continue;
        };
        let watch = outcome.watch;
        marks.extend((1..5).filter(|mark| watch.parked[*mark] + watch.parked_deeper[*mark] > 0));
    }
    assert_eq!(marks, (2..5).collect());
}

/// The run of a case that is accepted.
fn outcome(case: &Case) -> Option<second::Outcome> {
    let words = |bytes: &[u8]| -> Vec<u16> {
        let pairs = bytes.chunks(2);
        pairs.map(|pair| pair[0] as u16 + 256 * pair[1] as u16).collect()
    };
    if listing(case).starts_with("refused") {
        return None;
    }
    let deck = words(case.inputs.deck.as_ref()?);
    let bars = second::rights::no_bars(&deck);
    second::run(&deck, &words(&case.inputs.query), &bars, 100_000, 8_192, 16_384, 8_192).ok()
}

#[test]
fn names_differ() {
    let names: BTreeSet<String> = inputs().into_iter().map(|inputs| inputs.name).collect();
    assert_eq!(names.len(), inputs().len());
}

/// Written by `cargo run --release --offline --bin cases`.
#[test]
fn files_are_as_written() {
    let read = |path| std::fs::read(path).expect("the file");
    assert!(read(file::CASES) == file::cases(&inputs()), "{}", file::CASES);
    assert!(read(file::STDOUT) == file::stdout(&inputs()), "{}", file::STDOUT);
}

/// Eight answers of 1,003 words, and no room for a ninth.
#[test]
fn the_long_listing_is_long() {
    let text = String::from_utf8(long_listing().listing()).expect("plain text");
    assert!(text.starts_with("open\nanswers 108 8 1 0 495\n"), "{}", &text[..40]);
    assert!(text.len() > 56_000, "{}", text.len());
}
