//! The comparisons find slips in the reading of decks of format 2, in each of the calls.

use second::deck::slips::{Slip, SLIPS};
use second::judge::judge;
use second::random::case;
use second::{carry, drill, levels, mean, text};

const CASES: u64 = 8_000;
/// They can show only where values are told: in texts and means.
const VALUES_ONLY: [&str; 1] = ["a number's value is the next number's"];

/// As many as find all slips but those, of which fewer are tried.
fn seeds(slip: &Slip) -> std::ops::Range<u64> {
    0..if VALUES_ONLY.contains(&slip.name) { CASES / 20 } else { CASES }
}

/// The slips that this comparison passes by.
fn unfound(compared: impl Fn(&Slip) -> Result<(), String>) -> Vec<&'static str> {
    let left = SLIPS.iter().filter(|slip| match compared(slip) {
        Ok(()) => true,
        Err(what) => {
            println!("{}: {}\n", slip.name, what.lines().last().unwrap_or_default());
            false
        }
    });
    left.map(|slip| slip.name).collect()
}

#[test]
fn in_fresh_runs() {
    let left = unfound(|slip| seeds(slip).map(case).try_for_each(|case| judge(slip, &case)));
    assert_eq!(left, VALUES_ONLY);
}

#[test]
fn in_continued_runs() {
    let left = unfound(|slip| {
        let mut comparison = carry::comparison::Comparison::new(slip);
        seeds(slip).try_for_each(|seed| comparison.random(seed))
    });
    assert_eq!(left, VALUES_ONLY);
}

#[test]
fn in_texts() {
    let left = unfound(|slip| {
        let mut comparison = text::comparison::Comparison::new(slip);
        seeds(slip).try_for_each(|seed| comparison.random(seed))
    });
    assert_eq!(left, [""; 0]);
}

#[test]
fn in_levels() {
    let left = unfound(|slip| {
        let mut comparison = levels::comparison::Comparison::new(slip);
        seeds(slip).try_for_each(|seed| comparison.random(seed))?;
        comparison.limits()
    });
    assert_eq!(left, VALUES_ONLY);
}

#[test]
fn in_drill_terms() {
    let left = unfound(|slip| {
        let mut comparison = drill::comparison::Comparison::new(slip);
        seeds(slip).try_for_each(|seed| comparison.random(seed))
    });
    assert_eq!(left, VALUES_ONLY);
}

#[test]
fn in_means() {
    let left = unfound(|slip| {
        let mut comparison = mean::comparison::Comparison::new(slip);
        comparison.damaged()?;
        seeds(slip).try_for_each(|seed| comparison.random(seed))
    });
    assert_eq!(left, [""; 0]);
}
