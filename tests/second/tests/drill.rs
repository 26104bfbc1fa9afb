//! Drill terms: the two ways of finding them agree, the stated results hold, and the comparison finds slips.

use second::drill::case::{bare, case};
use second::drill::comparison::{missing, Comparison, SMALL};
use second::drill::judge::{Engine, Second};
use second::drill::slips::{Touches, SLIPS};
use second::drill::{drill, program, trying, vectors};

const CASES: u64 = 3_000;

fn compared(engine: &dyn Engine) -> Result<Comparison<'_>, String> {
    let mut comparison = Comparison::new(engine);
    (0..CASES).try_for_each(|seed| comparison.random(seed))?;
    comparison.whole()?;
    comparison.large()?;
    Ok(comparison)
}

#[test]
fn trying_and_counting_agree() {
    for (symbols, most) in SMALL {
        let deck = bare(symbols);
        let opened = second::deck::open(&deck).map_err(|number| number.to_string()).expect("a deck");
        let terms = trying::all(&opened.symbols, most as usize);
        assert_eq!(drill(&deck, most, &[], 100_000), Ok(terms), "{symbols:?}");
    }
}

#[test]
fn the_stated_results() {
    let text = include_str!("../../vectors/drill.txt");
    let cases = vectors::parse(text).expect("the file reads");
    assert_eq!(cases.len(), 258);
    for (case, expected) in &cases {
        assert_eq!(&vectors::result(case), expected, "{}", case.name);
    }
}

#[test]
fn ten_terms() {
    // Constants 0 and 3, a unary functor 1, a predicate 2, a binary functor 4.
    let deck = bare(&[0, 1, 257, 0, 2]);
    let terms = drill(&deck, 3, &[], 100).expect("a list");
    let expected: [&[u16]; 10] = [
        &[0],
        &[3],
        &[1, 0],
        &[1, 3],
        &[1, 1, 0],
        &[1, 1, 3],
        &[4, 0, 0],
        &[4, 0, 3],
        &[4, 3, 0],
        &[4, 3, 3],
    ];
    assert_eq!(terms, expected);
    let bytes: Vec<u8> = deck.iter().flat_map(|word| word.to_le_bytes()).collect();
    assert_eq!(program::program(Some(&bytes), &[3, 0, 4, 0, 0, 0, 3, 0]), b"s4(s3,s0)\ns4(s3,s3)\n");
    assert_eq!(program::program(Some(&bytes), &[]), b"refused 19\n");
    assert_eq!(program::program(None, &[3, 0]), b"refused 1\n");
}

#[test]
fn same_seed_same_case() {
    for seed in [0, 1, 77, u64::MAX] {
        assert_eq!(case(seed), case(seed));
    }
}

#[test]
fn no_slip_no_failure_and_everything_is_reached() {
    let comparison = compared(&Second).unwrap_or_else(|what| panic!("{what}"));
    assert_eq!(missing(&comparison.reached), [""; 0]);
}

#[test]
fn slips_are_found() {
    for slip in &SLIPS {
        assert!(compared(slip).is_err(), "not found: {}", slip.name);
    }
    assert!(compared(&Touches).is_err(), "not found: the list's end is touched");
}
