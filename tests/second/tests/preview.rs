//! A clause tried before it is filed: what request U11 says, the stated results, and that the comparison finds slips.

use second::preview::comparison::{together, Comparison};
use second::preview::judge::{Engine, Second};
use second::preview::slips::{Touches, SLIPS};
use second::preview::{lengthened, vectors, PreviewCase};
use second::random::previews::preview_case;
use second::{run, Case};

const CASES: u64 = 3_000;

/// What the compare program does, in short.
fn compared(engine: &dyn Engine) -> Result<Comparison<'_>, String> {
    let mut comparison = Comparison::new(engine);
    (0..CASES).try_for_each(|seed| comparison.random(seed))?;
    comparison.damaged()?;
    comparison.limits()?;
    Ok(comparison)
}

const DECK_L: [u16; 29] = [
    1, 5, 8, 4, 13, 12, 17, 29, 0, 0, 257, 257, 257, 0, 2, 4, 6, 2, 0, 2, 1, 3, 0, 4, 32_768, 2, 32_768, 16_387, 32_768,
];

fn trying(clause: &[u16], query: &[u16]) -> PreviewCase {
    let run = Case {
        name: String::new(),
        deck: DECK_L.to_vec(),
        query: query.to_vec(),
        bars: vec![0; 5],
        budget: 100,
        answer_words: 64,
        store_words: 1_024,
        scratch_words: 8_192,
    };
    PreviewCase { run, clause: clause.to_vec() }
}

fn number(clause: &[u16], query: &[u16]) -> u32 {
    trying(clause, query).preview().map_or_else(|refused| refused.number(), |_| 0)
}

#[test]
fn would_drawing_b_close_the_lead() {
    let copy = lengthened(&DECK_L, &[3, 1]).expect("it fits");
    assert_eq!(copy[..8], [1, 5, 8, 5, 13, 14, 18, 32]);
    assert_eq!(copy[13..18], [0, 2, 4, 6, 12]);
    assert_eq!(copy[30..], [3, 1]);
    let outcome = trying(&[3, 1], &[4, 32_768]).preview().expect("it runs");
    assert!(outcome.answers.is_empty());
    assert_eq!((outcome.steps, outcome.cost), (8, 15));
    let without = run(&DECK_L, &[4, 32_768], &[0; 5], 100, 64, 1_024, 8_192).expect("it runs");
    assert_eq!(without.answers, [[3, 1, 1]]);
}

#[test]
fn refused_in_order() {
    assert_eq!(number(&[], &[0]), 3);
    assert_eq!(number(&[0; 257], &[0]), 4);
    assert_eq!(number(&[0; 256], &[0]), 5);
    assert_eq!(number(&[16_387, 1], &[0]), 5);
    assert_eq!(number(&[3, 1, 1], &[0]), 5);
    assert_eq!(number(&[3, 32_769], &[0]), 5);
    assert_eq!(number(&[0; 16_354], &[0]), 4);
    assert_eq!(number(&[0; 16_355], &[0]), 1);
    assert_eq!(number(&[0; 70_000], &[0]), 1);
    assert_eq!(number(&[3, 32_768], &[0]), 7);
    assert_eq!(number(&[3, 32_768], &[16_387, 32_768]), 13);
    assert_eq!(number(&[3, 1], &[16_387, 32_768]), 14);
    assert_eq!(number(&[3, 1], &[4, 32_768]), 0);
    let mut bad = trying(&[0; 16_384], &[]);
    *bad.run.deck.last_mut().expect("words") = 4;
    assert_eq!(bad.preview().map_err(|refused| refused.number()).err(), Some(5));
}

#[test]
fn the_stated_results() {
    let text = include_str!("../../vectors/preview.txt");
    let cases = vectors::parse(text).expect("the file reads");
    assert_eq!(cases.len(), 264);
    for (case, expected) in &cases {
        assert_eq!(&vectors::result(case), expected, "{}", case.run.name);
    }
}

#[test]
fn same_seed_same_case() {
    for seed in [0, 1, 77, u64::MAX] {
        assert_eq!(preview_case(seed), preview_case(seed));
    }
}

#[test]
fn no_slip_no_failure_and_everything_is_reached() {
    let comparison = compared(&Second).unwrap_or_else(|what| panic!("{what}"));
    let reached = together(vec![comparison.reached]).expect("everything is reached");
    println!("{reached:#?}");
}

#[test]
fn slips_are_found() {
    for slip in &SLIPS {
        match compared(slip) {
            Ok(_) => panic!("not found: {}", slip.name),
            Err(what) => println!("{}: {}\n", slip.name, what.lines().last().unwrap_or_default()),
        }
    }
    let touching = [
        Touches(|lent, _| lent.store.iter_mut().take(1).for_each(|word| *word ^= 1)),
        Touches(|lent, _| lent.scratch.iter_mut().take(1).for_each(|word| *word ^= 1)),
        Touches(|lent, _| lent.answers.iter_mut().take(1).for_each(|word| *word ^= 1)),
        Touches(|_, report| report.cost = 0),
    ];
    for engine in &touching {
        assert!(compared(engine).is_err(), "not found: a refusal that touches something");
    }
}
