//! In everything but values, a number is a functor like any other: over the same deck in format 1, with a functor in each number's place, each call gives the same.

use second::drill::drill;
use second::levels::levels;
use second::random::carries::carry_case;
use second::random::levels::level_case;
use second::random::{case, program_case};
use second::vectors::{print, result};
use second::world::World;
use second::{open, program, Case};

const CASES: u64 = 3_000;

/// An openable deck of format 2 in format 1.
fn in_format_1(deck: &[u16]) -> Option<Vec<u16>> {
    let mut world = World::take_apart(deck, &[]).filter(|world| world.format() == 2 && open(deck) == 0)?;
    world.values = None;
    world.symbols.iter_mut().filter(|word| **word == 512).for_each(|word| *word = 0);
    Some(world.deck())
}

#[test]
fn fresh_runs() {
    let mut number = 0;
    for case in (0..CASES).map(case) {
        if let Some(deck) = in_format_1(&case.deck) {
            let other = Case { deck, ..case.clone() };
            assert!(result(&other) == result(&case), "{}", print(&case, &result(&other)));
            number += 1;
        }
    }
    assert!(number > 500, "{number}");
}

#[test]
fn continued_runs() {
    let mut number = 0;
    for case in (0..CASES).map(carry_case) {
        if let Some(deck) = in_format_1(&case.deck) {
            let mut other = case.clone();
            other.deck = deck;
            let told = |case: &second::carry::CarryCase| {
                let left = |outcome: second::Outcome| (outcome.answer_list(), outcome.store_start(), outcome.cost);
                case.run().map(left).map_err(|refused| refused.number())
            };
            assert!(told(&other) == told(&case), "{}", case.name);
            number += 1;
        }
    }
    assert!(number > 500, "{number}");
}

#[test]
fn levels_drill_terms_and_listings() {
    for seed in 0..CASES / 2 {
        let deck = level_case(seed).deck;
        if let Some(other) = in_format_1(&deck) {
            assert!(levels(&other) == levels(&deck), "levels, seed {seed}");
        }
        let case = second::drill::case::case(seed);
        if let Some(other) = in_format_1(&case.deck) {
            assert!(drill(&other, case.n, &case.after, case.room) == case.drill(), "drill terms, seed {seed}");
        }
        let (Some(bytes), query) = program_case(seed) else {
            continue;
        };
        let pairs = bytes.chunks_exact(2);
        let words: Vec<u16> = pairs.map(|pair| u16::from_le_bytes([pair[0], pair[1]])).collect();
        if let Some(other) = in_format_1(&words).filter(|_| bytes.len() % 2 == 0) {
            let other: Vec<u8> = other.iter().flat_map(|word| word.to_le_bytes()).collect();
            assert!(program(Some(&other), &query) == program(Some(&bytes), &query), "listing, seed {seed}");
        }
    }
}

/// Deck L with the numbers 7 and -35 for a and b: they are printed as symbols, not as values.
#[test]
fn numbers_are_printed_as_symbols() {
    let deck = [
        2, 5, 8, 4, 18, 12, 22, 34, 512, 7, 512, 65_501, 257, 0, 257, 0, 257, 0, 0, 2, 4, 6, 2, 0, 2, 1, 3, 0, 4,
        32_768, 2, 32_768, 16_387, 32_768u16,
    ];
    let bytes: Vec<u8> = deck.iter().flat_map(|word| word.to_le_bytes()).collect();
    assert_eq!(program(Some(&bytes), &[4, 0, 0, 128]), b"all\nfinished 8 1 0 0 13\ns1\n");
    assert_eq!(program(Some(&bytes), &[2, 0, 0, 0]), b"all\nfinished 2 1 0 0 4\ntrue\n");
}
