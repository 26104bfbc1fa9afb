//! Levels: the stated results, and the comparison, which finds slips and reaches everything.

use second::levels::comparison::{together, Comparison};
use second::levels::judge::{Engine, Second};
use second::levels::slips::SLIPS;
use second::levels::vectors::parse;
use second::levels::{levels, Levels};
use second::random::levels::level_case;
use second::world::World;

const CASES: u64 = 4_000;

fn file() -> String {
    let folder = concat!(env!("CARGO_MANIFEST_DIR"), "/../vectors");
    std::fs::read_to_string(format!("{folder}/levels.txt")).expect("the file of cases")
}

/// What the compare program does, in short.
fn compared(engine: &dyn Engine) -> Result<Comparison<'_>, String> {
    let mut comparison = Comparison::new(engine);
    (0..CASES).try_for_each(|seed| comparison.random(seed))?;
    comparison.limits()?;
    Ok(comparison)
}

#[test]
fn all_decks_have_these_levels() {
    let cases = parse(&file()).expect("the file reads");
    assert_eq!(cases.len(), 298);
    for (case, expected) in &cases {
        assert_eq!(&case.levels(), expected, "{}", case.name);
    }
}

/// The levels of rules over predicates without arguments, by hand.
fn of(symbols: usize, clauses: &[&[u16]]) -> Levels {
    let clauses = clauses.iter().map(|clause| clause.to_vec()).collect();
    let world = World { symbols: vec![256; symbols], clauses, ..World::default() };
    levels(&world.deck()).expect("a deck")
}

#[test]
fn by_hand() {
    const NOT: u16 = 16_384;
    assert_eq!(of(3, &[&[0, NOT + 1], &[1, NOT + 2]]).numbers[..4], [2, 1, 0, 0]);
    assert_eq!(of(4, &[&[0, 1], &[1, 0], &[2, 0, NOT + 3]]).numbers[..4], [0, 0, 1, 0]);
    assert_eq!(of(1, &[&[0, NOT]]).circular, Some(0));
    assert_eq!(of(2, &[&[0, 1], &[1, 0], &[1, NOT + 1]]).circular, Some(0), "0, 1, not 1, 0");
    assert_eq!(of(2, &[&[0, 1], &[1, NOT + 1]]).circular, Some(1), "0 only leads to the circle");
    assert_eq!(of(3, &[&[0, 1], &[1, 2, 0], &[2, NOT + 1]]).circular, Some(0));
    assert!(of(3, &[&[0, 1], &[1, 2, 0], &[2, NOT + 1]]).numbers.iter().all(|number| *number == 0));
}

#[test]
fn half_of_the_random_decks_have_a_circle() {
    let named = (0..CASES).filter(|seed| level_case(*seed).levels().is_ok_and(|found| found.circular.is_some()));
    let share = named.count() as u64 * 100 / CASES;
    assert!((40..=60).contains(&share), "{share} in 100");
}

#[test]
fn same_seed_same_case() {
    for seed in [0, 1, 77, 4_000, u64::MAX] {
        assert_eq!(level_case(seed), level_case(seed));
    }
}

#[test]
fn no_slip_no_failure_and_everything_is_reached() {
    let comparison = compared(&Second).unwrap_or_else(|what| panic!("{what}"));
    let reached = together(vec![comparison.reached]).expect("everything is reached");
    println!("{reached:#?}");
}

#[test]
fn slips_are_found() {
    for slip in &SLIPS {
        match compared(slip) {
            Ok(_) => panic!("not found: {}", slip.name),
            Err(what) => println!("{}:\n{what}\n", slip.name),
        }
    }
}
