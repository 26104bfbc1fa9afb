//! A member's list and where it reaches (request U9), on small decks; and pairs of decks that a member can't tell apart.

use second::carry::comparison::Comparison;
use second::carry::judge::Engine as Continues;
use second::carry::Given;
use second::judge::{judge, Engine, Lent, Report, Second};
use second::random::{case, Dice};
use second::rights::pairs::{self, other_deck, run, Counts, Differ};
use second::rights::slips::{Slip, SLIPS};
use second::world::World;
use second::{run as fresh, Case};

/// a/0; p, q, r, s, t without arguments. p if q. q if not r. s. t if t.
const A: u16 = 0;
const P: u16 = 1;
const Q: u16 = 2;
const R: u16 = 3;
const S: u16 = 4;
const T: u16 = 5;
const NOT: u16 = 16_384;

fn world() -> World {
    World {
        symbols: vec![0, 256, 256, 256, 256, 256],
        clauses: vec![vec![P, Q], vec![Q, NOT + R], vec![S], vec![T, T]],
        ..World::default()
    }
}

/// 0, or the refusal, where these predicates are barred.
fn barring(barred: &[u16], query: &[u16]) -> u32 {
    let mut bars = vec![0; 6];
    barred.iter().for_each(|at| bars[*at as usize] = 1);
    with(&bars, query)
}

fn with(bars: &[u16], query: &[u16]) -> u32 {
    let deck = world().deck();
    fresh(&deck, query, bars, 100, 8_192, 1_024, 8_192)
        .err()
        .unwrap_or(0)
}

#[test]
fn reach_goes_through_bodies_negated_or_not() {
    for barred in [P, Q, R] {
        assert_eq!(barring(&[barred], &[P]), 16);
        assert_eq!(barring(&[barred], &[S, NOT + P]), 16);
    }
    assert_eq!(barring(&[S], &[P]), 0);
    assert_eq!(barring(&[S, T, P], &[Q]), 0);
    assert_eq!(barring(&[R, S, T], &[R]), 16);
    assert_eq!(barring(&[T], &[T]), 16);
    assert_eq!(barring(&[P, Q, R, S], &[T]), 0);
    assert_eq!(barring(&[P, Q, R, S, T], &[]), 0);
}

#[test]
fn a_list_has_a_word_a_symbol() {
    assert_eq!(with(&[0; 6], &[P]), 0);
    for length in [0, 1, 5, 7, 12] {
        assert_eq!(with(&vec![0; length], &[]), 15);
    }
    for word in [2, 3, 255, 256, 257, 65_535] {
        assert_eq!(with(&[0, 0, 0, 0, 0, word], &[]), 15);
        assert_eq!(with(&[word, 0, 0, 0, 0, 0], &[]), 15);
    }
    assert_eq!(barring(&[A], &[]), 15);
    // 15 before 16, and after 7, 8, 9, 13 and 14.
    assert_eq!(barring(&[A, P], &[P]), 15);
    assert_eq!(barring(&[A], &[A]), 7);
    let mut loose = world();
    loose.symbols.push(257);
    loose.clauses.push(vec![6, 32_768]);
    let run = |query: &[u16], bars: &[u16], store, scratch| {
        let deck = loose.deck();
        fresh(&deck, query, bars, 100, 8_192, store, scratch).err()
    };
    let barred = [0, 1, 0, 0, 0, 0, 1];
    assert_eq!(run(&[P], &barred, 1_023, 8_192), Some(8));
    assert_eq!(run(&[P], &[], 1_024, 8_191), Some(9));
    assert_eq!(run(&[P], &barred, 1_024, 8_192), Some(13));
    assert_eq!(run(&[P], &[], 1_024, 8_192), Some(13));
    loose.clauses.pop();
    let run = |query: &[u16]| {
        let deck = loose.deck();
        fresh(&deck, query, &barred, 100, 8_192, 1_024, 8_192).err()
    };
    assert_eq!(run(&[NOT + 6, 32_768]), Some(14));
    assert_eq!(run(&[6, 32_768]), Some(16));
}

const CASES: u64 = 4_000;

/// What random lists come to.
fn labels(case: &Case) -> Vec<&'static str> {
    let symbols = case.deck.get(1).map_or(0, |symbols| *symbols as usize);
    let fits = case.bars.len() == symbols;
    let small = case.bars.iter().all(|bar| *bar <= 1);
    let barred = case.bars.contains(&1);
    let refused = case.run().err().unwrap_or(0);
    let all = [
        (refused == 15 && case.bars.len() < symbols, "15, too short"),
        (refused == 15 && case.bars.len() > symbols, "15, too long"),
        (refused == 15 && fits && small, "15, a functor"),
        (refused == 15 && fits && !small, "15, another word"),
        (refused == 15 && case.query.is_empty(), "15, no literals"),
        (refused == 16, "16"),
        (refused == 16 && case.budget == 0, "16, budget 0"),
        (refused == 13 && barred, "13 before 16"),
        (refused == 14 && barred, "14 before 16"),
        (refused == 0 && barred, "something barred"),
    ];
    let so = all.iter().filter(|(so, _)| *so);
    so.map(|(_, label)| *label).collect()
}

#[test]
fn random_lists_reach_everything() {
    let mut counts = std::collections::BTreeMap::new();
    for label in (0..CASES).map(case).flat_map(|case| labels(&case)) {
        *counts.entry(label).or_insert(0) += 1;
    }
    println!("{counts:?}");
    assert!(counts.len() == 10 && counts["something barred"] > 200);
}

#[test]
fn slips_are_found() {
    let mut left: Vec<_> = SLIPS.iter().filter(|slip| !slip.continued_only).collect();
    for seed in 0..CASES {
        let case = case(seed);
        left.retain(|slip| match judge(*slip, &case) {
            Ok(()) => true,
            Err(what) => {
                println!("{}: {}, {what}", slip.name, case.name);
                false
            }
        });
        if left.is_empty() {
            return;
        }
    }
    let names: Vec<_> = left.iter().map(|slip| slip.name).collect();
    panic!("not found: {names:?}");
}

/// Slips when it carries on, and not when it runs.
struct Continued<'a>(&'a Slip);

impl Engine for Continued<'_> {
    fn open(&self, deck: &[u16]) -> u32 {
        second::open(deck)
    }

    fn check(&self, deck: &[u16], query: &[u16]) -> u32 {
        second::check(deck, query)
    }

    fn run(
        &self,
        deck: &[u16],
        query: &[u16],
        bars: &[u16],
        budget: u32,
        lent: Lent<'_>,
        report: &mut Report,
    ) -> u32 {
        Second.run(deck, query, bars, budget, lent, report)
    }
}

impl Continues for Continued<'_> {
    fn carry_on(
        &self,
        deck: &[u16],
        given: Given,
        bars: &[u16],
        budget: u32,
        lent: Lent<'_>,
        report: &mut Report,
    ) -> u32 {
        self.0.carry_on(deck, given, bars, budget, lent, report)
    }
}

#[test]
fn slips_are_found_in_continued_runs() {
    let mut left: Vec<_> = SLIPS.iter().collect();
    left.retain(|slip| {
        let engine = Continued(slip);
        let mut comparison = Comparison::new(&engine);
        let mut seeds = 0..CASES;
        comparison.lists().is_ok() && seeds.all(|seed| comparison.random(seed).is_ok())
    });
    let names: Vec<_> = left.iter().map(|slip| slip.name).collect();
    assert!(left.is_empty(), "not found: {names:?}");
}

/// Two decks that differ only behind barred predicates give the member the same.
#[test]
fn pairs_agree() {
    let mut all = Counts::default();
    for seed in 0..CASES {
        let counts = pairs::judge(&Second, &case(seed), seed);
        let counts = counts.unwrap_or_else(|what| panic!("{seed}: {what}"));
        all.ran += counts.ran;
        all.refused += counts.refused;
    }
    println!("{all:?}");
    assert!(all.ran > 700 && all.refused > 100, "{all:?}");
}

/// Decks that differ in what the member may see are told apart, and so are decks that differ behind predicates that are no longer barred.
#[test]
fn other_pairs_differ() {
    let mut in_sight = 0;
    let mut unbarred = 0;
    for seed in 0..CASES {
        let case = case(seed);
        let mut dice = Dice::new(seed);
        let differs = |deck: Vec<u16>, bars: &[u16]| {
            // The other deck may run on where this one ends.
            let case = Case {
                bars: bars.to_vec(),
                budget: case.budget.min(12_000),
                ..case.clone()
            };
            let other = Case {
                deck,
                ..case.clone()
            };
            run(&Second, &case) != run(&Second, &other)
        };
        if let Some(deck) = other_deck(&mut dice, &case, Differ::InSight) {
            in_sight += usize::from(differs(deck, &case.bars));
        }
        if case.run().err() == Some(16) {
            if let Some(deck) = other_deck(&mut dice, &case, Differ::Behind) {
                unbarred += usize::from(differs(deck, &vec![0; case.bars.len()]));
            }
        }
    }
    println!("{in_sight} {unbarred}");
    assert!(in_sight > 250 && unbarred > 25, "{in_sight} {unbarred}");
}
