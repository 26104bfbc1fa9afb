//! Terms that would be exponential when written out, and very deep ones.

use second::rights::no_bars;
use second::world::{renumber, World};
use second::Outcome;

const X: u16 = 32_768;
const A: u16 = 0;
const B: u16 = 1;
const G: u16 = 2;
const PAIR: u16 = 3;
const CONS: u16 = 4;
const EQUAL: u16 = 5;
const START: u16 = 6;
const SHOW: u16 = 7;
const SOME: u16 = 8;

/// a, b, g of 1, pair and cons of 2; equal(x, x) if some(x), start if these, show(x) if some(x); some(a).
fn world(body: Vec<u16>) -> World {
    let mut clause = vec![START];
    clause.extend(body);
    renumber(&mut clause);
    World {
        symbols: vec![0, 0, 1, 2, 2, 258, 256, 257, 257],
        clauses: vec![
            vec![EQUAL, X, X, SOME, X],
            clause,
            vec![SHOW, X, SOME, X],
            vec![SOME, A],
        ],
        query: vec![START],
        ..World::default()
    }
}

fn run(world: &World, budget: u32) -> Outcome {
    let deck = world.deck();
    second::run(&deck, &world.query, &no_bars(&deck), budget, 8_192, 16_384, 8_192).expect("accepted")
}

/// Variable `from` is a pair of the next, and so on.
fn chain(from: u16, length: u16) -> Vec<(Vec<u16>, Vec<u16>)> {
    let links = from..from + length;
    links
        .map(|at| (vec![X + at], vec![PAIR, X + at + 1, X + at + 1]))
        .collect()
}

fn equal(links: &[(Vec<u16>, Vec<u16>)]) -> Vec<u16> {
    let mut cells = vec![EQUAL];
    for side in 0..2 {
        for (left, right) in links {
            cells.push(CONS);
            cells.extend(if side == 0 { left } else { right });
        }
        cells.push(A);
    }
    cells
}

/// Two chains of 18, the first variables set equal, and two more links.
fn twins(more: [(Vec<u16>, Vec<u16>); 2]) -> Vec<u16> {
    let mut links = chain(0, 18);
    links.extend(chain(50, 18));
    links.push((vec![X], vec![X + 50]));
    links.extend(more);
    equal(&links)
}

/// The two steps, the first argument, 39 places in the lists, 36 pairs, the doubled terms cell by cell, one of the last links.
const TWINS: u32 = 2 + 1 + 39 + 36 + ((1 << 19) - 1) + 1;

#[test]
fn twins_agree() {
    let body = twins([(vec![X + 18], vec![A]), (vec![X + 68], vec![A])]);
    let outcome = run(&world(body), 1_000_000);
    // They match, and what is derived is too long.
    assert_eq!((outcome.steps, outcome.answers.len()), (2, 0));
    assert_eq!(outcome.cost, TWINS + 2);
    assert_eq!(outcome.parked[0][0] / 4_096, 3);
}

#[test]
fn twins_clash() {
    let body = twins([(vec![X + 18], vec![A]), (vec![X + 68], vec![B])]);
    let outcome = run(&world(body), 1_000_000);
    assert_eq!((outcome.steps, outcome.answers.len()), (2, 0));
    assert!(outcome.parked.is_empty());
    assert_eq!(outcome.cost, TWINS + 1);
}

#[test]
fn twins_inside_each_other() {
    let body = twins([(vec![A], vec![A]), (vec![X + 18], vec![G, X + 50])]);
    let outcome = run(&world(body), 1_000_000);
    assert_eq!((outcome.steps, outcome.answers.len()), (2, 0));
    assert!(outcome.parked.is_empty());
    assert_eq!(outcome.cost, TWINS + 1);
}

#[test]
fn sizes_of_a_chain() {
    // Variable k of a chain of n has 2^(n+1-k) - 1 words, and a list of all of them is of 1,024 words with 8.
    for (length, words) in [(1, 8), (7, 512), (8, 1_024), (9, 0), (40, 0)] {
        // The start; then the first argument, two equations a link, and the lists' ends.
        let cost = 1 + 1 + 1 + 2 * length as u32 + 1;
        let outcome = run(&world(equal(&chain(0, length))), cost);
        assert_eq!(
            (outcome.steps, outcome.cost),
            (2, cost),
            "a chain of {length}"
        );
        let derived = outcome.pending.first().map_or(0, Vec::len);
        assert_eq!(derived, words, "a chain of {length}");
        assert_eq!(
            outcome.parked.len(),
            (words == 0) as usize,
            "a chain of {length}"
        );
    }
}

#[test]
fn chain_of_eighty_in_a_query() {
    let mut world = world(vec![]);
    world.query = equal(&chain(0, 80));
    renumber(&mut world.query);
    let outcome = run(&world, 163);
    assert_eq!((outcome.parked.len(), outcome.cost), (1, 163));
    assert_eq!(outcome.parked[0][0] / 4_096, 3);
}

#[test]
fn a_goal_as_deep_as_it_can_be() {
    // show(g(x)) with show(x) if show(g(x)): 1,024 words at last.
    let mut world = world(vec![]);
    world.clauses[2] = vec![SHOW, X, SHOW, G, X];
    world.query = vec![SHOW, X];
    let outcome = run(&world, 100_000);
    assert_eq!((outcome.steps, outcome.parked.len()), (1_020, 1));
    assert_eq!(outcome.cost, 2 * 1_020);
    assert_eq!(outcome.parked[0].len(), 1_024);
}
