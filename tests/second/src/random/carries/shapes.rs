//! Small decks with goals, to be damaged everywhere.

use super::goal;
use crate::carry::{CarryCase, Given};
use crate::deck::NUMBER;
use crate::terms::{NEGATED, VARIABLE};
use crate::world::World;

/// A deck in parts, and its goals.
pub struct Shape {
    pub name: &'static str,
    pub world: World,
    pub pending: Vec<Vec<u16>>,
    pub parked: Vec<Vec<u16>>,
    pub terms: u64,
}

impl Shape {
    pub fn case(&self, budget: u32, store_words: usize) -> CarryCase {
        let mut store = self.pending.concat();
        store.extend(self.parked.concat());
        store.resize(store_words.max(store.len()), 0);
        CarryCase {
            name: self.name.to_string(),
            deck: self.world.deck(),
            store,
            given: Given {
                pending: self.pending.len() as u64,
                parked: self.parked.len() as u64,
                terms: self.terms,
            },
            bars: vec![0; self.world.symbols.len()],
            budget,
            answer_words: 8_192,
            scratch_words: 8_192,
        }
    }
}

pub fn shapes() -> Vec<Shape> {
    vec![leads(), propositions(), pairs(), widest(), loose(), numbers()]
}

fn world(symbols: &[u16], clauses: &[&[u16]]) -> World {
    World {
        symbols: symbols.to_vec(),
        clauses: clauses.iter().map(|clause| clause.to_vec()).collect(),
        ..World::default()
    }
}

const X: u16 = VARIABLE;
const Y: u16 = VARIABLE + 1;
const Z: u16 = VARIABLE + 2;
const NOT: u16 = NEGATED;

/// Deck L, and goals as runs over it leave them.
fn leads() -> Shape {
    let clauses: [&[u16]; 4] = [&[2, 0], &[2, 1], &[3, 0], &[4, X, 2, X, NOT + 3, X]];
    Shape {
        name: "leads",
        world: world(&[0, 0, 257, 257, 257], &clauses),
        pending: vec![
            goal(0, 1, &[1, NOT + 3, 1]),
            goal(0, 1, &[X, 4, X, 2, Y]),
            goal(0, 1, &[0]),
        ],
        parked: vec![
            goal(1, 1, &[X, NOT + 3, X]),
            goal(2, 1, &[X, NOT + 4, 1]),
            goal(3, 1, &[1]),
            goal(4, 1, &[X, 2, Y, 3, X]),
        ],
        terms: 1,
    }
}

/// p if not q. q if not p. r. Goals without answer terms.
fn propositions() -> Shape {
    let clauses: [&[u16]; 3] = [&[0, NOT + 1], &[1, NOT], &[2]];
    Shape {
        name: "propositions",
        world: world(&[256, 256, 256], &clauses),
        pending: vec![
            goal(0, 0, &[2, NOT, 2]),
            goal(0, 0, &[]),
            goal(0, 0, &[NOT + 2]),
        ],
        parked: vec![goal(4, 0, &[]), goal(2, 0, &[0])],
        terms: 0,
    }
}

/// Symbols: a/0 f/1 g/2 e/2 p/1. e(x, x) if p(x). p(f(x)) if p(x). p(g(x, y)) if not e(x, y), p(x), p(y). p(a).
fn pairs() -> Shape {
    let clauses: [&[u16]; 4] = [
        &[3, X, X, 4, X],
        &[4, 1, X, 4, X],
        &[4, 2, X, Y, NOT + 3, X, Y, 4, X, 4, Y],
        &[4, 0],
    ];
    Shape {
        name: "pairs",
        world: world(&[0, 1, 2, 258, 257], &clauses),
        pending: vec![
            goal(0, 5, &[2, X, Y, 1, Z, 3, X, 1, Y, 4, 1, Z]),
            goal(0, 2, &[X, X, 3, Y, 2, X, Y]),
            goal(0, 4, &[0, 2, 0, 0, 4, 2, 0, 1, 0]),
        ],
        parked: vec![goal(1, 2, &[X, Y, NOT + 3, Y, Z]), goal(3, 3, &[1, 0, X])],
        terms: 2,
    }
}

/// A deck with a loose variable, and goals that are right: a/0 p/1 q/1. p(a). q(x) if not p(x).
fn loose() -> Shape {
    let clauses: [&[u16]; 2] = [&[1, 0], &[2, X, NOT + 1, X]];
    Shape {
        name: "a loose variable",
        world: world(&[0, 257, 257], &clauses),
        pending: vec![goal(0, 1, &[X, 1, X])],
        parked: vec![goal(1, 1, &[X, NOT + 1, X])],
        terms: 1,
    }
}

/// In format 2: the numbers -3 and 5, f/1 p/1 q/1. p(-3). p(5). p(f(-3)). q(x) if p(x), not p(f(x)).
fn numbers() -> Shape {
    let clauses: [&[u16]; 4] = [&[3, 0], &[3, 1], &[3, 2, 0], &[4, X, 3, X, NOT + 3, 2, X]];
    let values = [65_533, 5, 0, 0, 0];
    Shape {
        name: "numbers",
        world: World {
            values: Some(values.to_vec()),
            ..world(&[NUMBER, NUMBER, 1, 257, 257], &clauses)
        },
        pending: vec![
            goal(0, 1, &[0]),
            goal(0, 2, &[2, 1, 3, 1]),
            goal(0, 1, &[X, 4, X]),
        ],
        parked: vec![goal(2, 1, &[1, NOT + 3, 0])],
        terms: 1,
    }
}

/// Symbols of 15 places; 15 answer terms. A clause that turns its arguments, and a fact.
fn widest() -> Shape {
    let row: Vec<u16> = (0..15).map(|at| X + at).collect();
    let turned: Vec<u16> = (0..15).map(|at| X + (15 - at) % 15).collect();
    let clause = [&[1][..], &row, &[1], &turned].concat();
    let fact = [&[1][..], &[2; 15]].concat();
    Shape {
        name: "widest",
        world: world(&[15, 271, 0], &[&clause, &fact]),
        pending: vec![
            goal(0, 15, &[&row[..], &[1], &turned].concat()),
            goal(
                0,
                30,
                &[&[0][..], &row, &row[1..], &[NOT + 1], &turned].concat()[..],
            ),
        ],
        parked: vec![goal(
            1,
            15,
            &[&[2][..], &row[..14], &[NOT + 1], &row].concat(),
        )],
        terms: 15,
    }
}
