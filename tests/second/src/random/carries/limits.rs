//! Goals and stores at the limits.

use super::shapes::Shape;
use super::{goal, numbers};
use crate::carry::CarryCase;
use crate::terms::{NEGATED, VARIABLE};
use crate::world::World;

const A: u16 = 0;
const F: u16 = 1;
const PAD: u16 = 2;
const Q: u16 = 3;
const X: u16 = VARIABLE;

/// Symbols: a/0 f/1 pad/0 q/1. pad. q(a) if pad. q(f(x)) if q(x) and not q(a).
fn shape(name: &'static str, terms: u64, pending: Vec<Vec<u16>>, parked: Vec<Vec<u16>>) -> Shape {
    let clauses = vec![
        vec![PAD],
        vec![Q, A, PAD],
        vec![Q, F, X, Q, X, NEGATED + Q, A],
    ];
    let world = World {
        symbols: vec![0, 1, 256, 257],
        clauses,
        ..World::default()
    };
    Shape {
        name,
        world,
        pending,
        parked,
        terms,
    }
}

/// Each with several budgets, and with stores just so long, one longer and more.
pub fn limits() -> Vec<CarryCase> {
    let mut cases = orders();
    cases.extend(oversized());
    for shape in lengths().into_iter().chain(long_goals()) {
        for budget in [0, 1, 2, 3, 100] {
            for store_words in [1_024, 1_025, 1_026, 2_047, 2_048, 2_049, 2_050, 16_384] {
                cases.push(shape.case(budget, store_words));
            }
        }
    }
    for shape in [crowd(512), crowd(1_000), crowd(32_767)] {
        for budget in [0, 1, 40_000] {
            let case = shape.case(budget, 2 * shape.pending.len());
            cases.push(split(case.clone(), 1));
            cases.push(split(case.clone(), shape.pending.len() as u64 / 2));
            cases.push(split(case.clone(), 0));
            cases.push(case);
        }
        let case = shape.case(3, 2 * shape.pending.len() + 1);
        if case.store.len() < 3_000 {
            cases.extend(numbers(&case));
        }
        for by in [0, 1, 2] {
            let mut case = case.clone();
            case.given.pending = case.given.pending + by - 1;
            cases.push(case);
        }
    }
    cases
}

/// The first goals pending, the others parked.
fn split(mut case: CarryCase, pending: u64) -> CarryCase {
    let all = case.given.pending;
    for at in pending..all {
        case.store[2 * at as usize] += 4_096 * (1 + at as u16 % 4);
    }
    case.given.pending = pending;
    case.given.parked = all - pending;
    case
}

/// A goal of each length near the limits, alone, first, last, pending or parked.
fn lengths() -> Vec<Shape> {
    let mut shapes = Vec::new();
    for length in [
        2, 3, 1_021, 1_022, 1_023, 1_024, 1_025, 1_026, 2_047, 2_048, 2_050, 4_095,
    ] {
        let pads = vec![PAD; length - 2];
        let (long, parked) = (goal(0, 0, &pads), |mark| goal(mark, 0, &pads));
        let short = goal(0, 0, &[PAD]);
        shapes.push(shape("long", 0, vec![long.clone()], vec![]));
        shapes.push(shape(
            "long, last",
            0,
            vec![short.clone(), long.clone()],
            vec![],
        ));
        shapes.push(shape(
            "long, first",
            0,
            vec![long.clone(), short.clone()],
            vec![],
        ));
        for mark in 1..5 {
            shapes.push(shape("long, parked", 0, vec![], vec![parked(mark)]));
        }
        shapes.push(shape(
            "long, parked after",
            0,
            vec![short],
            vec![parked(2), parked(3)],
        ));
        shapes.push(shape("long and parked", 0, vec![long], vec![parked(4)]));
    }
    shapes
}

/// The most variables, answer terms and the deepest terms.
fn long_goals() -> Vec<Shape> {
    let variables: Vec<u16> = (0..1_022).map(|at| X + at).collect();
    let deep = |times: usize, end: u16| [vec![F; times], vec![end]].concat();
    let mut shapes = Vec::new();
    for terms in [1_021, 1_022, 1_023] {
        shapes.push(shape(
            "variables",
            terms,
            vec![goal(0, 1_022, &variables)],
            vec![],
        ));
        shapes.push(shape(
            "variables, parked",
            terms,
            vec![],
            vec![goal(1, 1_022, &variables)],
        ));
    }
    for cells in [1_020, 1_021, 1_022] {
        let term = deep(cells - 1, X);
        let literal = [vec![Q], deep(cells - 2, A)].concat();
        let negated = [vec![NEGATED + Q], deep(cells - 2, A)].concat();
        shapes.push(shape("a deep term", 1, vec![goal(0, cells, &term)], vec![]));
        shapes.push(shape(
            "a deep literal",
            0,
            vec![goal(0, 0, &literal)],
            vec![],
        ));
        shapes.push(shape("a deep not", 0, vec![goal(0, 0, &negated)], vec![]));
        let mut cut = goal(0, 0, &literal);
        cut[cells + 1] = F;
        shapes.push(shape("a deep literal without end", 0, vec![cut], vec![]));
    }
    shapes
}

/// A goal of 1,024 words whose first derived goal is one word too long, and a clause after it: the step costs 3.
fn oversized() -> Vec<CarryCase> {
    let cells = [vec![Q, A], vec![PAD; 1_020]].concat();
    let mut shape = shape("oversized", 0, vec![goal(0, 0, &cells)], vec![]);
    shape.world.clauses[1] = vec![Q, A, PAD, PAD, PAD];
    let mut cases = Vec::new();
    for budget in [0, 1, 2, 3, 4, u32::MAX - 1, u32::MAX] {
        for store_words in [1_024, 1_025, 16_384] {
            cases.push(shape.case(budget, store_words));
        }
    }
    cases
}

/// Many goals of 2 words.
fn crowd(goals: usize) -> Shape {
    shape("a crowd", 0, vec![goal(0, 0, &[]); goals], vec![])
}

/// Two refusals at once: the lower number wins.
fn orders() -> Vec<CarryCase> {
    let right = shape(
        "orders",
        1,
        vec![goal(0, 1, &[X, Q, X])],
        vec![goal(2, 1, &[A, PAD])],
    );
    let mut wrong = shape(
        "orders",
        1,
        vec![goal(1, 1, &[X, Q, X])],
        vec![goal(2, 1, &[A, PAD])],
    );
    let mut cases = Vec::new();
    for (at, word) in [(0, 0), (8, 99), (12, 1), (12 + 3, A)] {
        for shape in [&right, &wrong] {
            let mut case = shape.case(5, 1_024);
            case.deck[at] = word;
            cases.push(case.clone());
            case.scratch_words = 0;
            cases.push(case.clone());
            case.store.truncate(20);
            cases.push(case);
        }
    }
    wrong.world.clauses.push(vec![PAD; 257]);
    cases.push(wrong.case(5, 1_024));
    wrong.world.clauses.pop();
    let mut loose = right.world.clone();
    loose.clauses.push(vec![Q, F, X]);
    let [mut loose_right, mut loose_wrong] = [right.case(5, 1_024), wrong.case(5, 1_024)];
    (loose_right.deck, loose_wrong.deck) = (loose.deck(), loose.deck());
    for store_words in [7, 100, 1_023, 1_024, 65_535, 65_536, 70_000] {
        for scratch_words in [0, 8_191, 8_192, 8_193] {
            for case in [
                &right.case(5, 0),
                &wrong.case(5, 0),
                &loose_right,
                &loose_wrong,
            ] {
                for answer_words in [0, 2, 3, 8_192] {
                    let mut case = case.clone();
                    case.store.resize(store_words, 0);
                    (case.scratch_words, case.answer_words) = (scratch_words, answer_words);
                    cases.push(case);
                }
            }
        }
    }
    let mut empty = right.case(5, 1_024);
    empty.store.clear();
    cases.push(empty);
    cases
}
