//! Worlds at the limits of the format.

use super::dice::Dice;
use super::families::world;
use super::signature::{not, variable, Signature};
use crate::case::Case;
use crate::terms::NEGATED;
use crate::world::World;

/// Goals with up to a thousand variables meet heads with up to a hundred.
pub fn many_variables(dice: &mut Dice) -> World {
    let mut signature = Signature::default();
    let arity = dice.range(8, 15);
    let (_, bundle) = (signature.functor(0), signature.functor(arity));
    let (q, u) = (signature.predicate(0), signature.predicate(0));
    let (p, w) = (signature.predicate(arity), signature.predicate(1));
    let group = |first: u16, number: usize| {
        let variables = (0..arity).map(move |at| variable(number * arity + at));
        [first].into_iter().chain(variables)
    };
    let turned = dice.chance(1, 2);
    let most = 255 / (arity + 1) / (1 + turned as usize);
    let groups = most.min(dice.range(5, 28));
    let mut long = vec![q];
    long.extend((0..groups).flat_map(|number| group(p, number)));
    if turned {
        long.extend((0..groups).flat_map(|number| group(not(p), groups - 1 - number)));
    }
    let inner = dice.range(1, 126 / (arity + 1)).min(arity);
    let mut head = vec![w, bundle];
    head.extend((0..inner).flat_map(|number| group(bundle, number)));
    head.extend((inner..arity).map(variable));
    head.extend((0..inner).flat_map(|number| group(p, number)));
    let mut any = vec![p];
    any.extend((0..arity).map(|at| variable(at % dice.range(1, arity))));
    let clauses = vec![long, head, vec![u, w, variable(0)], any];
    let mut query = vec![q; dice.range(1, 5)];
    query.extend([w, variable(0), u]);
    if dice.chance(1, 4) {
        query.extend([not(w), variable(0)]);
    }
    world(signature, clauses, query)
}

/// Arities up to 15; clauses and queries up to the last cell allowed.
pub fn wide(dice: &mut Dice) -> World {
    let mut signature = Signature::default();
    signature.functor(0);
    for _ in 0..dice.range(1, 4) {
        let arity = dice.range(0, 15);
        signature.functor(arity);
    }
    for _ in 0..dice.range(1, 4) {
        let arity = dice.range(0, 15);
        signature.predicate(arity);
    }
    let pad = signature.predicate(0);
    let mut clauses = vec![vec![pad]];
    for _ in 0..dice.range(1, 6) {
        let pool = dice.range(1, 20);
        let depth = dice.below(2);
        let mut clause = signature.literal(dice, 0, depth, pool);
        fill(dice, &signature, &mut clause, 256, pad);
        clauses.push(clause);
    }
    let mut query = Vec::new();
    fill(dice, &signature, &mut query, 500, pad);
    clauses.retain(|clause| clause.len() <= 256);
    world(signature, clauses, query)
}

/// Literals up to about so many cells, at times exactly so many.
fn fill(dice: &mut Dice, signature: &Signature, cells: &mut Vec<u16>, most: usize, pad: u16) {
    let target = if dice.chance(1, 2) {
        most
    } else {
        dice.below(most)
    };
    let pool = dice.range(1, 20);
    loop {
        let sign = if dice.chance(1, 4) { NEGATED } else { 0 };
        let literal = signature.literal(dice, sign, 1, pool);
        if cells.len() + literal.len() > target {
            break;
        }
        cells.extend(literal);
    }
    if target == most && cells.len() < most && dice.chance(2, 3) {
        cells.extend(vec![pad; most - cells.len()]);
    }
}

/// Many symbols, many clauses, up to the last word of a deck.
pub fn large(dice: &mut Dice) -> World {
    let mut signature = Signature::default();
    let symbols = *dice.pick(&[100, 1_000, 4_096]);
    while signature.words.len() + 3 < symbols {
        signature.functor(0);
    }
    let (fact, other) = (signature.predicate(1), signature.predicate(2));
    let pad = signature.predicate(0);
    let facts = *dice.pick(&[20, 150, 1_500]);
    let mut clauses = Vec::new();
    for _ in 0..facts {
        clauses.push(signature.literal(dice, 0, 0, 1));
    }
    let (x, y) = (variable(0), variable(1));
    clauses.push(vec![other, x, y, fact, x, not(fact), y]);
    pad_deck(dice, &signature, &mut clauses, pad);
    let query = match dice.below(3) {
        0 => vec![fact, x],
        1 => vec![other, x, y],
        _ => signature.body(dice, 2, 3, 2),
    };
    world(signature, clauses, query)
}

/// Some 20 steps over all of the facts.
pub fn large_sizes(dice: &mut Dice, case: &mut Case) {
    if dice.chance(2, 3) {
        case.budget = dice.below(40_000) as u32;
    }
}

/// Long clauses up to 16,384 words in all, or near it.
fn pad_deck(dice: &mut Dice, signature: &Signature, clauses: &mut Vec<Vec<u16>>, pad: u16) {
    let cells: usize = clauses.iter().map(Vec::len).sum();
    let used = 8 + signature.words.len() + clauses.len() + cells;
    let total = 16_384 - *dice.pick(&[0, 0, 1, 5_000]);
    let mut left = total - used;
    while left > 1 {
        let length = (left - 1).min(256);
        clauses.push(vec![pad; length]);
        left -= 1 + length;
    }
}

/// Hundreds of answers of hundreds of words.
pub fn rich(dice: &mut Dice) -> World {
    let mut signature = Signature::default();
    let bundle = signature.functor(15);
    for _ in 0..dice.range(20, 30) {
        signature.functor(0);
    }
    let [n, m, big] = [1, 1, 1].map(|arity| signature.predicate(arity));
    let names = signature.constants.clone();
    let mut clauses: Vec<Vec<u16>> = Vec::new();
    clauses.extend(names.iter().map(|name| vec![n, *name]));
    let second = dice.range(9, 15);
    clauses.extend(names[..second].iter().map(|name| vec![m, *name]));
    let mut fact = vec![big, bundle];
    for at in 0..15 {
        fact.push(bundle);
        fact.extend((0..15).map(|inner| names[(at * inner) % names.len()]));
    }
    clauses.push(fact);
    let query = [n, variable(0), m, variable(1), big, variable(2)];
    world(signature, clauses, query.to_vec())
}

/// Sizes for many answers: past 65,535 words, or just there.
pub fn rich_sizes(dice: &mut Dice, case: &mut Case) {
    let sizes = [8_192, 65_535, 65_536, 65_537, 70_000, 131_072];
    case.answer_words = *dice.pick(&sizes);
    case.store_words = case.store_words.max(16_384);
    if dice.chance(3, 4) {
        case.budget = 6_000;
    }
}
