//! Everyday worlds: facts, rules, recursion, negation.

use super::dice::Dice;
use super::signature::{not, variable, Signature};
use crate::terms::NEGATED;
use crate::world::{renumber, World};

/// Puts a world together; variables are numbered here.
pub fn world(signature: Signature, clauses: Vec<Vec<u16>>, query: Vec<u16>) -> World {
    let mut world = World {
        symbols: signature.words,
        clauses,
        query,
        ..World::default()
    };
    world.clauses.iter_mut().for_each(|clause| renumber(clause));
    renumber(&mut world.query);
    world
}

const X: usize = 0;
const Y: usize = 1;
const Z: usize = 2;

/// Anything at all; mostly about a few favoured predicates.
pub fn mixed(dice: &mut Dice) -> World {
    let mut signature = Signature::small(dice);
    for _ in 0..dice.range(1, 3) {
        let favoured = *dice.pick(&signature.predicates);
        signature.favoured.push(favoured);
    }
    let negation = *dice.pick(&[0, 1, 2, 3, 5]);
    let mut clauses = Vec::new();
    for _ in 0..dice.range(2, 14) {
        let pool = dice.range(1, 4);
        let depth = *dice.pick(&[0, 0, 1, 2]);
        let mut clause = signature.literal(dice, 0, depth, pool);
        let most = *dice.pick(&[0, 0, 1, 2, 3]);
        clause.extend(signature.body(dice, most, negation, pool));
        clauses.push(clause);
    }
    let pool = dice.range(0, 3);
    let mut query = signature.literal(dice, 0, 0, pool);
    query.extend(signature.body(dice, 2, negation, pool));
    world(signature, clauses, query)
}

/// A graph with rules about winning, reaching and being alone.
pub fn graph(dice: &mut Dice) -> World {
    let mut signature = Signature::default();
    for _ in 0..dice.range(2, 7) {
        signature.functor(0);
    }
    let [edge, path, apart] = [2, 2, 2].map(|arity| signature.predicate(arity));
    let [node, win, alone] = [1, 1, 1].map(|arity| signature.predicate(arity));
    let places = signature.constants.clone();
    let (x, y, z) = (variable(X), variable(Y), variable(Z));
    let mut clauses = edges(dice, edge, &places);
    clauses.extend(places.iter().map(|place| vec![node, *place]));
    let rules = [
        vec![win, x, edge, x, y, not(win), y],
        vec![path, x, y, edge, x, y],
        vec![path, x, y, edge, x, z, path, z, y],
        vec![path, x, y, path, x, z, edge, z, y],
        vec![apart, x, y, node, x, node, y, not(path), x, y],
        vec![alone, x, node, x, not(edge), x, x, not(win), x],
        vec![alone, x, not(win), x, node, x],
        vec![win, x, not(alone), x],
    ];
    clauses.extend(rules.into_iter().filter(|_| dice.chance(3, 5)));
    let asked = signature.predicates.iter().filter(|(number, _)| {
        let defined = clauses.iter().any(|clause| clause[0] == *number);
        defined && *number != node && *number != edge
    });
    signature.favoured = asked.copied().collect();
    let mut query = Vec::new();
    for _ in 0..dice.range(1, 2) {
        let sign = if dice.chance(1, 3) { NEGATED } else { 0 };
        query.extend(signature.literal(dice, sign, 0, 2));
    }
    world(signature, clauses, query)
}

/// Facts of a graph; in half of them no way leads back.
fn edges(dice: &mut Dice, edge: u16, places: &[u16]) -> Vec<Vec<u16>> {
    let upwards = dice.chance(1, 2);
    let mut facts = Vec::new();
    for _ in 0..dice.range(1, 12) {
        let (from, to) = (*dice.pick(places), *dice.pick(places));
        let turned = upwards && from > to;
        let (from, to) = if turned { (to, from) } else { (from, to) };
        facts.push(vec![edge, from, to]);
    }
    facts
}

/// Negation before its variables are known, on several levels.
pub fn flounder(dice: &mut Dice) -> World {
    let mut signature = Signature::default();
    for _ in 0..dice.range(1, 3) {
        signature.functor(0);
    }
    let count = dice.range(2, 5);
    let rows: Vec<u16> = (0..count).map(|_| signature.predicate(1)).collect();
    let (x, y) = (variable(X), variable(Y));
    let mut clauses = Vec::new();
    for _ in 0..dice.range(2, 9) {
        let (p, q, r) = (*dice.pick(&rows), *dice.pick(&rows), *dice.pick(&rows));
        let a = *dice.pick(&signature.constants);
        clauses.push(match dice.below(7) {
            0 => vec![p, a],
            1 => vec![p, x, not(q), x],
            2 => vec![p, x, not(q), y],
            3 => vec![p, x, q, y, not(r), y],
            4 => vec![p, x, not(q), x, r, x],
            5 => vec![p, x, not(q), a, not(r), y],
            _ => vec![p, x],
        });
    }
    let mut query = Vec::new();
    for _ in 0..dice.range(1, 3) {
        let sign = if dice.chance(1, 2) { NEGATED } else { 0 };
        query.extend(signature.literal(dice, sign, 0, 2));
    }
    world(signature, clauses, query)
}

/// A row of propositions, each the failure of the next.
pub fn chain(dice: &mut Dice) -> World {
    let mut signature = Signature::default();
    let length = if dice.chance(1, 2) {
        dice.range(29, 36)
    } else {
        dice.range(1, 40)
    };
    let rows: Vec<u16> = (0..=length).map(|_| signature.predicate(0)).collect();
    let extra = signature.predicate(1);
    let mut clauses: Vec<Vec<u16>> = Vec::new();
    for pair in rows.windows(2) {
        let mut clause = vec![pair[0], not(pair[1])];
        match dice.below(40) {
            0 => clause.insert(1, pair[0]),
            1 => clause.extend([not(*dice.pick(&rows))]),
            2 => clauses.push(vec![pair[0]]),
            3 => clause.extend([not(extra), variable(X)]),
            4 => clauses.push(vec![pair[0], not(extra), variable(X)]),
            5 => clause.insert(1, not(pair[1])),
            _ => {}
        }
        clauses.push(clause);
    }
    let last = rows[length];
    match dice.below(5) {
        0 => clauses.push(vec![last]),
        1 => clauses.push(vec![last, not(last)]),
        2 => clauses.push(vec![last, not(extra), variable(X)]),
        3 => clauses.push(vec![last, not(rows[0])]),
        _ => {}
    }
    let sign = if dice.chance(1, 3) { NEGATED } else { 0 };
    let query = [sign + rows[0], *dice.pick(&rows)];
    let query = query[..dice.range(1, 2)].to_vec();
    world(signature, clauses, query)
}

/// A number is even if the one before is not.
pub fn parity(dice: &mut Dice) -> World {
    let mut signature = Signature::default();
    let (zero, next) = (signature.functor(0), signature.functor(1));
    let even = signature.predicate(1);
    let odd = signature.predicate(1);
    let x = variable(X);
    let mut clauses = vec![
        vec![even, zero],
        vec![even, next, x, not(even), x],
        vec![odd, x, not(even), x],
    ];
    if dice.chance(1, 4) {
        clauses.push(vec![even, next, next, x, odd, next, x]);
    }
    if dice.chance(1, 6) {
        clauses.remove(0);
    }
    let depth = if dice.chance(1, 2) {
        dice.range(28, 35)
    } else {
        dice.range(0, 12)
    };
    let sign = if dice.chance(1, 3) { NEGATED } else { 0 };
    let mut query = vec![sign + *dice.pick(&[even, odd])];
    query.extend(vec![next; depth]);
    query.push(if dice.chance(1, 12) { x } else { zero });
    world(signature, clauses, query)
}
