//! Worlds near the bounds: stores filled, goals too long, terms doubled.

use super::dice::Dice;
use super::families::world;
use super::signature::{not, variable, Signature};
use crate::terms::NEGATED;
use crate::world::World;

/// One predicate with many clauses that all match and call it again.
pub fn flood(dice: &mut Dice) -> World {
    let mut signature = Signature::default();
    let a = signature.functor(0);
    for _ in 0..dice.range(0, 2) {
        let arity = dice.range(1, 2);
        signature.functor(arity);
    }
    let arity = dice.range(0, 3);
    let main = signature.predicate(arity);
    for _ in 0..dice.range(0, 2) {
        let arity = dice.range(0, 2);
        signature.predicate(arity);
    }
    let mut clauses = Vec::new();
    for _ in 0..dice.range(2, 9) {
        let mut clause = vec![main];
        clause.extend((0..arity).map(variable));
        for _ in 0..dice.range(0, 4) {
            let sign = if dice.chance(1, 8) { NEGATED } else { 0 };
            clause.extend(signature.literal(dice, sign, 1, arity + 1));
        }
        clauses.push(clause);
    }
    for _ in 0..dice.range(0, 3) {
        clauses.push(signature.literal(dice, 0, 1, 2));
    }
    let mut query = vec![main];
    query.extend((0..arity).map(|at| *[a, variable(at)].get(at % 2).unwrap_or(&a)));
    let more = dice.below(3);
    query.extend(signature.body(dice, more, 1, 2));
    world(signature, clauses, query)
}

/// Derived goals of 1,024 words, give or take a few.
pub fn brink(dice: &mut Dice) -> World {
    let mut signature = Signature::default();
    let (a, g) = (signature.functor(0), signature.functor(1));
    let (p, q) = (signature.predicate(1), signature.predicate(1));
    let (r, s) = (signature.predicate(0), signature.predicate(0));
    let x = variable(0);
    let open = dice.chance(1, 3);
    let (size, count, pads) = brink_sizes(dice, open);
    let mut body = [q, x].repeat(count);
    if dice.chance(1, 2) {
        body.extend(vec![r; pads]);
    } else {
        body.splice(1..1, vec![g; pads]);
    }
    let mut clauses = vec![[vec![p, x], body].concat()];
    if dice.chance(1, 2) {
        clauses.insert(dice.below(2), vec![p, x, s]);
    }
    let extras = [
        vec![q, x],
        vec![q, x, r, r],
        vec![r],
        vec![s],
        vec![p, g, x, q, x],
    ];
    clauses.extend(extras.into_iter().filter(|_| dice.chance(1, 2)));
    let sign = if !open && dice.chance(1, 3) {
        NEGATED
    } else {
        0
    };
    let mut query = vec![sign + p];
    query.extend(vec![g; size - 1]);
    query.push(if open { x } else { a });
    world(signature, clauses, query)
}

/// Term size, literals with the term, single cells: together on the brink.
fn brink_sizes(dice: &mut Dice, open: bool) -> (usize, usize, usize) {
    loop {
        let cells = dice.range(1_019, 1_026) - open as usize;
        let size = dice.range(60, 480);
        let (count, pads) = (cells / (1 + size), cells % (1 + size));
        if 2 + 2 * count + pads <= 256 {
            return (size, count, pads);
        }
    }
}

/// Many long derived goals at once, some of them too long.
pub fn crowd(dice: &mut Dice) -> World {
    let mut signature = Signature::default();
    let (a, g) = (signature.functor(0), signature.functor(1));
    let (p, q) = (signature.predicate(1), signature.predicate(1));
    let x = variable(0);
    let size = dice.range(30, 300);
    let most = 1_000 / (1 + size) + (dice.chance(1, 2) as usize);
    let mut clauses = Vec::new();
    for _ in 0..dice.range(2, 7) {
        let count = dice.range(most / 2, most);
        clauses.push([vec![p, x], [q, x].repeat(count)].concat());
    }
    if dice.chance(1, 2) {
        clauses.push(vec![q, x]);
    }
    let sign = if dice.chance(1, 3) { NEGATED } else { 0 };
    let mut query = vec![sign + p];
    query.extend(vec![g; size - 1]);
    query.push(a);
    world(signature, clauses, query)
}

/// Levels within levels, each holding long goals.
pub fn nested(dice: &mut Dice) -> World {
    let mut signature = Signature::default();
    let (a, g) = (signature.functor(0), signature.functor(1));
    let (p, q) = (signature.predicate(1), signature.predicate(1));
    let r = signature.predicate(0);
    let x = variable(0);
    let grown = vec![g; dice.range(0, 12)];
    let mut rule = match dice.below(3) {
        0 => vec![p, x, q, x, not(p)],
        1 => vec![p, x, not(r), not(p)],
        _ => vec![p, x, not(p)],
    };
    rule.extend(&grown);
    rule.push(x);
    let mut clauses = vec![rule];
    for _ in 0..dice.range(1, 3) {
        clauses.push(vec![q, x]);
    }
    match dice.below(4) {
        0 => clauses.push(vec![p, x]),
        1 => clauses.insert(0, vec![p, x, r]),
        2 => clauses.push(vec![q, x, q, g, x]),
        _ => {}
    }
    let long = *dice.pick(&[20, 60, 200, 480]);
    let depth = dice.below(long);
    let sign = if dice.chance(1, 2) { NEGATED } else { 0 };
    let mut query = vec![sign + p];
    query.extend(vec![g; depth]);
    query.push(a);
    world(signature, clauses, query)
}

/// Symbols of the doubling worlds.
struct Doubler {
    signature: Signature,
    a: u16,
    b: u16,
    end: u16,
    g: u16,
    pair: u16,
    cons: u16,
    equal: u16,
    start: u16,
    show: u16,
    grow: u16,
}

fn doubler() -> Doubler {
    let mut signature = Signature::default();
    let [a, b, end] = [0, 0, 0].map(|arity| signature.functor(arity));
    let [g, pair, cons] = [1, 2, 2].map(|arity| signature.functor(arity));
    let [equal, start, show, grow] = [2, 0, 1, 2].map(|arity| signature.predicate(arity));
    Doubler {
        signature,
        a,
        b,
        end,
        g,
        pair,
        cons,
        equal,
        start,
        show,
        grow,
    }
}

/// Two lists whose equality makes each variable a pair of the next.
type Links = Vec<(Vec<u16>, Vec<u16>)>;

impl Doubler {
    /// Variables `from` up, each a pair of the one after.
    fn chain(&self, from: usize, length: usize) -> Links {
        let link = |at: usize| {
            let next = variable(at + 1);
            (vec![variable(at)], vec![self.pair, next, next])
        };
        (from..from + length).map(link).collect()
    }

    /// One list of the left sides, one of the right sides.
    fn two_lists(&self, links: &Links) -> Vec<u16> {
        let mut left = Vec::new();
        let mut right = Vec::new();
        for (one, other) in links {
            left.push(self.cons);
            left.extend(one);
            right.push(self.cons);
            right.extend(other);
        }
        left.push(self.end);
        right.push(self.end);
        [left, right].concat()
    }
}

fn shuffle<T>(dice: &mut Dice, list: &mut [T]) {
    for at in (1..list.len()).rev() {
        let other = dice.range(0, at);
        list.swap(at, other);
    }
}

/// Terms that double at each step or at each link.
pub fn doubling(dice: &mut Dice) -> World {
    let d = doubler();
    let (x, y) = (variable(0), variable(1));
    let mut clauses = vec![
        vec![d.equal, x, x],
        vec![d.grow, d.g, x, y, d.grow, x, d.pair, y, y],
        vec![d.grow, d.a, x, d.show, x],
    ];
    let mut query = Vec::new();
    match dice.below(4) {
        0 => clauses.push(vec![d.show, x, d.show, d.pair, x, x]),
        1 => clauses.push(vec![d.show, x]),
        2 => clauses.push(vec![d.show, d.pair, x, x, d.show, x]),
        _ => {}
    }
    match dice.below(4) {
        0 => {
            query.push(d.grow);
            query.extend(vec![d.g; dice.below(13)]);
            query.extend([d.a, *dice.pick(&[x, d.b])]);
        }
        1 => query.extend([d.show, *dice.pick(&[x, d.b])]),
        2 => {
            query.push(d.equal);
            query.extend(chain_lists(dice, &d, 80));
        }
        _ => {
            clauses.push(chain_clause(dice, &d));
            query.push(d.start);
        }
    }
    world(d.signature, clauses, query)
}

/// A chain in a body, with one of its variables shown.
fn chain_clause(dice: &mut Dice, d: &Doubler) -> Vec<u16> {
    let lists = chain_lists(dice, d, 40);
    let known = variable(dice.below(40));
    let mut clause = vec![d.start, d.equal];
    clause.extend(&lists);
    if lists.contains(&known) {
        clause.extend([d.show, known]);
    }
    clause
}

fn chain_lists(dice: &mut Dice, d: &Doubler, most: usize) -> Vec<u16> {
    let length = if dice.chance(3, 4) {
        dice.range(1, 12)
    } else {
        dice.range(1, most)
    };
    let mut links = d.chain(0, length);
    match dice.below(4) {
        0 => shuffle(dice, &mut links),
        1 => links.reverse(),
        _ => {}
    }
    d.two_lists(&links)
}

/// Two doubled terms set equal: the same, clashing, or one in the other.
pub fn twins(dice: &mut Dice) -> World {
    let d = doubler();
    let most = if dice.chance(1, 6) { 18 } else { 8 };
    let (one, two) = (dice.range(1, most), dice.range(1, most));
    let two = if dice.chance(3, 4) { one } else { two };
    let second = one + 1;
    let mut links = d.chain(0, one);
    links.extend(d.chain(second, two));
    let (leaf, other) = (variable(one), variable(second + two));
    match dice.below(5) {
        0 => links.push((vec![leaf], vec![d.a])),
        1 => links.extend([(vec![leaf], vec![d.a]), (vec![other], vec![d.b])]),
        2 => links.push((vec![other], vec![d.g, variable(0)])),
        3 => links.extend([(vec![leaf], vec![d.a]), (vec![d.a], vec![other])]),
        _ => {}
    }
    let twin = (vec![variable(0)], vec![variable(second)]);
    links.insert(dice.range(0, links.len()), twin);
    if dice.chance(1, 3) {
        shuffle(dice, &mut links);
    }
    twin_world(dice, d, &links, leaf)
}

/// A term doubled up to 75 times, set equal to itself: all of it is walked.
pub fn vast(dice: &mut Dice) -> World {
    let d = doubler();
    let most = *dice.pick(&[4, 9, 14, 75]);
    let length = dice.range(1, most);
    let mut links = d.chain(0, length);
    let leaf = variable(length);
    if dice.chance(1, 3) {
        links.push((vec![leaf], vec![d.a]));
    }
    links.push((vec![variable(0)], vec![variable(0)]));
    if dice.chance(1, 4) {
        links.push((vec![d.a], vec![d.b]));
    }
    if length <= 20 {
        return twin_world(dice, d, &links, leaf);
    }
    let query = [vec![d.equal], d.two_lists(&links)].concat();
    let x = variable(0);
    world(d.signature, vec![vec![d.equal, x, x]], query)
}

/// The links in a query, in a body or in a head.
fn twin_world(dice: &mut Dice, d: Doubler, links: &Links, leaf: u16) -> World {
    let lists = d.two_lists(links);
    let x = variable(0);
    let mut clauses = vec![vec![d.equal, x, x], vec![d.show, x]];
    let mut query = vec![d.start];
    match dice.below(3) {
        0 => {
            query = vec![d.equal];
            query.extend(lists);
        }
        1 => {
            let mut clause = vec![d.start, d.equal];
            clause.extend(lists);
            clause.extend([d.show, leaf]);
            clauses.push(clause);
        }
        _ => {
            let mut clause = vec![d.grow];
            clause.extend(lists);
            clauses.push(clause);
            clauses.push(vec![d.start, d.grow, x, x]);
        }
    }
    world(d.signature, clauses, query)
}
