//! Runs that leave goals open: parked ones, and each stop.

use super::{case, Case};
use crate::inputs::{deck, largest_deck, NOT, X};

/// Finished, with goals parked.
pub fn finished_open() -> Vec<Case> {
    // P(x) if P(f(x)); and with P(a).
    let oversized = deck(&[257, 1, 0], &[&[0, X, 0, 1, X]]);
    let beside = deck(&[257, 1, 0], &[&[0, 2], &[0, X, 0, 1, X]]);
    // f/1, a, b; p(x) if e(x) and not q(x); e(a); e(b); q(a) if q(f(a)); q(f(x)) if q(f(f(x))).
    let clauses: [&[u16]; 5] = [&[3, X, 4, X, NOT + 5, X], &[4, 1], &[4, 2], &[5, 1, 5, 0, 1], &[5, 0, X, 5, 0, 0, X]];
    let undecided = deck(&[1, 0, 0, 257, 257, 257], &clauses);
    vec![
        case("an answer and an undecided goal", &undecided, &[3, X], "open\nfinished 1027 1 0 1 4094\ns2\n"),
        case("oversized", &oversized, &[0, 2], "open\nfinished 1021 0 0 1 2042\n"),
        case("an answer and an oversized goal", &beside, &[0, 2], "open\nfinished 1022 1 0 1 3064\ntrue\n"),
    ]
}

/// "Nots" inside each other, as deep as levels go and deeper.
pub fn levels() -> Vec<Case> {
    // p if not p.
    let circle = deck(&[256], &[&[0, NOT]]);
    vec![
        case("p if not p", &circle, &[0], "open\nfinished 66 0 0 1 66\n"),
        case("31 nots", &nots(31), &[0], "all\nfinished 79 1 0 0 79\ntrue\n"),
        case("32 nots", &nots(32), &[0], "no\nfinished 81 0 0 0 81\n"),
        case("33 nots", &nots(33), &[0], "open\nfinished 66 0 0 1 66\n"),
    ]
}

/// p0 if not p1, p1 if not p2, and so on; the last has no clause.
fn nots(count: u16) -> Vec<u16> {
    let clauses: Vec<[u16; 2]> = (0..count).map(|at| [at, NOT + at + 1]).collect();
    let clauses: Vec<&[u16]> = clauses.iter().map(|clause| &clause[..]).collect();
    deck(&vec![256; count as usize + 1], &clauses)
}

/// The whole budget, or so much of it that the next step's cost is not left.
pub fn budget() -> Vec<Case> {
    // p if p; q if not p.
    let endless = deck(&[256, 256], &[&[0, 0], &[1, NOT]]);
    // a; p(x, y) if p(x, y).
    let dear = deck(&[0, 258], &[&[1, X, X + 1, 1, X, X + 1]]);
    // a, pair/2, cons/2; equal(x, x) if some(x); some(a).
    let equal = deck(&[0, 2, 2, 258, 257], &[&[3, X, X, 4, X], &[4, 0]]);
    // a; p(a); p(x) if q(x); q(x) if q(x).
    let answered = deck(&[0, 257, 257], &[&[1, 0], &[1, X, 2, X], &[2, X, 2, X]]);
    vec![
        case("p if p", &endless, &[0], "open\nbudget 100000 0 1 0 100000\n"),
        case("q if not p, p if p", &endless, &[1], "open\nbudget 100000 0 1 0 100000\n"),
        case("three at a time", &dear, &[1, 0, 0], "open\nbudget 33333 0 1 0 99999\n"),
        case("60 doublings", &equal, &doublings(60), "open\nbudget 0 0 1 0 0\n"),
        case("13 doublings", &equal, &doublings(13), "no\nfinished 1 0 0 0 16413\n"),
        case("an answer, and then on for ever", &answered, &[1, X], "open\nbudget 50000 1 1 0 100000\ns0\n"),
    ]
}

/// Two lists that are set equal: x0 = pair(x1, x1), x1 = pair(x2, x2) and so on, x0 = x0, and last what clashes.
fn doublings(times: u16) -> Vec<u16> {
    let left = (0..times).chain([0]).flat_map(|at| [2, X + at]);
    let right = (0..times).flat_map(|at| [2, 1, X + at + 1, X + at + 1]);
    let right = right.chain([2, X, 2, 0, 0]);
    let mut query = vec![3];
    query.extend(left.chain([0]).chain(right));
    second::world::renumber(&mut query);
    query
}

pub fn store() -> Vec<Case> {
    // p if p; p if p; q if not p.
    let doubling = deck(&[256, 256], &[&[0, 0], &[0, 0], &[1, NOT]]);
    vec![
        case("the store full of goals", &doubling, &[0], "open\nstore 5460 0 5461 0 5460\n"),
        case("the store full in a not", &doubling, &[1], "open\nstore 5461 0 1 0 5461\n"),
        case("the largest deck", &largest_deck(), &[0], "open\nstore 1 0 64 0 1\n"),
    ]
}

/// An answer list full of answers.
pub fn answers() -> Vec<Case> {
    // a, b; d; d; d; e(a); e(b); p(x) if e(x) and d, seven times.
    let clause = [vec![4, X, 3, X], vec![2; 7]].concat();
    let clauses: [&[u16]; 6] = [&[2], &[2], &[2], &[3, 0], &[3, 1], &clause];
    let many = deck(&[0, 0, 256, 257, 257], &clauses);
    vec![case("more answers than fit", &many, &[4, X], "open\nanswers 4101 2730 10 0 4104\ns0\ns0\n")]
}
