//! Listings with answers of each form.

use super::{case, Case};
use crate::inputs::{deck, L, NOT, X, Y, Z};

/// The runs that document 01 states of deck L.
pub fn deck_l() -> Vec<Case> {
    vec![
        case("deck L, lead x", &L, &[4, X], "all\nfinished 8 1 0 0 13\ns1\n"),
        case("deck L, end x, not drawn x", &L, &[2, X, NOT + 3, X], "all\nfinished 7 1 0 0 11\ns1\n"),
        case("deck L, not drawn x", &L, &[NOT + 3, X], "refused 14\n"),
        case("deck L, nothing asked", &L, &[], "all\nfinished 1 1 0 0 1\ntrue\n"),
        case("deck L, drawn b", &L, &[3, 1], "no\nfinished 1 0 0 0 2\n"),
        case("deck L, drawn a", &L, &[3, 0], "all\nfinished 2 1 0 0 3\ntrue\n"),
    ]
}

/// One answer each, or none: nested terms, many terms, long numbers.
pub fn terms() -> Vec<Case> {
    // f/2, a, b; p(b, f(a, f(a, b)), a).
    let nested = deck(&[2, 0, 0, 259], &[&[3, 2, 0, 1, 0, 1, 2, 1]]);
    // p(x, y) if e(x) and e(y); e(a); e(f(a, b, a)); f/3, a, b.
    let pair = deck(&[258, 3, 0, 0, 257], &[&[0, X, Y, 4, X, 4, Y], &[4, 2], &[4, 1, 2, 3, 2]]);
    let pairs = "all\nfinished 8 4 0 0 16\ns2 s2\ns2 s1(s2,s3,s2)\ns1(s2,s3,s2) s2\ns1(s2,s3,s2) s1(s2,s3,s2)\n";
    // q(x, f(x)) if e(x); e(a).
    let contained = deck(&[258, 1, 257, 0], &[&[0, X, 1, X, 2, X], &[2, 3]]);
    // Clark's, with more than he has: P(x) if S(x) and Q(y) and R(y); Q(h(y)) if Q(y); R(g(y)) if S(y); S(a).
    let clark: [&[u16]; 4] = [&[0, X, 6, X, 1, Y, 2, Y], &[1, 3, X, 1, X], &[2, 4, X, 6, X], &[6, 5]];
    let clark = deck(&[257, 257, 257, 1, 1, 0, 257], &clark);
    vec![
        case("nested terms", &nested, &[3, X, Y, Z], "all\nfinished 2 1 0 0 5\ns2 s0(s1,s0(s1,s2)) s1\n"),
        case("two variables", &pair, &[0, X, Y], pairs),
        case("a variable asked twice", &pair, &[0, X, X], "all\nfinished 6 2 0 0 17\ns2\ns1(s2,s3,s2)\n"),
        case("a term that is asked with", &pair, &[0, X, 1, Y, 3, 2], "all\nfinished 6 2 0 0 20\ns2 s2\n"),
        case("x is f of x", &contained, &[0, X, X], "no\nfinished 1 0 0 0 3\n"),
        case("Clark's example, with more", &clark, &[0, 5], "no\nfinished 4 0 0 0 8\n"),
        fifteen_arguments(),
        many_variables(),
        deep_term(),
    ]
}

/// Facts about p over forty constants, from the first on and again from the first. Over 64 of them have rows.
pub fn long_lists() -> Vec<Case> {
    let long = |count: u16| {
        let facts: Vec<[u16; 2]> = (0..count).map(|at| [40, at % 40]).collect();
        let facts: Vec<&[u16]> = facts.iter().map(|fact| &fact[..]).collect();
        deck(&[vec![0; 40], vec![257]].concat(), &facts)
    };
    vec![
        case("64 facts", &long(64), &[40, 0], "all\nfinished 3 2 0 0 67\ntrue\n"),
        case("65 facts", &long(65), &[40, 0], "all\nfinished 3 2 0 0 8\ntrue\n"),
        case("65 facts, all asked for", &long(65), &[40, X], "all\nfinished 66 65 0 0 131\ns0\ns1\n"),
        case("65 facts, not the last name", &long(65), &[NOT + 40, 39], "no\nfinished 3 0 0 0 8\n"),
    ]
}

/// f/15, a, b; p(f(a, b, a, b, .., a)).
fn fifteen_arguments() -> Case {
    let arguments = (0..15u16).map(|at| 1 + at % 2);
    let clause: Vec<u16> = [3, 0].into_iter().chain(arguments).collect();
    let start = "all\nfinished 2 1 0 0 3\ns0(s1,s2,s1,s2,s1,s2,s1,s2,s1,s2,s1,s2,s1,s2,s1)\n";
    case("fifteen arguments", &deck(&[15, 0, 0, 257], &[&clause]), &[3, X], start)
}

/// p of 15 constants, asked 31 times, of 465 variables.
fn many_variables() -> Case {
    let clause: Vec<u16> = (0..16).collect();
    let literal = |first: u16| [0].into_iter().chain((0..15).map(move |at| X + first + at));
    let query: Vec<u16> = (0..31).flat_map(|at| literal(15 * at)).collect();
    let symbols = [&[271][..], &[0; 15]].concat();
    let start = "all\nfinished 32 1 0 0 497\ns1 s2 s3 s4 s5 s6 s7 s8 s9 s10 s11 s12 s13 s14 s15 s1 ";
    case("465 variables", &deck(&symbols, &[&clause]), &query, start)
}

/// f/1, s/1, a; p(s(x), f(..f(y))) if p(x, y), with 100 times f; p(a, a).
/// Asked with 10 times s, so that the answer has 1,000 times f.
fn deep_term() -> Case {
    let clause = [vec![3, 1, X], vec![0; 100], vec![Y, 3, X, Y]].concat();
    let query = [vec![3], vec![1; 10], vec![2, X]].concat();
    let deck = deck(&[1, 1, 0, 258], &[&clause, &[3, 2, 2]]);
    case("a term of depth 1,000", &deck, &query, "all\nfinished 12 1 0 0 55\ns0(s0(s0(s0(")
}

/// Several answers, one to a line.
pub fn several() -> Vec<Case> {
    // nil, cons/2, a, b; append(nil, y, y) if list(y); append(cons(x, y), z, cons(x, w)) if item(x) and append(y, z, w).
    let append: [&[u16]; 2] = [&[4, 0, X, X, 5, X], &[4, 1, X, Y, Z, 1, X, Z + 1, 6, X, 4, Y, Z, Z + 1]];
    // list(nil); list(cons(x, y)) if item(x) and list(y); item(a); item(b).
    let list: [&[u16]; 4] = [&[5, 0], &[5, 1, X, Y, 6, X, 5, Y], &[6, 2], &[6, 3]];
    let lists = deck(&[0, 2, 0, 0, 259, 257, 257], &[&append[..], &list].concat());
    let split = [4, X, Y, 1, 2, 1, 3, 0];
    let text = "all\nfinished 17 3 0 0 67\ns0 s1(s2,s1(s3,s0))\ns1(s2,s0) s1(s3,s0)\ns1(s2,s1(s3,s0)) s0\n";
    vec![
        case("a list in two, three ways", &lists, &split, text),
        case("true three times", &deck(&[256], &[&[0], &[0], &[0]]), &[0], "all\nfinished 4 3 0 0 4\ntrue\ntrue\ntrue\n"),
        symbol_numbers(),
    ]
}

/// 4,096 symbols, of which p, the first, holds of some.
fn symbol_numbers() -> Case {
    let mut symbols = vec![0; 4_096];
    symbols[0] = 257;
    let clauses: Vec<[u16; 2]> = [9, 10, 100, 101, 999, 1_000, 1_001, 4_095].map(|number| [0, number]).to_vec();
    let clauses: Vec<&[u16]> = clauses.iter().map(|clause| &clause[..]).collect();
    let text = "all\nfinished 9 8 0 0 17\ns9\ns10\ns100\ns101\ns999\ns1000\ns1001\ns4095\n";
    case("4,096 symbols", &deck(&symbols, &clauses), &[0, X], text)
}
