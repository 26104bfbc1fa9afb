//! `compare [cases] [first seed]`: document 01's runs and the vectors, then random cases. A difference ends it, with the case made small.

use compare::Leads;
use second::judge::{judge, Engine, Lent, Report};
use second::random::case;
use second::rights::{no_bars, pairs};
use second::shrink::shrink;
use second::vectors::{parse, print, result};
use second::world::World;
use second::Case;
use std::time::{Duration, Instant};

fn main() {
    let mut arguments = std::env::args().skip(1);
    let mut number = |otherwise: u64| {
        let argument = arguments.next();
        argument.map_or(otherwise, |text| text.parse().expect("a number"))
    };
    let (cases, first) = (number(100_000), number(0));
    let vectors = vectors();
    deepest();
    symbols();
    let start = Instant::now();
    std::thread::scope(|scope| {
        for odd in 0..2 {
            scope.spawn(move || {
                for seed in (first + odd..first + cases).step_by(2) {
                    let case = case(seed);
                    hold(&case);
                    if seed % 4 < 2 {
                        hold_pair(&case, seed);
                    }
                }
            });
        }
    });
    println!("{vectors} runs of the vectors and {cases} random cases agree, {:.0?}", start.elapsed());
}

/// The runs with stated results: both evaluators must give them.
fn vectors() -> usize {
    let path = concat!(env!("CARGO_MANIFEST_DIR"), "/../vectors/runs.txt");
    let text = std::fs::read_to_string(path).expect("the vectors");
    let runs = parse(&text).expect("the form of the vectors");
    for (case, expected) in &runs {
        assert!(result(case) == *expected, "the second evaluator differs on {}", case.name);
        hold(case);
    }
    runs.len()
}

/// The cases that go deepest: nested levels, long chains of variables, doubled terms.
fn deepest() {
    let (a, f, g, p, q, e, r, s, t) = (0, 1, 2, 3, 4, 5, 6, 7, 8);
    let (x, y, not) = (32768, 32769, 16384);
    // Symbols: a/0 f/1 g/2 p/1 q/2 e/2 r/1 s/1 t/1. p(x) if not q(x, x), t(x). q(y, y) if not p(y), t(y). r(x) if not s(x), t(x).
    // s(x) if not r(x), t(x). e(x, x) if t(x). e(g(x, y), y) if t(x), t(y). t(a). t(f(x)) if t(x). t(g(x, y)) if t(x), t(y).
    let world = World {
        symbols: vec![0, 1, 2, 257, 258, 258, 257, 257, 257],
        clauses: vec![
            vec![p, x, not + q, x, x, t, x],
            vec![q, x, x, not + p, x, t, x],
            vec![r, x, not + s, x, t, x],
            vec![s, x, not + r, x, t, x],
            vec![e, x, x, t, x],
            vec![e, g, x, y, y, t, x, t, y],
            vec![t, a],
            vec![t, f, x, t, x],
            vec![t, g, x, y, t, x, t, y],
        ],
        ..World::default()
    };
    let deck = world.deck();
    let nested = |times: usize| [vec![f; times], vec![a]].concat();
    // 32 levels, each on the deepest terms that a goal of the clause can have: twice the term, or three times and matched with itself.
    hold(&roomy("32 levels", &deck, [vec![r], nested(498)].concat()));
    hold(&roomy("32 levels, matched", &deck, [vec![p], nested(338)].concat()));
    hold(&roomy("two deepest terms", &deck, [vec![e], nested(248), nested(248)].concat()));
    // x0 = x1, x1 = x2, ..: the longest chain of variables that a query can ask for, and the same backwards.
    for turned in [false, true] {
        let list = |from: u16| (0..124).flat_map(move |k| [g, x + from + k]).chain([a]).collect::<Vec<u16>>();
        let (left, right) = if turned { (list(1), list(0)) } else { (list(0), list(1)) };
        let numbered = renumbered([vec![e], left, right].concat());
        hold(&Case { budget: 1_000, ..roomy("a chain of variables", &deck, numbered) });
    }
    doubled();
    vast();
    rows();
    number_rows();
}

/// A small deck of format 2: each word of its header and of its symbols is every word there is, and every two numbers have equal values.
fn symbols() {
    let (n, p, x) = (512, 257, 32768);
    let world = World {
        symbols: vec![n, 0, p, n, 1, n],
        values: Some(vec![7, 0, 0, 65_501, 0, 32_768]),
        clauses: vec![vec![2, 0], vec![2, 4, 3]],
        query: vec![2, x],
    };
    let deck = world.deck();
    let query = world.query.clone();
    for at in 0..8 + 2 * world.symbols.len() {
        let mut other = deck.clone();
        for word in 0..=u16::MAX {
            other[at] = word;
            let (found, expected) = (Leads.open(&other), second::open(&other));
            assert!(found == expected, "word {at} is {word}: opening gives {found}, and not {expected}");
        }
        for bit in 0..16 {
            other[at] = deck[at] ^ (1 << bit);
            let sizes = Case { budget: 50, store_words: 1_024, ..roomy("a word of a symbol", &deck, query.clone()) };
            hold(&Case { deck: other.clone(), ..sizes });
        }
    }
    for (one, other) in (0..40).flat_map(|one| (0..40).map(move |other| (one, other))) {
        let mut values: Vec<u16> = (0..40).map(|at| at * 1_000).collect();
        values[one] = values[other];
        let world = World { symbols: vec![n; 40], values: Some(values), ..World::default() };
        let (other, bars) = (world.deck(), no_bars(&world.deck()));
        hold(&Case { deck: other, bars, store_words: 1_024, ..roomy("two numbers", &deck, Vec::new()) });
    }
}

/// As `rows`, over numbers whose values would give other rows than their symbols.
fn number_rows() {
    let (p, node, x) = (40, 41, 32768);
    for count in (60..=70).chain([128, 129, 200, 1_000]) {
        let mut clauses: Vec<Vec<u16>> = (0..count).map(|at| vec![p, at * 7 % 40]).collect();
        clauses.extend((0..40).map(|name| vec![node, name]));
        let values = (0..40).map(|name: u16| name.wrapping_mul(4_099) ^ 0x8005);
        let world = World {
            symbols: [vec![512; 40], vec![257, 257]].concat(),
            values: Some(values.collect()),
            clauses,
            ..World::default()
        };
        let deck = world.deck();
        hold(&roomy("rows of numbers", &deck, vec![node, x, p, x]));
        hold(&roomy("a number", &deck, vec![p, 33]));
    }
}

/// p(x1, .., xn) against p(f(y1, y1), .., f(yn, yn)) if t(y1), .., t(yn), and with each x tied to the next.
fn doubled() {
    let (f, p, t, a) = (0, 1, 2, 3);
    for n in 1..=15u16 {
        let tied = |at: u16| vec![f, 32768 + at, 32768 + at];
        let held = (0..n).flat_map(|at| [t, 32768 + at]);
        let clause: Vec<u16> = [p].into_iter().chain((0..n).flat_map(tied)).chain(held).collect();
        let world = World { symbols: vec![2, 256 + n, 257, 0], clauses: vec![clause, vec![t, a]], ..World::default() };
        let deck = world.deck();
        let apart = (0..n).map(|k| 32768 + k);
        hold(&roomy("doubled", &deck, [p].into_iter().chain(apart).collect()));
        let next = (0..n).flat_map(|k| if k == 0 { vec![32768] } else { vec![f, 32768 + k - 1, 32768 + k] });
        hold(&roomy("doubled and tied", &deck, renumbered([p].into_iter().chain(next).collect())));
    }
}

/// A term doubled 60 times and set equal to itself: e(list, list) against e(x, x) if t(x). With any budget that a hut laptop has the call returns at once.
fn vast() {
    let (a, f, g, e, t, x) = (0, 1, 2, 3, 4, 32768);
    let world = World { symbols: vec![0, 2, 2, 258, 257], clauses: vec![vec![e, x, x, t, x]], ..World::default() };
    let deck = world.deck();
    for times in [1, 2, 3, 9, 14, 15, 16, 30, 60, 75] {
        let left = (0..times).chain([0]).flat_map(|at| [g, x + at]).chain([a]);
        let right = (0..times).flat_map(|at| [g, f, x + at + 1, x + at + 1]).chain([g, x, a]);
        let query = renumbered([e].into_iter().chain(left).chain(right).collect());
        for budget in [0, 1, 2, 10, 65_568, 65_569, 65_570, 100_000] {
            let case = Case { budget, ..roomy("vast", &deck, query.clone()) };
            let time = (0..3).map(|_| timed(&case)).min().expect("three");
            assert!(time < MOST_TIME, "{times} doublings with a budget of {budget} took {time:.1?}");
            hold(&case);
        }
    }
}

/// node(x), p(x) over 40 nodes: each of them is looked up among so many clauses about p, one of which begins with a variable.
fn rows() {
    let (p, node, x) = (40, 41, 32768);
    let edges = [255, 256, 257, 319, 320, 321, 1_000, 2_000, 5_000];
    for count in (1..=200).chain(edges) {
        let mut clauses: Vec<Vec<u16>> = (0..count).map(|at| vec![p, at * 7 % 40]).collect();
        clauses[count as usize / 2] = vec![p, x, node, x];
        clauses.extend((0..40).map(|name| vec![node, name]));
        let world = World { symbols: [vec![0; 40], vec![257, 257]].concat(), clauses, ..World::default() };
        let deck = world.deck();
        hold(&roomy("rows", &deck, vec![node, x, p, x]));
        hold(&roomy("all clauses", &deck, vec![p, x, node, x]));
    }
}

/// What a call takes that walks 100,000 equations at most.
const MOST_TIME: Duration = Duration::from_millis(400);

fn timed(case: &Case) -> Duration {
    let (mut answers, mut store, mut scratch) = (vec![0; case.answer_words], vec![0; case.store_words], vec![0; case.scratch_words]);
    let lent = Lent { answers: &mut answers, store: &mut store, scratch: &mut scratch };
    let start = Instant::now();
    Leads.run(&case.deck, &case.query, &case.bars, case.budget, lent, &mut Report::default());
    start.elapsed()
}

/// The query with its variables numbered by first appearance.
fn renumbered(query: Vec<u16>) -> Vec<u16> {
    let mut seen: Vec<u16> = Vec::new();
    let number = |cell: u16| {
        if cell < 32768 {
            return cell;
        }
        let place = seen.iter().position(|&c| c == cell).unwrap_or_else(|| {
            seen.push(cell);
            seen.len() - 1
        });
        32768 + place as u16
    };
    query.into_iter().map(number).collect()
}

fn roomy(name: &str, deck: &[u16], query: Vec<u16>) -> Case {
    assert!(second::check(deck, &query) == 0, "{name} is accepted");
    let (name, deck) = (name.to_string(), deck.to_vec());
    let (budget, answer_words, store_words, scratch_words) = (100_000, 8192, 65_535, 8192);
    Case { name, bars: no_bars(&deck), deck, query, budget, answer_words, store_words, scratch_words }
}

/// Two decks that differ only behind predicates that are barred to the member: the engine gives the same.
fn hold_pair(case: &Case, seed: u64) {
    if let Err(what) = pairs::judge(&Leads, case, seed) {
        println!("{}, two decks: {what}", case.name);
        std::process::exit(1);
    }
}

fn hold(case: &Case) {
    let Err(what) = judge(&Leads, case) else {
        return;
    };
    let small = shrink(case.clone(), &|smaller| judge(&Leads, smaller).is_err());
    let still = judge(&Leads, &small).expect_err("the small case differs");
    println!("{}: {what}", case.name);
    println!("made small: {still}");
    println!("{}", print(&small, &result(&small)));
    std::process::exit(1);
}
