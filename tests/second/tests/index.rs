//! Long lists of clauses (request U7): what is tried is what is paid. Random cases reach rows at every stop and refusal.

use second::random::case_of;
use second::rights::no_bars;
use second::vectors::{result, Expected};
use second::world::World;
use second::{Case, Stop};
use std::collections::BTreeSet;

const X: u16 = 32_768;
/// After the functors c0 to c39.
const P: u16 = 40;
const E: u16 = 41;

/// p(c0), and on from there to the last of so many, and again from p(c0).
fn facts(count: u16, of: u16) -> Vec<Vec<u16>> {
    (0..count).map(|at| vec![P, at % of]).collect()
}

/// Stop, steps, answers, pending, parked, cost.
fn run(clauses: Vec<Vec<u16>>, query: &[u16], budget: u32) -> String {
    let mut symbols = vec![0; 40];
    symbols.extend([257, 257, 1, 258, 256]);
    let world = World {
        symbols,
        clauses,
        ..World::default()
    };
    let case = Case {
        name: String::new(),
        deck: world.deck(),
        query: query.to_vec(),
        bars: no_bars(&world.deck()),
        budget,
        answer_words: 8_192,
        store_words: 16_384,
        scratch_words: 8_192,
    };
    let Expected::Ran(ran) = result(&case) else {
        panic!("refused");
    };
    let [answers, pending, parked] = ran.counts;
    format!(
        "{} {} {answers} {pending} {parked} {}",
        ran.stop, ran.steps, ran.cost
    )
}

const ALL: u32 = 100_000;

#[test]
fn rows_from_65_clauses_on() {
    assert_eq!(run(facts(64, 40), &[P, 0], ALL), "finished 3 2 0 0 67");
    assert_eq!(run(facts(65, 40), &[P, 0], ALL), "finished 3 2 0 0 8");
    assert_eq!(run(facts(65, 40), &[P, 8], ALL), "finished 3 2 0 0 7");
}

#[test]
fn budgets_between() {
    assert_eq!(run(facts(65, 40), &[P, 8], 6), "budget 2 1 1 0 6");
    assert_eq!(run(facts(65, 40), &[P, 8], 5), "budget 1 0 2 0 5");
    assert_eq!(run(facts(65, 40), &[P, 8], 4), "budget 0 0 1 0 0");
}

#[test]
fn a_variable_tries_all() {
    let all = run(facts(65, 40), &[P, X], ALL);
    assert_eq!(all, "finished 66 65 0 0 131");
}

#[test]
fn an_empty_row_and_a_shared_one() {
    assert_eq!(run(facts(65, 1), &[P, 1], ALL), "finished 1 0 0 0 1");
    assert_eq!(run(facts(64, 1), &[P, 1], ALL), "finished 1 0 0 0 65");
    assert_eq!(run(facts(65, 1), &[P, 16], ALL), "finished 1 0 0 0 66");
    assert_eq!(run(facts(65, 1), &[P, 16], 65), "budget 0 0 1 0 0");
}

#[test]
fn a_head_with_a_variable_is_in_each_row() {
    let mut clauses = facts(64, 1);
    clauses.push(vec![P, X, E, X]);
    assert_eq!(run(clauses.clone(), &[P, 1], ALL), "finished 2 0 0 0 3");
    assert_eq!(run(clauses, &[P, 15], ALL), "finished 2 0 0 0 3");
}

/// Symbol 42 is a functor of one argument, in row 10 with c10 and c26.
#[test]
fn a_term_has_the_row_of_its_functor() {
    const F: u16 = 42;
    let mut clauses = facts(64, 40);
    clauses.push(vec![P, F, 0]);
    assert_eq!(run(clauses.clone(), &[P, F, 0], ALL), "finished 2 1 0 0 7");
    assert_eq!(run(clauses, &[P, 10], ALL), "finished 3 2 0 0 7");
}

/// Symbol 43 is a predicate of two arguments; only the first one has rows.
#[test]
fn only_the_first_argument_counts() {
    const Q: u16 = 43;
    let clauses: Vec<Vec<u16>> = (0..65).map(|at| vec![Q, at % 40, 1]).collect();
    let second = run(clauses.clone(), &[Q, X, 2], ALL);
    assert_eq!(second, "finished 1 0 0 0 131");
    assert_eq!(run(clauses, &[Q, 0, X], ALL), "finished 3 2 0 0 10");
}

/// Symbol 44 is a predicate without arguments: it has no rows, and its clauses cost nothing.
#[test]
fn a_proposition_has_no_rows() {
    let clauses = vec![vec![44]; 65];
    assert_eq!(run(clauses, &[44], ALL), "finished 66 65 0 0 66");
}

/// A not looks up its row on its own level.
#[test]
fn a_not_over_a_long_list() {
    let not_p = 16_384 + P;
    assert_eq!(run(facts(65, 40), &[not_p, 39], ALL), "finished 3 0 0 0 8");
    assert_eq!(run(facts(65, 39), &[not_p, 39], ALL), "finished 3 1 0 0 7");
}

/// Every stop, mark 2, every refusal, and each kind of step over rows, in cases of long lists.
#[test]
fn random_cases_reach_rows() {
    let mut reached = BTreeSet::new();
    for seed in 0..6_000 {
        match case_of("rows", seed).run() {
            Err(number) => drop(reached.insert(format!("refused {number}"))),
            Ok(outcome) if outcome.watch.rows.get() == 0 => {}
            Ok(outcome) => {
                let watch = &outcome.watch;
                reached.insert(format!("{:?}", outcome.stop));
                let unpaid = outcome.stop == Stop::Budget && watch.left > 0;
                let labels = [
                    (watch.empty_rows.get() > 0, "an empty row"),
                    (watch.deepest > 2, "level 3"),
                    (watch.parked[2] > 0, "mark 2"),
                    (unpaid, "a step not paid"),
                    (unpaid && watch.cut > 0, "an inner step not paid"),
                ];
                let labels = labels.iter().filter(|(so, _)| *so);
                reached.extend(labels.map(|(_, label)| label.to_string()));
            }
        }
    }
    let refusals = (1..=9).chain(13..=16);
    let mut wanted: BTreeSet<String> = refusals.map(|number| format!("refused {number}")).collect();
    let others = [
        "Finished",
        "Budget",
        "Answers",
        "Store",
        "an empty row",
        "level 3",
        "mark 2",
        "a step not paid",
        "an inner step not paid",
    ];
    wanted.extend(others.map(String::from));
    assert_eq!(reached, wanted);
}
