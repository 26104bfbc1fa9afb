//! Single steps held against matching written as the document words it:
//! equations from the front of a list, the term put in everywhere. Those
//! taken are counted, the failing one included.

use second::rights::no_bars;
use second::random::Dice;
use second::world::{renumber, World};

const X: u16 = 32_768;

#[derive(Clone, Debug, PartialEq)]
enum Term {
    Variable(usize),
    Symbol(u16, Vec<Term>),
}

type Equations = Vec<(Term, Term)>;

fn read(world: &World, cells: &[u16], at: &mut usize, shift: usize) -> Term {
    let cell = cells[*at];
    *at += 1;
    if cell >= X {
        return Term::Variable((cell - X) as usize + shift);
    }
    let arity = world.arity(cell);
    let terms = (0..arity).map(|_| read(world, cells, at, shift));
    Term::Symbol(cell, terms.collect())
}

fn read_all(world: &World, cells: &[u16], shift: usize) -> Vec<Term> {
    let mut at = 0;
    let mut terms = Vec::new();
    while at < cells.len() {
        terms.push(read(world, cells, &mut at, shift));
    }
    terms
}

fn contains(term: &Term, variable: usize) -> bool {
    match term {
        Term::Variable(other) => *other == variable,
        Term::Symbol(_, terms) => terms.iter().any(|term| contains(term, variable)),
    }
}

fn put(term: &Term, variable: usize, value: &Term) -> Term {
    match term {
        Term::Variable(other) if *other == variable => value.clone(),
        Term::Variable(_) => term.clone(),
        Term::Symbol(symbol, terms) => {
            let terms = terms.iter().map(|term| put(term, variable, value));
            Term::Symbol(*symbol, terms.collect())
        }
    }
}

/// The goal with the unifier put in, or none; and the equations taken.
fn matched(equations: Equations, goal: Vec<Term>) -> (Option<Vec<Term>>, u32) {
    let mut equations = equations;
    let mut goal = goal;
    let mut taken = 0;
    while !equations.is_empty() {
        taken += 1;
        match equations.remove(0) {
            (Term::Variable(a), Term::Variable(b)) if a == b => {}
            (Term::Variable(a), term) | (term, Term::Variable(a)) => {
                if contains(&term, a) {
                    return (None, taken);
                }
                for (left, right) in equations.iter_mut() {
                    *left = put(left, a, &term);
                    *right = put(right, a, &term);
                }
                goal = goal.iter().map(|one| put(one, a, &term)).collect();
            }
            (Term::Symbol(a, ones), Term::Symbol(b, others)) => {
                if a != b || ones.len() != others.len() {
                    return (None, taken);
                }
                equations.splice(0..0, ones.into_iter().zip(others));
            }
        }
    }
    (Some(goal), taken)
}

fn write(term: &Term, out: &mut Vec<u16>) {
    match term {
        Term::Variable(number) => out.push(X + *number as u16),
        Term::Symbol(symbol, terms) => {
            out.push(*symbol);
            terms.iter().for_each(|term| write(term, out));
        }
    }
}

/// The goals after one step on a query whose first literal is positive, and what the step costs.
fn derived(world: &World) -> (Vec<Vec<u16>>, u32) {
    let literals = read_all(world, &world.query, 0);
    let variables = world.query.iter().filter(|cell| **cell >= X).max();
    let variables = variables.map_or(0, |cell| (*cell - X) as usize + 1);
    let mut goals = Vec::new();
    let mut cost = 1;
    for clause in &world.clauses {
        let clause = read_all(world, clause, variables);
        let mut goal: Vec<Term> = (0..variables).map(Term::Variable).collect();
        goal.extend(literals[1..].iter().cloned());
        goal.extend(clause[1..].iter().cloned());
        let equations = vec![(literals[0].clone(), clause[0].clone())];
        let (goal, taken) = matched(equations, goal);
        goals.extend(goal.map(|goal| goal_words(&goal, variables)));
        // The literal and the head themselves are no equation.
        cost += taken - 1;
    }
    (goals, cost)
}

fn goal_words(goal: &[Term], variables: usize) -> Vec<u16> {
    let mut answer = Vec::new();
    goal[..variables]
        .iter()
        .for_each(|term| write(term, &mut answer));
    let mut cells = answer.clone();
    goal[variables..]
        .iter()
        .for_each(|term| write(term, &mut cells));
    renumber(&mut cells);
    let head = [cells.len() as u16 + 2, answer.len() as u16];
    [&head[..], &cells[..]].concat()
}

/// Symbols: a, b, f of 1, g of 2, p of 3, q of 1.
fn term(dice: &mut Dice, depth: usize, out: &mut Vec<u16>) {
    match dice.below(if depth == 0 { 4 } else { 7 }) {
        0 => out.push(dice.below(2) as u16),
        1..=3 => out.push(X + dice.below(4) as u16),
        4 => {
            out.push(2);
            term(dice, depth - 1, out);
        }
        _ => {
            out.push(3);
            term(dice, depth - 1, out);
            term(dice, depth - 1, out);
        }
    }
}

/// And one more for each variable, which holds it.
fn literals(dice: &mut Dice, more: usize) -> Vec<u16> {
    let mut cells = vec![4];
    for _ in 0..3 {
        term(dice, 3, &mut cells);
    }
    for _ in 0..more {
        cells.push(*dice.pick(&[5, 5, 16_384 + 5]));
        term(dice, 2, &mut cells);
    }
    renumber(&mut cells);
    let last = cells.iter().filter(|cell| **cell >= X).max().copied();
    for variable in last.map_or(X..X, |last| X..last + 1) {
        cells.extend([5, variable]);
    }
    cells
}

#[test]
fn single_steps_agree() {
    let mut matches = 0;
    for seed in 0..20_000 {
        let mut dice = Dice::new(seed);
        let world = World {
            symbols: vec![0, 0, 1, 2, 259, 257],
            clauses: (0..3).map(|more| literals(&mut dice, more)).collect(),
            query: literals(&mut dice, 1),
            ..World::default()
        };
        let (expected, cost) = derived(&world);
        let run = |budget| {
            let (deck, query) = (world.deck(), &world.query);
            let outcome = second::run(&deck, query, &no_bars(&deck), budget, 0, 65_535, 8_192);
            outcome.expect("a sound case")
        };
        let outcome = run(cost);
        assert_eq!((outcome.steps, outcome.cost), (1, cost), "seed {seed}");
        let short = run(cost - 1);
        assert_eq!((short.steps, short.cost), (0, 0), "seed {seed}");
        if expected.iter().all(|goal| goal.len() <= 1_024) {
            assert_eq!(outcome.pending, expected, "seed {seed}");
            matches += expected.len();
        }
    }
    assert!(matches > 10_000, "only {matches} matches");
}
