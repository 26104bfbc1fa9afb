//! Which rules rest on which (request U8): the least levels, or the lowest-numbered predicate on a chain through a "not" back to itself.
//!
//! Predicates that lead to each other form a component. A negated literal within one is such a chain; where there is none, levels are the
//! longest ways from component to component, counted in "nots".

mod case;
pub mod comparison;
pub mod judge;
pub mod program;
mod shrink;
pub mod slips;
pub mod vectors;

pub use case::LevelCase;

use crate::deck;

/// How many numbers are given.
pub const NUMBERS: usize = 4_096;

#[derive(Clone, Debug, PartialEq, Eq)]
pub struct Levels {
    /// By symbol, always as many.
    pub numbers: Vec<u16>,
    /// The predicate that is named.
    pub circular: Option<u16>,
}

/// A body literal: the clause's predicate and its own.
#[derive(Clone, Copy, Debug)]
struct Step {
    from: usize,
    to: usize,
    negated: bool,
}

/// The levels of a deck, or the refusal 1 to 5.
pub fn levels(deck: &[u16]) -> Result<Levels, u32> {
    let deck = deck::open(deck)?;
    Ok(solve(deck.symbols.len(), &steps(&deck)))
}

fn steps(deck: &deck::Deck) -> Vec<Step> {
    let literals = deck.clauses.iter().flat_map(|clause| {
        let from = clause.head.symbol as usize;
        clause.body.iter().map(move |literal| (from, literal))
    });
    let step = |(from, literal): (usize, &crate::terms::Literal)| Step {
        from,
        to: literal.atom.symbol as usize,
        negated: literal.negated,
    };
    literals.map(step).collect()
}

fn solve(symbols: usize, steps: &[Step]) -> Levels {
    let component = components(symbols, steps);
    let within = |step: &&Step| component[step.from] == component[step.to];
    let mut circular = vec![false; symbols];
    for step in steps.iter().filter(within).filter(|step| step.negated) {
        circular[component[step.from]] = true;
    }
    let named = (0..symbols).find(|symbol| circular[component[*symbol]]);
    let mut numbers = vec![0; NUMBERS];
    if named.is_none() {
        let highest = longest(symbols, &component, steps);
        (0..symbols).for_each(|symbol| numbers[symbol] = highest[component[symbol]]);
    }
    let circular = named.map(|symbol| symbol as u16);
    Levels { numbers, circular }
}

/// For each component the most "nots" of a way from it. A step leads to its own component or to a later one.
fn longest(symbols: usize, component: &[usize], steps: &[Step]) -> Vec<u16> {
    let mut order: Vec<&Step> = steps.iter().collect();
    order.sort_by_key(|step| std::cmp::Reverse(component[step.from]));
    let mut highest = vec![0; symbols];
    for step in order {
        let (from, to) = (component[step.from], component[step.to]);
        highest[from] = highest[from].max(highest[to] + step.negated as u16);
    }
    highest
}

/// For each symbol the number of its component, numbered so that steps never lead to a lower number (Kosaraju).
fn components(symbols: usize, steps: &[Step]) -> Vec<usize> {
    let (mut after, mut before) = (vec![Vec::new(); symbols], vec![Vec::new(); symbols]);
    for step in steps {
        after[step.from].push(step.to);
        before[step.to].push(step.from);
    }
    let mut seen = vec![false; symbols];
    let mut left = Vec::new();
    for symbol in 0..symbols {
        walk(symbol, &after, &mut seen, &mut left);
    }
    seen.fill(false);
    let mut component = vec![0; symbols];
    let mut number = 0;
    for symbol in left.into_iter().rev() {
        let mut members = Vec::new();
        walk(symbol, &before, &mut seen, &mut members);
        number += !members.is_empty() as usize;
        members.iter().for_each(|member| component[*member] = number - 1);
    }
    component
}

/// Goes depth first through what was not seen, and lists each symbol when it is left.
fn walk(start: usize, edges: &[Vec<usize>], seen: &mut [bool], left: &mut Vec<usize>) {
    if std::mem::replace(&mut seen[start], true) {
        return;
    }
    let mut way = vec![(start, 0)];
    while let Some((symbol, at)) = way.last_mut() {
        match edges[*symbol].get(*at) {
            None => {
                left.push(*symbol);
                way.pop();
            }
            Some(&next) => {
                *at += 1;
                if !std::mem::replace(&mut seen[next], true) {
                    way.push((next, 0));
                }
            }
        }
    }
}
