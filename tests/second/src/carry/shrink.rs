//! Makes a failing case smaller while it still fails, and tells it.

use super::judge::{judge, Engine};
use super::vectors::{print, result};
use super::CarryCase;
use crate::world::World;

const MOST_TRIES: usize = 400;

/// One smaller case of a pass, by number.
type Pass = fn(&CarryCase, usize) -> Option<CarryCase>;

const PASSES: [Pass; 5] = [
    cut_goal,
    cut_clause,
    cut_store,
    cut_last_literal,
    lower_numbers,
];

pub fn small(engine: &dyn Engine, case: &CarryCase, what: &str) -> String {
    let mut small = case.clone();
    let mut tries = 0;
    let mut before = None;
    while before.as_ref() != Some(&small) {
        before = Some(small.clone());
        for pass in PASSES {
            let mut number = 0;
            while let Some(next) = pass(&small, number).filter(|_| tries < MOST_TRIES) {
                tries += 1;
                if next != small && judge(engine, &next).is_err() {
                    small = next;
                } else {
                    number += 1;
                }
            }
        }
    }
    let still = judge(engine, &small).expect_err("the small case differs");
    let (name, text) = (&case.name, print(&small, &result(&small)));
    format!("{name}: {what}\nmade small: {still}\n{text}")
}

/// Leaves out a goal; the store keeps its length.
fn cut_goal(case: &CarryCase, number: usize) -> Option<CarryCase> {
    let lengths = case.lengths();
    let length = *lengths.get(number)?;
    let at = lengths[..number].iter().sum::<usize>();
    let mut next = case.clone();
    next.store.drain(at..(at + length).min(case.store.len()));
    next.store.resize(case.store.len(), 0);
    if (number as u64) < case.given.pending {
        next.given.pending -= 1;
    } else {
        next.given.parked -= 1;
    }
    Some(next)
}

fn cut_clause(case: &CarryCase, number: usize) -> Option<CarryCase> {
    let mut world = World::take_apart(&case.deck, &[])?;
    if number >= world.clauses.len() {
        return None;
    }
    world.clauses.remove(number);
    let mut next = case.clone();
    next.deck = world.deck();
    Some(next)
}

/// Zeros after the goals, or a shorter store.
fn cut_store(case: &CarryCase, number: usize) -> Option<CarryCase> {
    let words = case.words();
    let mut next = case.clone();
    match number {
        0 => next.store[words..].fill(0),
        1 => next.store.truncate(words.max(1_024)),
        2 => next.store.truncate((case.store.len() / 2).max(1_024)),
        _ => return None,
    }
    Some(next)
}

/// Leaves out the last literal of a goal.
fn cut_last_literal(case: &CarryCase, number: usize) -> Option<CarryCase> {
    let lengths = case.lengths();
    let length = *lengths.get(number)?;
    let start = lengths[..number].iter().sum::<usize>();
    let world = World::take_apart(&case.deck, &[])?;
    let goal = case.store.get(start..start + length)?;
    let from = (2 + goal[1] as usize).min(length);
    let literals = world.pieces(&goal[from..]);
    let mut next = case.clone();
    if let Some(last) = literals.last() {
        let range = start + from + last.start..start + from + last.end;
        next.store[start] -= range.len() as u16;
        next.store.drain(range);
        next.store.resize(case.store.len(), 0);
    }
    Some(next)
}

fn lower_numbers(case: &CarryCase, number: usize) -> Option<CarryCase> {
    let mut next = case.clone();
    match number {
        0 => next.budget = 0,
        1 => next.budget /= 2,
        2 => next.budget = next.budget.saturating_sub(1),
        3 => next.answer_words = 0,
        4 => next.answer_words /= 2,
        5 => next.answer_words = next.answer_words.saturating_sub(1),
        6 => next.scratch_words = next.scratch_words.min(8_192),
        _ => return None,
    }
    Some(next)
}
