//! Makes a failing case smaller while it still fails.

use crate::case::Case;
use crate::rights::no_bars;
use crate::terms::{NEGATED, VARIABLE};
use crate::world::{renumber, World};

/// One candidate of a pass, by number.
enum Candidate {
    Past,
    Not,
    Try(Case),
}

type Pass = fn(&Case, usize) -> Candidate;

const PASSES: [Pass; 10] = [
    unbar,
    cut_clauses,
    cut_query_literal,
    cut_body_literal,
    lower_numbers,
    lift_term,
    cut_symbol,
    cut_deck_words,
    cut_query_words,
    zero_word,
];

/// Each step lowers the case's weight, so this ends.
pub fn shrink(case: Case, still_fails: &dyn Fn(&Case) -> bool) -> Case {
    let mut best = case;
    loop {
        let before = weight(&best);
        for pass in PASSES {
            best = run_pass(best, pass, still_fails);
        }
        if weight(&best) == before {
            return best;
        }
    }
}

fn run_pass(case: Case, pass: Pass, still_fails: &dyn Fn(&Case) -> bool) -> Case {
    let mut best = case;
    let mut number = 0;
    loop {
        match pass(&best, number) {
            Candidate::Past => return best,
            Candidate::Try(next) if weight(&next) < weight(&best) && still_fails(&next) => {
                best = next;
            }
            _ => number += 1,
        }
    }
}

fn weight(case: &Case) -> (usize, usize, u64) {
    let words = case.deck.iter().chain(&case.query);
    let sum = words.chain(&case.bars).map(|word| *word as u64).sum();
    let sizes = case.answer_words + case.store_words + case.scratch_words;
    let length = case.deck.len() + case.query.len() + case.bars.len();
    (length, case.budget as usize + sizes, sum)
}

fn with_world(case: &Case, world: World) -> Candidate {
    let mut next = case.clone();
    next.deck = world.deck();
    next.query = world.query;
    Candidate::Try(next)
}

fn apart(case: &Case) -> Option<World> {
    World::take_apart(&case.deck, &case.query)
}

/// Stretches of a list, longest first: all, halves, ... single places.
fn stretch(length: usize, number: usize) -> Option<std::ops::Range<usize>> {
    let mut size = length;
    let mut number = number;
    while size > 0 {
        let count = length.div_ceil(size);
        if number < count {
            let start = number * size;
            return Some(start..(start + size).min(length));
        }
        number -= count;
        size /= 2;
    }
    None
}

/// Nothing barred, or one predicate less.
fn unbar(case: &Case, number: usize) -> Candidate {
    let mut next = case.clone();
    match number {
        0 => next.bars = no_bars(&case.deck),
        at if at <= case.bars.len() => next.bars[at - 1] = 0,
        _ => return Candidate::Past,
    }
    Candidate::Try(next)
}

fn cut_clauses(case: &Case, number: usize) -> Candidate {
    let Some(mut world) = apart(case) else {
        return Candidate::Past;
    };
    let Some(range) = stretch(world.clauses.len(), number) else {
        return Candidate::Past;
    };
    world.clauses.drain(range);
    with_world(case, world)
}

fn cut_query_literal(case: &Case, number: usize) -> Candidate {
    let Some(mut world) = apart(case) else {
        return Candidate::Past;
    };
    let pieces = world.pieces(&world.query);
    let Some(piece) = pieces.get(number) else {
        return Candidate::Past;
    };
    world.query.drain(piece.clone());
    renumber(&mut world.query);
    with_world(case, world)
}

fn cut_body_literal(case: &Case, number: usize) -> Candidate {
    let Some(mut world) = apart(case) else {
        return Candidate::Past;
    };
    let mut number = number;
    for at in 0..world.clauses.len() {
        let pieces = world.pieces(&world.clauses[at]);
        let body = pieces.len().saturating_sub(1);
        if number >= body {
            number -= body;
            continue;
        }
        let piece = pieces[number + 1].clone();
        let clause = &mut world.clauses[at];
        clause.drain(piece);
        renumber(clause);
        return with_world(case, world);
    }
    Candidate::Past
}

/// Lower budget and buffer sizes.
fn lower_numbers(case: &Case, number: usize) -> Candidate {
    let mut next = case.clone();
    match number {
        0 => next.budget = 0,
        1 => next.budget /= 2,
        2 => next.budget = next.budget.saturating_sub(next.budget / 8),
        3 => next.budget = next.budget.saturating_sub(1),
        4 => next.answer_words = 0,
        5 => next.answer_words /= 2,
        6 => next.answer_words = next.answer_words.saturating_sub(1),
        7 => next.store_words = next.store_words.min(1_024),
        8 => next.store_words = (next.store_words / 2).max(1_024),
        9 => next.store_words = next.store_words.saturating_sub(1).max(1_024),
        10 => next.scratch_words = next.scratch_words.min(8_192),
        _ => return Candidate::Past,
    }
    Candidate::Try(next)
}

/// A term gives way to one of its arguments, or to variable 0.
fn lift_term(case: &Case, number: usize) -> Candidate {
    const WAYS: usize = 3;
    let Some(mut world) = apart(case) else {
        return Candidate::Past;
    };
    let mut place = number / WAYS;
    for at in 0..=world.clauses.len() {
        let part = world.clauses.get(at).unwrap_or(&world.query).clone();
        if place >= part.len() {
            place -= part.len();
            continue;
        }
        let Some(mut part) = lifted(&world, &part, place, number % WAYS) else {
            return Candidate::Not;
        };
        renumber(&mut part);
        *world.clauses.get_mut(at).unwrap_or(&mut world.query) = part;
        return with_world(case, world);
    }
    Candidate::Past
}

fn lifted(world: &World, cells: &[u16], at: usize, way: usize) -> Option<Vec<u16>> {
    let cell = cells[at];
    let symbol = world.symbols.get(cell as usize)?;
    if !(1..256).contains(symbol) {
        return None;
    }
    let end = world.end(cells, at);
    let first = world.end(cells, at + 1);
    let kept = match way {
        0 => vec![VARIABLE],
        1 => cells.get(at + 1..first)?.to_vec(),
        _ if first < end => cells[first..world.end(cells, first)].to_vec(),
        _ => return None,
    };
    Some([&cells[..at], &kept[..], &cells[end..]].concat())
}

/// Takes out a symbol that is used nowhere.
fn cut_symbol(case: &Case, number: usize) -> Candidate {
    let Some(mut world) = apart(case) else {
        return Candidate::Past;
    };
    if number >= world.symbols.len() {
        return Candidate::Past;
    }
    let symbol = number as u16;
    let names = |cell: &u16| *cell < VARIABLE && cell % NEGATED == symbol;
    let used = world
        .clauses
        .iter()
        .flatten()
        .chain(&world.query)
        .any(names);
    if world.symbols.len() == 1 || used {
        return Candidate::Not;
    }
    world.cut_symbol(number);
    for part in world.clauses.iter_mut().chain([&mut world.query]) {
        let later = |cell: &&mut u16| **cell < VARIABLE && **cell % NEGATED > symbol;
        part.iter_mut().filter(later).for_each(|cell| *cell -= 1);
    }
    let mut next = case.clone();
    if number < next.bars.len() {
        next.bars.remove(number);
    }
    with_world(&next, world)
}

fn cut_deck_words(case: &Case, number: usize) -> Candidate {
    let Some(range) = stretch(case.deck.len(), number) else {
        return Candidate::Past;
    };
    let mut next = case.clone();
    next.deck.drain(range);
    Candidate::Try(next)
}

fn cut_query_words(case: &Case, number: usize) -> Candidate {
    let Some(range) = stretch(case.query.len(), number) else {
        return Candidate::Past;
    };
    let mut next = case.clone();
    next.query.drain(range);
    renumber(&mut next.query);
    Candidate::Try(next)
}

fn zero_word(case: &Case, number: usize) -> Candidate {
    let mut next = case.clone();
    let words = case.deck.len();
    match number {
        at if at < words => next.deck[at] = 0,
        at if at < words + case.query.len() => next.query[at - words] = 0,
        _ => return Candidate::Past,
    }
    Candidate::Try(next)
}
