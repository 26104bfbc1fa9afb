//! Random previews: a random case's deck, and a clause that fits it, or nearly.

use super::dice::Dice;
use super::{case, members};
use crate::case::Case;
use crate::evaluation::Stop;
use crate::preview::PreviewCase;
use crate::terms::{NEGATED, VARIABLE};
use crate::world::{renumber, World};

/// A budget that most runs do not spend.
const MOST: u32 = 100_000;

/// The case of a seed; the same for ever.
pub fn preview_case(seed: u64) -> PreviewCase {
    let mut dice = Dice::new(seed ^ 0x9e37_79b9);
    let mut run = case(seed);
    let clause = match World::take_apart(&run.deck, &[]) {
        Some(world) => for_world(&mut dice, world, &mut run),
        None => words(&mut dice),
    };
    run.name.push_str("-preview");
    let mut made = PreviewCase { run, clause };
    if let Some(deck) = made.copy().filter(|_| dice.chance(3, 4)) {
        let copy = Case { deck, ..made.run.clone() };
        made.run.bars = members::for_query(&mut dice, &copy);
    }
    made.run.budget = at_most(&made);
    made
}

/// A budget that a run over the deck does not spend may be more than the one over the copy can ever spend: a clause can lead back to itself.
fn at_most(made: &PreviewCase) -> u32 {
    let Some(deck) = made.copy().filter(|_| made.run.budget > MOST) else {
        return made.run.budget;
    };
    let copy = Case { deck, budget: MOST, ..made.run.clone() };
    match copy.run() {
        Ok(outcome) if outcome.stop == Stop::Budget => MOST,
        _ => made.run.budget,
    }
}

/// A clause for the deck. At times it is taken out of the deck first, which then has it no more.
fn for_world(dice: &mut Dice, mut world: World, run: &mut Case) -> Vec<u16> {
    if dice.chance(1, 60) {
        return vec![dice.word(); dice.range(16_000, 66_000)];
    }
    let mut clause = match dice.weighted(&[6, 3, 5, 4, 1]) {
        0 if !world.clauses.is_empty() => {
            let at = dice.below(world.clauses.len());
            let clause = world.clauses.remove(at);
            run.deck = world.deck();
            clause
        }
        1 if !world.clauses.is_empty() => dice.pick(&world.clauses).clone(),
        2 => fact(dice, &world),
        4 => words(dice),
        _ => rule(dice, &world),
    };
    match dice.weighted(&[30, 2, 4]) {
        0 => {}
        1 => fill(dice, &world, &mut clause),
        _ => spoil(dice, &world, &mut clause),
    }
    clause
}

/// A predicate of constants; now and then of a variable.
fn fact(dice: &mut Dice, world: &World) -> Vec<u16> {
    let (predicates, constants) = (world.predicates(), world.constants());
    if predicates.is_empty() {
        return words(dice);
    }
    let head = *dice.pick(&predicates);
    let mut clause = vec![head];
    for _ in 0..world.arity(head) {
        let loose = constants.is_empty() || dice.chance(1, 25);
        clause.push(if loose { VARIABLE } else { *dice.pick(&constants) });
    }
    clause
}

/// A literal of some clause as the head, the bodies of others, and a "not" of what they name.
fn rule(dice: &mut Dice, world: &World) -> Vec<u16> {
    let all: Vec<Vec<u16>> = world.clauses.iter().flat_map(|clause| literals(world, clause)).collect();
    if all.is_empty() {
        return fact(dice, world);
    }
    let mut clause = dice.pick(&all).clone();
    clause[0] %= NEGATED;
    for _ in 0..dice.below(4) {
        let mut literal = dice.pick(&all).clone();
        if dice.chance(1, 4) {
            literal[0] = literal[0] % NEGATED + NEGATED;
        }
        clause.extend(literal);
    }
    let mut body: Vec<Vec<u16>> = literals(world, &clause);
    let held: Vec<u16> = body.drain(1..).filter(|one| one[0] < NEGATED).flatten().collect();
    let constants = world.constants();
    for cell in clause.iter_mut().filter(|cell| **cell >= VARIABLE) {
        if !held.contains(cell) && !constants.is_empty() && dice.chance(9, 10) {
            *cell = *dice.pick(&constants);
        }
    }
    renumber(&mut clause);
    clause
}

fn literals(world: &World, cells: &[u16]) -> Vec<Vec<u16>> {
    let pieces = world.pieces(cells).into_iter();
    let pieces = pieces.filter(|piece| cells[piece.start] < VARIABLE);
    pieces.map(|piece| cells[piece].to_vec()).collect()
}

/// Around 256 cells, by literals that are there already.
fn fill(dice: &mut Dice, world: &World, clause: &mut Vec<u16>) {
    let target = dice.range(254, 258);
    let tail = literals(world, clause);
    let shorter = |room: usize| tail.iter().filter(move |one| one.len() <= room);
    while clause.len() < target {
        let fitting: Vec<&Vec<u16>> = shorter(target - clause.len()).collect();
        match fitting.is_empty() {
            true => clause.push(0),
            false => clause.extend(*dice.pick(&fitting)),
        }
    }
}

/// One cell otherwise, one more, one less, none; or the head negated.
fn spoil(dice: &mut Dice, world: &World, clause: &mut Vec<u16>) {
    let at = dice.below(clause.len().max(1));
    let cell = match dice.below(4) {
        0 => dice.below(world.symbols.len() + 1) as u16,
        1 => NEGATED + dice.below(world.symbols.len() + 1) as u16,
        2 => VARIABLE + dice.below(4) as u16,
        _ => dice.word(),
    };
    match dice.below(6) {
        0 => clause.clear(),
        1 => clause.insert(at, cell),
        2 if !clause.is_empty() => {
            clause.remove(at);
        }
        3 if !clause.is_empty() => clause[0] = clause[0] % NEGATED + NEGATED,
        _ if !clause.is_empty() => clause[at] = cell,
        _ => {}
    }
}

fn words(dice: &mut Dice) -> Vec<u16> {
    (0..dice.below(8)).map(|_| dice.word()).collect()
}
