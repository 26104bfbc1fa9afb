//! Damage: each refusal, and words changed at random.

use super::dice::Dice;
use super::formats;
use crate::case::Case;
use crate::terms::{NEGATED, VARIABLE};
use crate::world::World;

/// One refusal aimed at, at times two; then the lower number must win.
pub fn damage(dice: &mut Dice, world: World, case: &mut Case) {
    let mut world = world;
    let mut aims = vec![aim(dice)];
    if dice.chance(1, 4) {
        aims.push(aim(dice));
    }
    for aim in &aims {
        damage_world(dice, *aim, &mut world);
    }
    case.deck = world.deck();
    case.query = world.query;
    for aim in &aims {
        damage_words(dice, *aim, case);
    }
}

/// Past the limits of the header in a deck that is else in order.
const LIMITS: usize = 10;
const AT_RANDOM: usize = 11;

/// A refusal's number, or one of the two above.
fn aim(dice: &mut Dice) -> usize {
    1 + dice.weighted(&[10, 6, 8, 6, 12, 4, 10, 4, 4, 3, 12])
}

fn damage_world(dice: &mut Dice, aim: usize, world: &mut World) {
    match aim {
        2 => formats::spoil(dice, world),
        4 => lengthen_clause(dice, world),
        5 => {
            if world.clauses.is_empty() {
                world.clauses.push(vec![dice.word()]);
            }
            let at = dice.below(world.clauses.len());
            let mut cells = std::mem::take(&mut world.clauses[at]);
            malform(dice, world, &mut cells, true);
            world.clauses[at] = cells;
        }
        6 => lengthen_query(dice, world),
        7 => {
            let mut cells = std::mem::take(&mut world.query);
            malform(dice, world, &mut cells, false);
            world.query = cells;
        }
        LIMITS if dice.chance(1, 2) => too_many_symbols(dice, world),
        LIMITS => too_many_words(dice, world),
        _ => {}
    }
}

fn too_many_symbols(dice: &mut Dice, world: &mut World) {
    world.clauses.truncate(20);
    world
        .symbols
        .resize(*dice.pick(&[4_096, 4_097, 4_097, 4_098]), 0);
}

/// Clauses added up to 16,384 words or just more.
fn too_many_words(dice: &mut Dice, world: &mut World) {
    let single = single_cell(world).unwrap_or_else(|| {
        world.symbols.push(256);
        world.symbols.len() as u16 - 1
    });
    let target = 16_384 + dice.below(3);
    let mut left = target.saturating_sub(world.deck().len());
    while left > 1 {
        let cells = (left - 1).min(256);
        let cells = if left == cells + 2 { cells - 1 } else { cells };
        world.clauses.push(vec![single; cells.max(1)]);
        left = left.saturating_sub(1 + cells.max(1));
    }
}

/// Whole literals added until a clause has over 256 cells, or just 256.
fn lengthen_clause(dice: &mut Dice, world: &mut World) {
    if world.clauses.is_empty() {
        return;
    }
    let at = dice.below(world.clauses.len());
    let mut clause = world.clauses[at].clone();
    let target = *dice.pick(&[256, 257, 257, 258, 300]);
    let literal = clause[..world.end(&clause, 0)].to_vec();
    let literal = if literal.is_empty() { vec![0] } else { literal };
    while clause.len() + literal.len() <= target {
        clause.extend(&literal);
    }
    if let Some(single) = single_cell(world) {
        clause.resize(target.max(clause.len()), single);
    } else if target > 256 {
        clause.extend(&literal);
    }
    world.clauses[at] = clause;
}

/// A predicate without arguments.
fn single_cell(world: &World) -> Option<u16> {
    let place = world.symbols.iter().position(|word| *word == 256);
    place.map(|number| number as u16)
}

fn lengthen_query(dice: &mut Dice, world: &mut World) {
    let target = *dice.pick(&[499, 500, 501, 501, 502, 700]);
    let mut literal = world.query.clone();
    if literal.is_empty() {
        literal = vec![single_cell(world).unwrap_or(0)];
    }
    while world.query.len() + literal.len() <= target {
        world.query.extend(&literal);
    }
    let rest = single_cell(world).unwrap_or(0);
    world.query.resize(target.max(world.query.len()), rest);
}

/// Cells that are no longer literals in order; at times they still are.
fn malform(dice: &mut Dice, world: &World, cells: &mut Vec<u16>, clause: bool) {
    if cells.is_empty() {
        cells.push(bad_cell(dice, world));
        return;
    }
    let at = dice.below(cells.len());
    match dice.below(9) {
        0 | 1 => cells[at] = bad_cell(dice, world),
        2 => drop(cells.remove(at)),
        3 => cells.truncate(at.max(1)),
        4 => cells.insert(at, cells[at]),
        5 if clause => cells[0] ^= NEGATED,
        6 => cells[0] = dice.below(world.symbols.len()) as u16,
        7 => swap_variables(cells),
        _ => misnumber(dice, cells),
    }
}

fn bad_cell(dice: &mut Dice, world: &World) -> u16 {
    let symbols = world.symbols.len() as u16;
    let number = dice.below(symbols as usize) as u16;
    let variable = VARIABLE + dice.below(4) as u16;
    *dice.pick(&[
        symbols,
        NEGATED - 1,
        NEGATED + symbols,
        NEGATED + number,
        number,
        variable,
        VARIABLE - 1,
        VARIABLE + 1_023,
        VARIABLE + 1_024,
        u16::MAX,
    ])
}

/// Variables 0 and 1 trade names.
fn swap_variables(cells: &mut [u16]) {
    for cell in cells.iter_mut() {
        if *cell / 2 == VARIABLE / 2 {
            *cell ^= 1;
        }
    }
}

fn misnumber(dice: &mut Dice, cells: &mut [u16]) {
    let places: Vec<usize> = (0..cells.len())
        .filter(|at| cells[*at] >= VARIABLE)
        .collect();
    if places.is_empty() {
        cells[0] = VARIABLE;
        return;
    }
    let at = *dice.pick(&places);
    cells[at] = cells[at].saturating_add(dice.range(1, 3) as u16);
}

fn damage_words(dice: &mut Dice, aim: usize, case: &mut Case) {
    match aim {
        1 | 3 if case.deck.len() < 8 => {}
        1 => damage_header(dice, &mut case.deck),
        3 => damage_starts(dice, &mut case.deck),
        8 => {
            let wrong = [0, 1, 512, 1_022, 1_023, 65_536, 65_537, 70_000];
            case.store_words = *dice.pick(&wrong);
        }
        9 => case.scratch_words = *dice.pick(&[0, 1, 4_096, 8_190, 8_191]),
        AT_RANDOM => {
            for _ in 0..dice.range(1, 3) {
                change_word(dice, case);
            }
        }
        _ => {}
    }
}

fn damage_header(dice: &mut Dice, deck: &mut Vec<u16>) {
    let at = dice.below(8);
    match dice.below(8) {
        0 => deck[at] = deck[at].wrapping_add(1),
        1 => deck[at] = deck[at].wrapping_sub(1),
        2 => deck[at] = dice.word(),
        3 => deck[at] = *dice.pick(&[0, 1, 8, 4_096, 4_097, 16_384, u16::MAX]),
        4 => deck.truncate(dice.range(0, 9)),
        5 => drop(deck.pop()),
        6 => deck.push(dice.word()),
        _ => no_symbols(deck),
    }
}

/// A deck of no symbols and no clauses, else in order.
fn no_symbols(deck: &mut Vec<u16>) {
    *deck = vec![deck[0], 0, 8, 0, 8, 0, 8, 8];
}

/// Where the clause starts are, by the deck's format and number of symbols.
fn clause_offset(deck: &[u16]) -> usize {
    8 + if deck[0] == 2 { 2 } else { 1 } * deck[1] as usize
}

fn damage_starts(dice: &mut Dice, deck: &mut Vec<u16>) {
    let (clauses, terms) = (deck[3] as usize, deck[5]);
    let first = clause_offset(deck);
    if clauses == 0 || deck.len() < first + clauses || dice.chance(1, 8) {
        return terms_without_clauses(dice, deck);
    }
    let at = first + dice.below(clauses);
    match dice.below(6) {
        0 => deck[first] = *dice.pick(&[1, 2, terms, u16::MAX]),
        1 => deck[at] = terms,
        2 => deck[at] = deck[at].wrapping_sub(1),
        3 => deck[at] = deck[(at - 1).max(first)],
        4 => deck[at] = dice.word(),
        _ => deck.swap(first, at),
    }
}

/// Cells, but no clause to hold them.
fn terms_without_clauses(dice: &mut Dice, deck: &mut Vec<u16>) {
    let end = clause_offset(deck).min(deck.len());
    deck.truncate(end);
    let cells = dice.range(1, 3) as u16;
    let offset = end as u16;
    let fields = [0, offset, cells, offset, offset + cells];
    deck[3..8].copy_from_slice(&fields);
    deck.resize(end + cells as usize, 0);
}

fn change_word(dice: &mut Dice, case: &mut Case) {
    let in_query = !case.query.is_empty() && dice.chance(1, 3);
    let words = if in_query {
        &mut case.query
    } else {
        &mut case.deck
    };
    if words.is_empty() {
        return;
    }
    let first = if dice.chance(1, 10) { 0 } else { 8 };
    let at = dice.range(first.min(words.len() - 1), words.len() - 1);
    words[at] = match dice.below(6) {
        0 => words[at].wrapping_add(1),
        1 => words[at].wrapping_sub(1),
        2 => words[at] ^ (1 << dice.below(16)),
        3 => words[dice.below(words.len())],
        4 => VARIABLE + dice.below(3) as u16,
        _ => dice.word(),
    };
}
