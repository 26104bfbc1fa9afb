//! Worlds without loose variables (request U5), and worlds with some.

use super::dice::Dice;
use crate::terms::{NEGATED, VARIABLE};
use crate::world::{renumber, World};

const MOST_WORDS: usize = 16_384;
const MOST_SYMBOLS: usize = 4_096;
const MOST_CLAUSE: usize = 256;
const MOST_QUERY: usize = 500;

/// How the loose variables of a world are dealt with.
#[derive(Clone, Copy)]
pub enum Ways {
    /// Each way at times.
    Any,
    /// A literal more, where there is room: terms and goals stay as they are.
    Literals,
}

/// The variables that are in no positive literal of a query, or of a clause's body.
pub fn loose(world: &World, cells: &[u16], clause: bool) -> Vec<u16> {
    let held = held(world, cells, clause);
    let mut found: Vec<u16> = Vec::new();
    for cell in cells.iter().filter(|cell| **cell >= VARIABLE) {
        if !held.contains(cell) && !found.contains(cell) {
            found.push(*cell);
        }
    }
    found
}

fn held(world: &World, cells: &[u16], clause: bool) -> Vec<u16> {
    let pieces = world.pieces(cells).into_iter().skip(clause as usize);
    let positive = pieces.filter(|piece| cells[piece.start] < NEGATED);
    let cells = positive.flat_map(|piece| &cells[piece]).copied();
    cells.filter(|cell| *cell >= VARIABLE).collect()
}

/// Loose variables are held by literals, tied to variables that are held, or give way to constants.
/// Where there is room for none of this they stay.
pub fn make_tight(dice: &mut Dice, world: &mut World, ways: Ways) {
    let loose_clause = |clause: &Vec<u16>| !loose(world, clause, true).is_empty();
    if !world.clauses.iter().any(loose_clause) && loose(world, &world.query, false).is_empty() {
        return;
    }
    let holder = Holder::new(dice, world, ways);
    let mut room = MOST_WORDS.saturating_sub(world.deck().len());
    for at in 0..world.clauses.len() {
        let cells = world.clauses[at].len();
        let clause = holder.part(dice, world, at, MOST_CLAUSE.min(cells + room));
        room -= clause.len().saturating_sub(cells);
        world.clauses[at] = clause;
    }
    world.query = holder.part(dice, world, world.clauses.len(), MOST_QUERY);
}

/// The predicate whose literals hold variables, if there is one, and the constants.
struct Holder {
    predicate: Option<(u16, usize)>,
    constants: Vec<u16>,
    ways: Ways,
}

impl Holder {
    fn new(dice: &mut Dice, world: &mut World, ways: Ways) -> Holder {
        let own = dice.chance(1, 5);
        let predicates: Vec<u16> = world.of_kind(|word| word > 256);
        let room = MOST_WORDS.saturating_sub(world.deck().len());
        let fresh = world.symbols.len() < MOST_SYMBOLS - 1 && room > 300;
        let predicate = if !predicates.is_empty() && (own || !fresh) {
            Some(*dice.pick(&predicates))
        } else {
            fresh.then(|| new_predicate(dice, world))
        };
        let arity = |number| (number, world.arity(number));
        Holder {
            predicate: predicate.map(arity),
            constants: world.of_kind(|word| word == 0),
            ways,
        }
    }

    /// A clause, or the query as the part after the last clause, of at most so many cells.
    fn part(&self, dice: &mut Dice, world: &World, at: usize, most: usize) -> Vec<u16> {
        let clause = at < world.clauses.len();
        let cells = world.clauses.get(at).unwrap_or(&world.query);
        let loose_here = loose(world, cells, clause);
        if loose_here.is_empty() {
            return cells.clone();
        }
        let first = match self.ways {
            Ways::Literals => 0,
            Ways::Any => dice.weighted(&[6, 2, 2]),
        };
        for way in [first, 0, 1, 2] {
            let next = match way {
                0 => self.guarded(dice, world, cells, clause, &loose_here),
                1 => tied(dice, cells, &loose_here, &held(world, cells, clause)),
                _ => tied(dice, cells, &loose_here, &self.constants),
            };
            if next.len() <= most && loose(world, &next, clause).is_empty() {
                return next;
            }
        }
        cells.clone()
    }

    /// Literals more, somewhere in the body.
    fn guarded(
        &self,
        dice: &mut Dice,
        world: &World,
        cells: &[u16],
        clause: bool,
        loose_here: &[u16],
    ) -> Vec<u16> {
        let Some((predicate, arity)) = self.predicate else {
            return cells.to_vec();
        };
        let wrap = dice.chance(1, 6);
        let functors = world.of_kind(|word| (1..16).contains(&word));
        let mut literals = Vec::new();
        for variable in loose_here {
            let functor = Some(&functors).filter(|list| wrap && !list.is_empty());
            literals.push(predicate);
            for _ in 0..arity {
                let functor = functor.map(|list| *dice.pick(list));
                let times = functor.map_or(1, |functor| world.arity(functor));
                literals.extend(functor);
                literals.extend(vec![*variable; times]);
            }
        }
        let mut ends: Vec<usize> = world.pieces(cells).iter().map(|piece| piece.end).collect();
        if !clause {
            ends.push(0);
        }
        let at = *dice.pick(&ends);
        let mut next = [&cells[..at], &literals, &cells[at..]].concat();
        renumber(&mut next);
        next
    }
}

/// Each loose variable gives way to one of these cells.
fn tied(dice: &mut Dice, cells: &[u16], loose_here: &[u16], among: &[u16]) -> Vec<u16> {
    let mut next = cells.to_vec();
    if among.is_empty() {
        return next;
    }
    for variable in loose_here {
        let by = *dice.pick(among);
        let places = next.iter_mut().filter(|cell| *cell == variable);
        places.for_each(|cell| *cell = by);
    }
    renumber(&mut next);
    next
}

/// A predicate of one place: of nothing, of a few constants, or of every term of the deck.
fn new_predicate(dice: &mut Dice, world: &mut World) -> u16 {
    if !world.symbols.contains(&0) && dice.chance(1, 2) {
        world.symbols.push(0);
    }
    let holds = world.symbols.len() as u16;
    world.symbols.push(257);
    let of_terms = dice.chance(1, 2);
    if dice.chance(1, 8) {
        return holds;
    }
    let constants = world.of_kind(|word| word == 0);
    let few = constants.len().min(dice.range(1, 5));
    world
        .clauses
        .extend(constants[..few].iter().map(|one| vec![holds, *one]));
    let functors = world.of_kind(|word| (1..16).contains(&word));
    for functor in functors.into_iter().take(4).filter(|_| of_terms) {
        let variables = (0..world.arity(functor)).map(|at| VARIABLE + at as u16);
        let mut clause = vec![holds, functor];
        clause.extend(variables.clone());
        clause.extend(variables.flat_map(|variable| [holds, variable]));
        world.clauses.push(clause);
    }
    holds
}

/// Half of the clauses, one clause alone, or the query gets a loose variable. At times nothing is asked.
pub fn loosen(dice: &mut Dice, world: &mut World) {
    let clauses = world.clauses.len();
    let query = clauses;
    if dice.chance(1, 10) {
        world.query.clear();
    }
    match dice.below(5) {
        0 | 1 => {
            world.clauses.truncate(dice.range(1, 6));
            for at in 0..world.clauses.len() {
                if dice.chance(1, 2) {
                    loosen_part(dice, world, at);
                }
            }
        }
        2 if clauses > 0 => {
            let any = dice.below(clauses);
            let at = *dice.pick(&[0, any, clauses - 1]);
            loosen_part(dice, world, at);
        }
        3 if clauses > 0 && dice.chance(1, 3) => {
            let at = dice.below(clauses);
            loosen_part(dice, world, at);
            loosen_part(dice, world, query);
        }
        _ => loosen_part(dice, world, query),
    }
}

/// A term of the head or of a negated literal becomes a new variable, or has one inside; or a positive literal is negated.
fn loosen_part(dice: &mut Dice, world: &mut World, part: usize) {
    let clause = part < world.clauses.len();
    let cells = world.clauses.get(part).unwrap_or(&world.query).clone();
    let most = if clause { MOST_CLAUSE } else { MOST_QUERY };
    let mut next = match dice.below(5) {
        0 => negated(dice, world, &cells, clause),
        1 => with_negated(dice, world, &cells),
        _ => with_variable(dice, world, &cells, clause),
    };
    renumber(&mut next);
    let grown = next.len().saturating_sub(cells.len());
    if next.len() <= most && (!clause || world.deck().len() + grown <= MOST_WORDS) {
        *world.clauses.get_mut(part).unwrap_or(&mut world.query) = next;
    }
}

/// A literal of the body with the other sign.
fn negated(dice: &mut Dice, world: &World, cells: &[u16], clause: bool) -> Vec<u16> {
    let mut next = cells.to_vec();
    let pieces = world.pieces(cells);
    let body = &pieces[(clause as usize).min(pieces.len())..];
    if !body.is_empty() {
        next[dice.pick(body).start] ^= NEGATED;
    }
    next
}

const NEW: u16 = VARIABLE + 1_023;

/// A negated literal more, with a new variable.
fn with_negated(dice: &mut Dice, world: &World, cells: &[u16]) -> Vec<u16> {
    let predicates = world.of_kind(|word| word > 256);
    let mut next = cells.to_vec();
    if !predicates.is_empty() {
        let predicate = *dice.pick(&predicates);
        next.push(NEGATED + predicate);
        next.extend(vec![NEW; world.arity(predicate)]);
    }
    next
}

fn with_variable(dice: &mut Dice, world: &World, cells: &[u16], clause: bool) -> Vec<u16> {
    let pieces = world.pieces(cells).into_iter().enumerate();
    let places = pieces.filter(|(number, piece)| {
        (clause && *number == 0) || (NEGATED..VARIABLE).contains(&cells[piece.start])
    });
    let terms: Vec<usize> = places
        .flat_map(|(_, piece)| piece.start + 1..piece.end)
        .collect();
    if terms.is_empty() {
        return with_negated(dice, world, cells);
    }
    let at = *dice.pick(&terms);
    let functors = world.of_kind(|word| (1..16).contains(&word));
    let mut term = vec![NEW];
    if !functors.is_empty() && dice.chance(1, 3) {
        let functor = *dice.pick(&functors);
        term = vec![NEW; world.arity(functor)];
        term.insert(0, functor);
    }
    [&cells[..at], &term, &cells[world.end(cells, at)..]].concat()
}
