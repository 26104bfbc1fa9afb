//! Stores filled by hand and sizes for continued runs, fixed by their seeds.

mod damage;
mod limits;
mod shapes;

use super::dice::Dice;
use super::formats;
use super::members;
use super::rows::rows;
use super::sizes::near_a_step;
use super::texts::small_world;
use super::tight::{self, Ways};
use crate::carry::{CarryCase, Given};
use crate::rights::no_bars;
use crate::terms::VARIABLE;
use crate::world::{renumber, World};
pub use damage::{everywhere, lists, numbers};
pub use limits::limits;
pub use shapes::{shapes, Shape};

/// Goals of a random deck, at times damaged; the same for ever.
pub fn carry_case(seed: u64) -> CarryCase {
    let mut dice = Dice::new(seed ^ 0x5afe);
    let mut world;
    if dice.chance(1, 20) {
        world = rows(&mut dice);
        if dice.chance(1, 3) {
            loose_fact(&mut dice, &mut world);
        }
    } else {
        world = small_world(&mut dice);
        if dice.chance(14, 15) {
            tight::make_tight(&mut dice, &mut world, Ways::Any);
        }
    }
    formats::some(seed, &mut world);
    let mut case = filled(&mut dice, &world);
    case.name = format!("filled-{seed}");
    if dice.chance(1, 3) {
        tighten(&mut dice, &mut case);
    }
    if dice.chance(2, 5) {
        for _ in 0..*dice.pick(&[1, 1, 1, 2]) {
            damage::damage(&mut dice, &world, &mut case);
        }
        case.name.push_str("-damaged");
    }
    case.bars = members::for_goals(&mut Dice::new(seed ^ 0xba55), &case);
    case
}

/// A clause, wherever it stands, becomes a fact of variables.
fn loose_fact(dice: &mut Dice, world: &mut World) {
    let at = dice.below(world.clauses.len());
    let predicate = world.clauses[at][0];
    let variables = (0..world.arity(predicate)).map(|number| VARIABLE + number as u16);
    world.clauses[at] = [predicate].into_iter().chain(variables).collect();
}

fn filled(dice: &mut Dice, world: &World) -> CarryCase {
    let parts = Parts::new(world);
    let terms = *dice.pick(&[0, 0, 1, 1, 1, 2, 2, 3, 5, 20]);
    let pending = dice.range(0, 5);
    let parked = *dice.pick(&[0, 0, 1, 1, 2, 3, 6]);
    let mut store = Vec::new();
    for at in 0..pending + parked {
        let mark = if at < pending { 0 } else { dice.range(1, 4) };
        store.extend(parts.goal(dice, terms, mark as u16));
    }
    let length = store_words(dice, store.len());
    fill(dice, &mut store, length);
    CarryCase {
        name: String::new(),
        deck: world.deck(),
        store,
        given: Given {
            pending: pending as u64,
            parked: parked as u64,
            terms: terms as u64,
        },
        bars: no_bars(&world.deck()),
        budget: budget(dice),
        answer_words: answer_words(dice),
        scratch_words: *dice.pick(&[8_192, 8_192, 8_192, 8_193, 9_000]),
    }
}

/// Literals and terms to make goals of.
struct Parts {
    literals: Vec<Vec<u16>>,
    terms: Vec<Vec<u16>>,
}

const MOST_CELLS: usize = 1_022;

impl Parts {
    fn new(world: &World) -> Parts {
        let mut literals = Vec::new();
        let mut terms = vec![vec![VARIABLE], vec![VARIABLE + 1], vec![VARIABLE + 2]];
        for cells in world.clauses.iter().chain([&world.query]) {
            for piece in world.pieces(cells) {
                let literal = &cells[piece];
                terms.extend(
                    world
                        .pieces(&literal[1..])
                        .into_iter()
                        .map(|part| literal[1..][part].to_vec()),
                );
                literals.push(literal.to_vec());
            }
        }
        Parts { literals, terms }
    }

    fn goal(&self, dice: &mut Dice, terms: usize, mark: u16) -> Vec<u16> {
        let mut cells = Vec::new();
        for _ in 0..terms {
            let short = |term: &&Vec<u16>| term.len() <= 40;
            let term = Some(dice.pick(&self.terms)).filter(short);
            cells.extend(moved(dice, term.unwrap_or(&self.terms[0])));
        }
        let answer_cells = cells.len();
        let most = *dice.pick(&[0, 1, 1, 2, 2, 3, 5, 60]);
        for _ in 0..most {
            if self.literals.is_empty() {
                break;
            }
            let literal = any_sign(dice, &self.literals);
            let literal = moved(dice, &literal);
            if cells.len() + literal.len() <= MOST_CELLS {
                cells.extend(literal);
            }
        }
        renumber(&mut cells);
        goal(mark, answer_cells, &cells)
    }
}

/// A literal, at times with the other sign.
fn any_sign(dice: &mut Dice, literals: &[Vec<u16>]) -> Vec<u16> {
    let mut literal = dice.pick(literals).clone();
    if dice.chance(1, 6) {
        literal[0] ^= crate::terms::NEGATED;
    }
    literal
}

/// The variables' numbers moved up a little, so that parts share some.
fn moved(dice: &mut Dice, cells: &[u16]) -> Vec<u16> {
    let by = dice.below(4) as u16;
    let one = |cell: &u16| {
        if *cell >= VARIABLE {
            (VARIABLE + 1_023).min(cell + by)
        } else {
            *cell
        }
    };
    cells.iter().map(one).collect()
}

/// A goal's words.
pub fn goal(mark: u16, answer_cells: usize, cells: &[u16]) -> Vec<u16> {
    let mut words = vec![4_096 * mark + 2 + cells.len() as u16, answer_cells as u16];
    words.extend(cells);
    words
}

/// Words after the goals: nothing, anything, or goals again.
pub fn fill(dice: &mut Dice, store: &mut Vec<u16>, length: usize) {
    let goals = store.clone();
    match dice.below(4) {
        0 => {}
        1 => store.resize(store.len().max(length), 65_535),
        2 if !goals.is_empty() => {
            while store.len() < length {
                store.extend(&goals);
            }
        }
        _ => {
            let word = dice.word();
            store.extend((store.len()..length).map(|at| word.wrapping_mul(at as u16 | 1)));
        }
    }
    store.resize(length, 0);
}

pub fn budget(dice: &mut Dice) -> u32 {
    let cost = match dice.weighted(&[3, 5, 6, 4, 2]) {
        0 => dice.range(0, 2),
        1 => dice.range(3, 20),
        2 => dice.range(21, 200),
        3 => dice.range(201, 1_500),
        _ => dice.range(1_501, 8_000),
    };
    cost as u32
}

pub fn answer_words(dice: &mut Dice) -> usize {
    match dice.below(5) {
        0 => dice.range(0, 8),
        1 => dice.range(9, 60),
        2 => dice.range(61, 1_200),
        _ => 8_192,
    }
}

/// A store that has so many words of goals: just so long, a little longer, or long.
pub fn store_words(dice: &mut Dice, goals: usize) -> usize {
    let least = goals.clamp(1_024, 65_535);
    match dice.below(12) {
        0..=3 => least,
        4..=6 => (least + dice.range(1, 60)).min(65_535),
        7 | 8 => (least + dice.range(61, 2_000)).min(65_535),
        9 => 65_535,
        _ => least.max(16_384),
    }
}

/// Sets a size to where the run just fits, or one off.
fn tighten(dice: &mut Dice, case: &mut CarryCase) {
    let words = case.words();
    let mut generous = case.clone();
    generous.store.resize(65_535, 0);
    generous.answer_words = 8_192;
    let Ok(outcome) = generous.run() else {
        return;
    };
    let one_off = |dice: &mut Dice, number: usize| (number + dice.below(3)).saturating_sub(1);
    match dice.below(3) {
        0 => case.budget = near_a_step(dice, &outcome),
        1 => {
            let count = dice.range(0, outcome.answers.len());
            let words = outcome.answers[..count].iter().map(Vec::len).sum();
            *case = generous;
            case.answer_words = one_off(dice, words);
        }
        _ => {
            let held = one_off(dice, outcome.watch.most_held);
            *case = generous;
            case.store.truncate(held.clamp(words.max(1_024), 65_535));
        }
    }
}
