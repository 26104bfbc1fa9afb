//! Random answer lists with a column to be added up, fixed by their seeds.

use super::carries::{goal, numbers as other_counts};
use super::dice::Dice;
use super::formats;
use super::texts::damaged as damaged_deck;
use crate::deck::NUMBER;
use crate::mean::{Column, MeanCase};
use crate::terms::VARIABLE;
use crate::world::{renumber, World};

/// The list of a seed; the same for ever.
pub fn mean_case(seed: u64) -> MeanCase {
    let mut dice = Dice::new(seed ^ 0x3ea2);
    let world = world(&mut dice);
    let mut case = listed(&mut dice, &world);
    case.name = format!("column-{seed}");
    if dice.chance(2, 5) {
        for _ in 0..*dice.pick(&[1, 1, 1, 2]) {
            damage(&mut dice, &world, &mut case);
        }
        case.name.push_str("-damaged");
    }
    case
}

/// A few symbols and no clauses, mostly with numbers: of both signs, of one, or at the edges.
fn world(dice: &mut Dice) -> World {
    let symbols = (0..dice.range(2, 12)).map(|_| match dice.below(8) {
        0 => dice.range(1, 3) as u16,
        1 => 256 + dice.range(0, 2) as u16,
        _ => 0,
    });
    let mut world = World {
        symbols: symbols.chain([0, 256]).collect(),
        ..World::default()
    };
    let fact = world.symbols.len() as u16 - 1;
    world.clauses = vec![vec![fact]; dice.below(3)];
    if dice.chance(1, 10) {
        return world;
    }
    let tenths = *dice.pick(&[0, 5, 7, 9, 10, 10]);
    formats::number(dice, &mut world, tenths);
    let World { symbols, values, .. } = &mut world;
    let values = values.iter_mut().flatten().zip(symbols);
    let (numbers, way) = (values.filter(|(_, word)| **word == NUMBER), dice.below(5));
    for (at, (value, _)) in numbers.enumerate() {
        *value = match way {
            0 => 65_535 - at as u16,
            1 => 32_768 + at as u16,
            2 => *value | 0x8000,
            _ => continue,
        };
    }
    world
}

/// Answers whose column is numbers, but for a few lists.
fn listed(dice: &mut Dice, world: &World) -> MeanCase {
    let terms = *dice.pick(&[1, 1, 1, 2, 2, 3, 5, 16]);
    let column = dice.below(terms);
    let count = match dice.weighted(&[2, 8, 4, 2]) {
        0 => 1,
        1 => dice.range(2, 6),
        2 => dice.range(7, 60),
        _ => dice.range(61, 400),
    };
    let few = dice.chance(1, 8);
    let mut list = Vec::new();
    for _ in 0..count {
        let mut cells = Vec::new();
        for at in 0..terms {
            let number = at == column && !(few && dice.chance(1, count));
            cells.extend(if number { entry(dice, world) } else { term(dice, world, 2) });
        }
        renumber(&mut cells);
        list.extend(goal(0, cells.len(), &cells));
    }
    fill(dice, &mut list);
    MeanCase {
        name: String::new(),
        deck: world.deck(),
        list,
        asked: Column {
            count: count as u64,
            terms: terms as u64,
            column: column as u64,
        },
    }
}

/// A number, if there is one.
fn entry(dice: &mut Dice, world: &World) -> Vec<u16> {
    let numbers = world.of_kind(|word| word == NUMBER);
    match numbers[..] {
        [] => term(dice, world, 1),
        _ => vec![*dice.pick(&numbers)],
    }
}

fn term(dice: &mut Dice, world: &World, depth: usize) -> Vec<u16> {
    let most = if depth == 0 { 1 } else { 16 };
    let functors = world.of_kind(|word| word < most || word == NUMBER);
    if functors.is_empty() || dice.chance(1, 3) {
        return vec![VARIABLE + dice.below(4) as u16];
    }
    let mut cells = vec![*dice.pick(&functors)];
    for _ in 0..world.arity(cells[0]) {
        cells.extend(term(dice, world, depth - 1));
    }
    cells
}

/// Words after the answers: none, any, or the answers again.
fn fill(dice: &mut Dice, list: &mut Vec<u16>) {
    match dice.below(4) {
        0 => list.extend(list.clone()),
        1 => {
            let word = dice.word();
            list.extend((0..dice.range(1, 40)).map(|at| word.wrapping_mul(at as u16 | 1)));
        }
        _ => {}
    }
}

/// One thing, anywhere.
fn damage(dice: &mut Dice, world: &World, case: &mut MeanCase) {
    match dice.weighted(&[10, 6, 2, 2]) {
        0 => damage_word(dice, case),
        1 => {
            let others = numbers(case);
            case.asked = dice.pick(&others).asked;
        }
        2 => case.list.truncate(dice.below(case.list.len() + 1)),
        _ => case.deck = damaged_deck(dice, world.clone()),
    }
}

fn damage_word(dice: &mut Dice, case: &mut MeanCase) {
    let starts: Vec<usize> = case.goals().lengths().iter().scan(0, |at, length| Some(std::mem::replace(at, *at + length))).collect();
    let words = case.goals().words();
    if words == 0 {
        return;
    }
    let at = match dice.below(4) {
        0 => *dice.pick(&starts),
        1 => *dice.pick(&starts) + 1,
        _ => dice.below(words),
    };
    let at = at.min(case.list.len() - 1);
    let word = case.list[at];
    match dice.below(8) {
        0 => drop(case.list.remove(at)),
        1 => case.list.insert(at, dice.word() % 8),
        2 => case.list[at] = word.wrapping_add(1),
        3 => case.list[at] = word.wrapping_sub(1),
        4 => case.list[at] = word % 4_096 + 4_096 * dice.below(16) as u16,
        5 => case.list[at] = VARIABLE + dice.below(4) as u16,
        6 => case.list[at] = dice.below(10) as u16,
        _ => case.list[at] = dice.word(),
    }
}

/// Each of the three numbers otherwise: near, and far away.
pub fn numbers(case: &MeanCase) -> Vec<MeanCase> {
    let with = |asked: Column| MeanCase {
        name: format!("{}, asked {asked:?}", case.name),
        asked,
        ..case.clone()
    };
    let asked = case.asked;
    let mut cases = Vec::new();
    for other in other_counts(&case.goals()) {
        let (count, terms) = (other.given.pending, other.given.terms);
        cases.push(with(Column { count, terms, ..asked }));
        cases.push(with(Column { count, terms, column: terms }));
        cases.push(with(Column { count, terms, column: terms.wrapping_sub(1) }));
        cases.push(with(Column { column: count, ..asked }));
    }
    for count in [0, 1, asked.count, 65_534, 65_535, 65_536, 1 << 32, asked.count.wrapping_add(1 << 32)] {
        for column in [0, asked.column, asked.terms, u64::MAX] {
            cases.push(with(Column { count, column, ..asked }));
        }
    }
    cases
}
