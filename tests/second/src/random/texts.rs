//! Random texts to read and decks to write, fixed by their seeds.

mod damage;
mod draft;
mod limits;

use super::dice::Dice;
use super::{damage as deck_damage, formats, Family, FAMILIES};
use crate::case::Case;
use crate::text::{size, write, ReadCase, WriteCase};
use crate::world::World;
pub use limits::{alike, declared, nested, numbered, sized, sized_numbers, used};

/// The text of a seed, and a list to read it into; the same for ever.
pub fn read_case(seed: u64) -> ReadCase {
    let mut dice = Dice::new(seed);
    let (kind, text) = match dice.weighted(&[300, 500, 170, 20, 1]) {
        0 => ("valid", drafted(&mut dice, 0)),
        1 => {
            let times = *dice.pick(&[1, 1, 1, 2, 3]);
            ("damaged", drafted(&mut dice, times))
        }
        2 => ("bytes", damage::bytes(&mut dice)),
        3 => ("noise", damage::noise(&mut dice)),
        _ => ("limits", limits::text(&mut dice)),
    };
    let room = read_room(&mut dice, &text);
    let name = format!("{kind}-{seed}");
    ReadCase { name, text, room }
}

fn drafted(dice: &mut Dice, times: usize) -> Vec<u8> {
    let mut world = small_world(dice);
    formats::some(dice.draw(), &mut world);
    let mut draft = draft::Draft::new(dice, &world);
    for _ in 0..times {
        damage::damage(dice, &mut draft);
    }
    draft.spaced(dice)
}

/// A world of few words, most of the time.
pub(super) fn small_world(dice: &mut Dice) -> World {
    let mut world = any_world(dice);
    if !dice.chance(1, 50) {
        let most = dice.range(1, 8);
        while world.clauses.len() > most {
            let at = dice.below(world.clauses.len());
            world.clauses.swap_remove(at);
        }
    }
    world
}

/// Large ones seldom: they take long.
fn any_world(dice: &mut Dice) -> World {
    let seldom = dice.chance(1, 20);
    let weight = |family: &Family| {
        if ["large", "full"].contains(&family.name) {
            seldom as usize
        } else {
            family.weight
        }
    };
    let weights: Vec<usize> = FAMILIES.iter().map(weight).collect();
    (FAMILIES[dice.weighted(&weights)].make)(dice)
}

/// Exactly what the deck needs, one off, or anything.
fn read_room(dice: &mut Dice, text: &[u8]) -> usize {
    let needed = size(text).unwrap_or_else(|| dice.range(0, 100));
    room(dice, needed, &[0, 7, 8, 16_383, 16_384, 16_385, 20_000])
}

fn room(dice: &mut Dice, needed: usize, others: &[usize]) -> usize {
    match dice.weighted(&[8, 4, 3, 2, 3]) {
        0 => needed,
        1 => needed.saturating_sub(1),
        2 => needed + dice.range(1, 40),
        3 => dice.range(0, needed),
        _ => *dice.pick(others),
    }
}

/// The deck of a seed, and a list to write its text into.
pub fn write_case(seed: u64) -> WriteCase {
    let mut dice = Dice::new(!seed);
    let mut world = any_world(&mut dice);
    formats::some(seed, &mut world);
    let mut deck = world.deck();
    if dice.chance(1, 4) {
        world.query.clear();
        deck = damaged(&mut dice, world);
    }
    let needed = write(&deck, usize::MAX).map_or(100, |text| text.len());
    let room = room(&mut dice, needed, &[0, 1, needed + 1_000]);
    let name = format!("deck-{seed}");
    WriteCase { name, deck, room }
}

pub(super) fn damaged(dice: &mut Dice, world: World) -> Vec<u16> {
    let mut case = Case {
        name: String::new(),
        deck: world.deck(),
        query: Vec::new(),
        bars: Vec::new(),
        budget: 0,
        answer_words: 0,
        store_words: 0,
        scratch_words: 0,
    };
    deck_damage::damage(dice, world, &mut case);
    case.deck
}
