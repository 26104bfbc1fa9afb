//! Decks of format 2 (request U10): of some worlds, constants become numbers.

use super::dice::Dice;
use crate::deck::NUMBER;
use crate::world::World;
use std::collections::HashSet;

const MOST_WORDS: usize = 16_384;
const EDGES: [i16; 12] = [
    0, 1, -1, 2, -2, 9, -10, 255, 256, -256, i16::MAX, i16::MIN,
];

/// One world of three takes format 2. The seed's other draws stay as they are.
pub fn some(seed: u64, world: &mut World) {
    let mut dice = Dice::new(seed ^ 0xf02_a702);
    if dice.chance(1, 3) {
        second_format(&mut dice, world);
    }
}

/// None, some, most or all of the constants become numbers. Clauses that no longer fit are left out.
pub fn second_format(dice: &mut Dice, world: &mut World) {
    let tenths = *dice.pick(&[0, 3, 5, 8, 10, 10]);
    number(dice, world, tenths);
    while world.words() > MOST_WORDS && !world.clauses.is_empty() {
        world.clauses.pop();
    }
}

/// So many in ten of the constants become numbers, each with another value.
pub fn number(dice: &mut Dice, world: &mut World, tenths: usize) {
    let mut values = vec![0; world.symbols.len()];
    let mut taken = HashSet::new();
    for (word, second) in world.symbols.iter_mut().zip(&mut values) {
        if *word == 0 && dice.chance(tenths, 10) {
            let mut next = value(dice);
            while !taken.insert(next) {
                next = dice.word() as i16;
            }
            (*word, *second) = (NUMBER, next as u16);
        }
    }
    world.values = Some(values);
}

/// At an edge, small, or any.
pub fn value(dice: &mut Dice) -> i16 {
    match dice.below(4) {
        0 => *dice.pick(&EDGES),
        1 | 2 => dice.range(0, 200) as i16 - 100,
        _ => dice.word() as i16,
    }
}

/// A symbol's word that is wrong; in format 2 one of its two words, or two equal values, anywhere.
pub fn spoil(dice: &mut Dice, world: &mut World) {
    let symbols = world.symbols.len();
    let at = dice.below(symbols);
    let Some(values) = &mut world.values else {
        let bad = [16, 17, 255, 272, 273, 511, 512, 4_096, 32_768, 65_535];
        world.symbols[at] = *dice.pick(&bad);
        return;
    };
    values.resize(symbols, 0);
    match dice.below(3) {
        0 => {
            let bad = [16, 255, 272, 511, 513, 514, 527, 768, 1_024, 32_768, 65_535];
            world.symbols[at] = *dice.pick(&bad);
        }
        1 => {
            if world.symbols[at] == NUMBER {
                world.symbols[at] = 0;
            }
            values[at] = *dice.pick(&[1, 2, 256, 512, 32_768, 65_535]);
        }
        _ => {
            let other = match dice.below(3) {
                0 => (at + 1) % symbols,
                _ => dice.below(symbols),
            };
            let value = value(dice) as u16;
            for number in [at, other] {
                (world.symbols[number], values[number]) = (NUMBER, value);
            }
        }
    }
}
