//! A call, and random ones.

use super::counting::Counting;
use crate::deck::{self, NUMBER};
use crate::random::dice::Dice;
use crate::random::formats;
use crate::world::World;

#[derive(Clone, Debug, PartialEq, Eq)]
pub struct Case {
    pub name: String,
    pub deck: Vec<u16>,
    pub n: u32,
    pub after: Vec<u16>,
    pub room: usize,
}

impl Case {
    pub fn drill(&self) -> Result<Vec<Vec<u16>>, u32> {
        super::drill(&self.deck, self.n, &self.after, self.room)
    }
}

/// A deck of these symbol words and no clauses; in format 2 where there are numbers, with the higher values first.
pub fn bare(symbols: &[u16]) -> Vec<u16> {
    let numbers = symbols.contains(&NUMBER);
    let value = |(at, word): (usize, &u16)| if *word == NUMBER { 50 - at as i16 } else { 0 } as u16;
    let values = numbers.then(|| symbols.iter().enumerate().map(value).collect());
    let symbols = symbols.to_vec();
    World { symbols, values, ..World::default() }.deck()
}

/// Symbol words: few or many, of every arity and both kinds, and some with no constant.
fn symbols(dice: &mut Dice) -> Vec<u16> {
    let number = match dice.below(12) {
        0 => 4_096,
        1 => dice.range(100, 4_095),
        2 | 3 => dice.range(10, 60),
        _ => dice.range(1, 9),
    };
    let constants = dice.range(0, 6);
    (0..number)
        .map(|_| match dice.below(12) {
            roll if roll < constants => 0,
            6 | 7 => dice.range(1, 3) as u16,
            8 => dice.range(1, 9) as u16,
            9 => dice.range(0, 15) as u16,
            _ => 256 + dice.range(0, 4) as u16,
        })
        .collect()
}

fn damaged(dice: &mut Dice, deck: &mut Vec<u16>) {
    match dice.below(7) {
        0 => deck[dice.below(8)] ^= 1 << dice.below(16),
        1 => deck[8] = *dice.pick(&[16, 17, 255, 272, 512, 513, 768]),
        6 => deck[0] = *dice.pick(&[0, 1, 2, 3]),
        2 => {
            deck.push(0);
            (deck[5], deck[7]) = (1, deck[7] + 1);
        }
        3 => deck.extend_from_slice(&[0, 0]),
        4 => clause(deck, &[0; 257]),
        _ => {
            let cell = dice.below(deck[1] as usize) as u16;
            clause(deck, &[cell]);
        }
    }
}

/// Adds one clause of these cells.
fn clause(deck: &mut Vec<u16>, cells: &[u16]) {
    let number = cells.len() as u16;
    deck.push(0);
    deck.extend_from_slice(cells);
    (deck[3], deck[5], deck[6], deck[7]) = (1, number, deck[6] + 1, deck[7] + 1 + number);
}

/// What the caller starts after: nothing, terms of the list, and rows that are near to one.
fn given(dice: &mut Dice, deck: &[u16], n: u32) -> Vec<u16> {
    let cells = (n as usize).clamp(1, 8);
    let Ok(open) = deck::open(deck) else {
        return vec![0; dice.below(2)];
    };
    let counting = Counting::new(&open.symbols, if dice.chance(1, 12) { 8 } else { cells });
    let number = counting.number();
    let mut term = match number {
        0 => vec![dice.below(open.symbols.len()) as u16],
        _ => match dice.below(5) {
            0 => return Vec::new(),
            1 => counting.term(number - 1),
            2 => counting.term((dice.below(3) as u128).min(number - 1)),
            _ => counting.term((u128::from(dice.draw()) << 40 | u128::from(dice.draw() >> 24)) % number),
        },
    };
    if dice.chance(1, 3) {
        spoil(dice, open.symbols.len(), &mut term);
    }
    term
}

fn spoil(dice: &mut Dice, symbols: usize, term: &mut Vec<u16>) {
    let at = dice.below(term.len());
    match dice.below(7) {
        0 => term[at] = 32_768 + dice.below(2) as u16,
        1 => term[at] = dice.below(symbols) as u16,
        2 => term[at] = (symbols + dice.below(2)) as u16,
        3 => term.push(dice.below(symbols) as u16),
        4 => {
            term.pop();
        }
        5 => term[at] |= 16_384,
        _ => {
            let again = term.clone();
            term.extend(again);
        }
    }
}

pub fn case(seed: u64) -> Case {
    let mut dice = Dice::new(seed ^ 0x7e57_0012);
    let mut world = World { symbols: symbols(&mut dice), ..World::default() };
    formats::some(seed, &mut world);
    if dice.chance(1, 30) {
        formats::spoil(&mut dice, &mut world);
    }
    let mut deck = world.deck();
    if dice.chance(1, 10) {
        damaged(&mut dice, &mut deck);
    }
    let n = match dice.below(20) {
        0 => *dice.pick(&[9, 10, 255, 65_536, 65_544, u32::MAX]),
        _ => dice.range(0, 8) as u32,
    };
    let after = given(&mut dice, &deck, n);
    let room = match dice.below(4) {
        0 => dice.range(0, 9),
        1 => dice.range(0, 400),
        _ => dice.range(0, 60),
    };
    Case { name: format!("seed {seed}"), deck, n, after, room }
}
