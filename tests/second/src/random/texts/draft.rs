//! A text as the list of its tokens.

use super::Dice;
use crate::deck::NUMBER;
use crate::terms::{NEGATED, VARIABLE};
use crate::world::World;
use std::collections::HashSet;

const LONGEST_NAME: usize = 16;

pub struct Draft {
    pub tokens: Vec<String>,
}

impl Draft {
    /// The world under random names.
    pub fn new(dice: &mut Dice, world: &World) -> Draft {
        let names = names(dice, world.symbols.len());
        let mut draft = Draft { tokens: Vec::new() };
        if world.format() == 2 {
            draft.add(&["v2", "."]);
        }
        for (at, name) in names.iter().enumerate() {
            draft.declaration(world, at, name);
        }
        for clause in &world.clauses {
            draft.clause(world, &names, clause);
        }
        draft
    }

    fn declaration(&mut self, world: &World, at: usize, name: &str) {
        let word = world.symbols[at];
        if word == NUMBER {
            let value = world.values.as_ref().map_or(0, |values| values[at] as i16);
            return self.add(&["nu", name, &value.to_string(), "."]);
        }
        let kind = if word < 256 { "fn" } else { "pr" };
        self.add(&[kind, name, "/", &(word % 256).to_string(), "."]);
    }

    fn add(&mut self, tokens: &[&str]) {
        self.tokens
            .extend(tokens.iter().map(|token| token.to_string()));
    }

    fn clause(&mut self, world: &World, names: &[String], cells: &[u16]) {
        for (at, piece) in world.pieces(cells).into_iter().enumerate() {
            match at {
                0 => {}
                1 => self.add(&[":-"]),
                _ => self.add(&[","]),
            }
            let mut rest = &cells[piece];
            self.term(world, names, &mut rest);
        }
        self.add(&["."]);
    }

    fn term(&mut self, world: &World, names: &[String], cells: &mut &[u16]) {
        let Some((cell, rest)) = cells.split_first() else {
            return;
        };
        *cells = rest;
        if *cell >= VARIABLE {
            return self.add(&[&format!("_{}", cell - VARIABLE)]);
        }
        if *cell >= NEGATED {
            self.add(&["~"]);
        }
        self.add(&[&names[(cell % NEGATED) as usize]]);
        for at in 0..world.arity(*cell) {
            self.add(&[if at == 0 { "(" } else { "," }]);
            self.term(world, names, cells);
        }
        if world.arity(*cell) > 0 {
            self.add(&[")"]);
        }
    }

    /// The bytes, with spacing between the tokens: none where none is needed, some, or much.
    pub fn spaced(&self, dice: &mut Dice) -> Vec<u8> {
        let often = *dice.pick(&[0, 0, 1, 4, 9]);
        let mut text = Vec::new();
        for (at, token) in self.tokens.iter().enumerate() {
            let wordy = |byte: &u8| byte.is_ascii_lowercase() || byte.is_ascii_digit();
            let run_on =
                text.last().is_some_and(wordy) && token.as_bytes().first().is_some_and(wordy);
            // Digits may run on from a number, as in `a/00`, and from a name that can't be longer.
            let before = at.checked_sub(1).map_or("", |before| &self.tokens[before]);
            let whole = before.starts_with(|byte: char| byte.is_ascii_digit()) || before.len() >= LONGEST_NAME;
            let apart = run_on && !(whole && token.as_bytes()[0].is_ascii_digit());
            if apart || dice.chance(often, 10) {
                text.extend(spacing(dice));
            }
            text.extend(token.as_bytes());
        }
        if dice.chance(often, 10) {
            text.extend(spacing(dice));
        }
        text
    }
}

fn spacing(dice: &mut Dice) -> &'static [u8] {
    let all = [" ", " ", "\n", "  ", " \n ", "\n\n", "          \n"];
    dice.pick(&all).as_bytes()
}

/// So many different names.
fn names(dice: &mut Dice, number: usize) -> Vec<String> {
    let mut names = Vec::new();
    let mut taken = HashSet::new();
    while names.len() < number {
        let name = name(dice, names.len());
        if taken.insert(name.clone()) {
            names.push(name);
        }
    }
    names
}

/// Some are words of the grammar, some of the greatest length, some alike but for the last byte.
pub fn name(dice: &mut Dice, number: usize) -> String {
    match dice.below(9) {
        0 => dice
            .pick(&["fn", "pr", "nu", "v2", "a", "z", "s0", "s1", "f"])
            .to_string(),
        1 => format!("s{}", dice.range(0, number + 3)),
        2 => format!("abcdefghijklmno{}", dice.below(10)),
        3 => format!("{:a<16}", format!("z{number}")),
        4 => letters(dice, 16),
        5 => letters(dice, 15),
        6 => format!("a{number}"),
        _ => {
            let length = dice.range(1, 6);
            letters(dice, length)
        }
    }
}

fn letters(dice: &mut Dice, length: usize) -> String {
    let later = b"abcdefghijklmnopqrstuvwxyz0123456789";
    let mut name = vec![later[dice.below(26)]];
    name.extend((1..length).map(|_| *dice.pick(later)));
    String::from_utf8(name).expect("letters and digits")
}
