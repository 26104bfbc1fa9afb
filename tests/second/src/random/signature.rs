//! Symbols, and random terms and literals over them.

use super::dice::Dice;
use crate::terms::{NEGATED, VARIABLE};

/// Symbol words under construction, sorted by use.
#[derive(Default)]
pub struct Signature {
    pub words: Vec<u16>,
    pub constants: Vec<u16>,
    /// Functors of arity 1 and more: number and arity.
    pub functors: Vec<(u16, usize)>,
    pub predicates: Vec<(u16, usize)>,
    /// Predicates drawn more often, if any.
    pub favoured: Vec<(u16, usize)>,
}

pub fn variable(number: usize) -> u16 {
    VARIABLE + number as u16
}

pub fn not(predicate: u16) -> u16 {
    NEGATED + predicate
}

impl Signature {
    pub fn functor(&mut self, arity: usize) -> u16 {
        let number = self.words.len() as u16;
        self.words.push(arity as u16);
        if arity == 0 {
            self.constants.push(number);
        } else {
            self.functors.push((number, arity));
        }
        number
    }

    pub fn predicate(&mut self, arity: usize) -> u16 {
        let number = self.words.len() as u16;
        self.words.push(256 + arity as u16);
        self.predicates.push((number, arity));
        number
    }

    /// A few symbols of each kind, in mixed order; at least one predicate.
    pub fn small(dice: &mut Dice) -> Signature {
        let mut signature = Signature::default();
        for _ in 0..dice.range(3, 9) {
            match dice.below(5) {
                0 | 1 => signature.functor(0),
                2 => {
                    let arity = dice.range(1, 3);
                    signature.functor(arity)
                }
                _ => {
                    let arity = *dice.pick(&[0, 1, 1, 1, 2, 2, 3]);
                    signature.predicate(arity)
                }
            };
        }
        let arity = dice.range(0, 2);
        signature.predicate(arity);
        signature
    }

    /// A term over variables 0 up to below `pool`.
    pub fn term(&self, dice: &mut Dice, depth: usize, pool: usize, out: &mut Vec<u16>) {
        let bare = self.constants.is_empty() || dice.chance(1, 2);
        if pool > 0 && (bare && (depth == 0 || dice.chance(2, 3))) {
            out.push(variable(dice.below(pool)));
        } else if depth > 0 && !self.functors.is_empty() && dice.chance(2, 3) {
            let (functor, arity) = *dice.pick(&self.functors);
            out.push(functor);
            for _ in 0..arity {
                self.term(dice, depth - 1, pool, out);
            }
        } else if !self.constants.is_empty() {
            out.push(*dice.pick(&self.constants));
        } else {
            out.push(variable(dice.below(pool.max(1))));
        }
    }

    pub fn literal(&self, dice: &mut Dice, sign: u16, depth: usize, pool: usize) -> Vec<u16> {
        let favour = !self.favoured.is_empty() && dice.chance(5, 6);
        let among = if favour {
            &self.favoured
        } else {
            &self.predicates
        };
        let (predicate, arity) = *dice.pick(among);
        let mut out = vec![sign + predicate];
        for _ in 0..arity {
            self.term(dice, depth, pool, &mut out);
        }
        out
    }

    /// Literals, some of them negated (so many in ten).
    pub fn body(&self, dice: &mut Dice, most: usize, tenths: usize, pool: usize) -> Vec<u16> {
        let mut out = Vec::new();
        for _ in 0..dice.range(0, most) {
            let sign = if dice.chance(tenths, 10) { NEGATED } else { 0 };
            let depth = dice.range(0, 2);
            out.extend(self.literal(dice, sign, depth, pool));
        }
        out
    }
}
