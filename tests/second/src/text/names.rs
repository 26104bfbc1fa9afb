//! From names to symbol numbers.

use super::grammar::{Declared, Declares, Part, Rules, Used};
use super::{Fault, Refused};
use crate::deck::NUMBER;
use crate::terms::{NEGATED, VARIABLE};
use crate::world::World;
use std::collections::HashMap;

type Numbers<'a> = HashMap<&'a [u8], usize>;

const PREDICATE: u16 = 256;

/// Symbols and clauses. Symbol numbers past 14 bits are cut off: such a deck is too long.
pub fn numbered(rules: &Rules) -> Result<World, Refused> {
    let mut numbers = Numbers::new();
    for (number, declared) in rules.declared.iter().enumerate() {
        if numbers.insert(declared.name, number).is_some() {
            return Err(Refused::Text(Fault::Twice, declared.place));
        }
    }
    let cell = |part: &Part| cell(rules, &numbers, part);
    let clause = |parts: &Vec<Part>| parts.iter().map(cell).collect();
    let clauses = rules.clauses.iter().map(clause).collect::<Result<_, _>>()?;
    let (symbols, values) = rules.declared.iter().map(symbol).unzip();
    Ok(World {
        symbols,
        values: Some(values).filter(|_| rules.second_format),
        clauses,
        ..World::default()
    })
}

/// The symbol's word, and its second word in format 2.
fn symbol(declared: &Declared) -> (u16, u16) {
    match declared.kind {
        Declares::Functor(arity) => (arity, 0),
        Declares::Predicate(arity) => (PREDICATE + arity, 0),
        Declares::Number(value) => (NUMBER, value as u16),
    }
}

fn arity(declared: &Declared) -> usize {
    match declared.kind {
        Declares::Functor(arity) | Declares::Predicate(arity) => arity as usize,
        Declares::Number(_) => 0,
    }
}

fn cell(rules: &Rules, numbers: &Numbers, part: &Part) -> Result<u16, Refused> {
    match part {
        Part::Variable(number) => Ok(VARIABLE + *number as u16),
        Part::Used(used) => used_cell(rules, numbers, used),
    }
}

fn used_cell(rules: &Rules, numbers: &Numbers, used: &Used) -> Result<u16, Refused> {
    let Some(number) = numbers.get(used.name) else {
        return Err(Refused::Text(Fault::Undeclared, used.place));
    };
    if arity(&rules.declared[*number]) != used.arguments {
        return Err(Refused::Text(Fault::Arity, used.place));
    }
    let sign = if used.negated { NEGATED } else { 0 };
    Ok(sign + (*number % NEGATED as usize) as u16)
}
