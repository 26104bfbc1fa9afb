//! A deck as text: one item a line.

use crate::deck::{self, Clause};
use crate::reader::Symbol;
use crate::terms::{Applied, Literal, Term};

const ROOM: u32 = 11;

/// The text of a deck, in a list of so many bytes: 1 to 5, then 11.
pub fn write(deck: &[u16], room: usize) -> Result<Vec<u8>, u32> {
    let deck = deck::open(deck)?;
    let mut lines = Vec::new();
    if deck.format == 2 {
        lines.push("v2.".to_string());
    }
    for (number, symbol) in deck.symbols.iter().enumerate() {
        lines.push(declaration(number, symbol));
    }
    lines.extend(deck.clauses.iter().map(clause));
    let text: String = lines.iter().map(|line| line.to_string() + "\n").collect();
    if text.len() > room {
        return Err(ROOM);
    }
    Ok(text.into_bytes())
}

fn declaration(number: usize, symbol: &Symbol) -> String {
    let kind = if symbol.predicate { "pr" } else { "fn" };
    match symbol.value {
        Some(value) => format!("nu s{number} {value}."),
        None => format!("{kind} s{number}/{}.", symbol.arity),
    }
}

fn clause(clause: &Clause) -> String {
    let body: Vec<String> = clause.body.iter().map(literal).collect();
    let body = match body.as_slice() {
        [] => String::new(),
        literals => format!(" :- {}", literals.join(", ")),
    };
    format!("{}{body}.", atom(&clause.head))
}

fn literal(literal: &Literal) -> String {
    let sign = if literal.negated { "~" } else { "" };
    format!("{sign}{}", atom(&literal.atom))
}

fn atom(atom: &Applied) -> String {
    let mut text = format!("s{}", atom.symbol);
    for (at, argument) in atom.arguments.iter().enumerate() {
        text.push(if at == 0 { '(' } else { ',' });
        text += &term(argument);
    }
    if !atom.arguments.is_empty() {
        text.push(')');
    }
    text
}

fn term(argument: &Term) -> String {
    match argument {
        Term::Variable(number) => format!("_{number}"),
        Term::Applied(applied) => atom(applied),
    }
}
