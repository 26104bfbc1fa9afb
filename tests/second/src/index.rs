//! Which clauses a literal tries (request U7).

pub mod slips;

use crate::deck::{Clause, Deck};
use crate::terms::{Applied, Term};

/// A predicate with arguments and more clauses than these has rows.
pub const MOST_WITHOUT_ROWS: usize = 64;
pub const ROWS: u16 = 16;

/// A slip in the rows or in the choice among them. The evaluation has none.
#[derive(Clone, Copy, Debug, PartialEq, Eq)]
pub enum Slip {
    /// All clauses about the predicate are tried.
    All,
    /// A predicate has rows from so many clauses on.
    From(usize),
    /// Every predicate has rows where the deck has over 64 clauses.
    WholeDeck,
    /// A clause whose head starts with a variable is in no row.
    HeadsInNone,
    /// It is missing in this row.
    HeadsNotIn(u16),
    /// It is in row 0 alone.
    HeadsInRow0,
    /// It is tried after the others.
    HeadsLast,
    /// The remainder is of this number.
    Modulo(u16),
    /// Rows by the functor's place among the functors.
    ByOrder,
    /// Rows by the functor itself.
    ByFunctor,
    /// Rows by a number's value (U10).
    ByValue,
    /// Rows by the last argument.
    ByLast,
    /// Rows of constants alone: of a term with arguments nothing is known.
    ByConstant,
    /// A literal is looked up by its predicate's number.
    ByPredicate,
    /// A literal is looked up in the next row.
    NextRow,
    /// A first argument that is a variable is looked up in row 0.
    VariableInRow0,
    /// A row in which no clause is stands for all.
    EmptyIsAll,
    /// The clause at this place among those about its predicate, counted from 0, is in no row.
    Missing(usize),
    /// The last clause about a predicate is in no row.
    LastMissing,
    /// Only the first word of a row is looked at.
    FirstWord,
    /// The last word of a row is not looked at.
    NotLastWord,
    /// From the highest bit of a row down.
    Downwards,
    /// From the highest bit of each word down.
    DownwardsInWords,
}

/// The clauses that the atom tries, in deck order.
pub fn tried<'a>(deck: &'a Deck, atom: &Applied) -> Vec<&'a Clause> {
    let about = about(deck, atom);
    match row(atom).filter(|_| about.len() > MOST_WITHOUT_ROWS) {
        None => about,
        Some(wanted) => {
            let stands_in = |clause: &&Clause| row(&clause.head).is_none_or(|row| row == wanted);
            about.into_iter().filter(stands_in).collect()
        }
    }
}

/// The clauses about the atom's predicate, in deck order.
pub fn about<'a>(deck: &'a Deck, atom: &Applied) -> Vec<&'a Clause> {
    let numbers = deck.about[atom.symbol as usize].iter();
    numbers.map(|number| &deck.clauses[*number]).collect()
}

/// By the first argument's outermost functor; a variable has no row.
fn row(atom: &Applied) -> Option<u16> {
    match atom.arguments.first() {
        Some(Term::Applied(first)) => Some(first.symbol % ROWS),
        _ => None,
    }
}

/// Some predicate of the deck has rows.
pub fn has_rows(deck: &Deck) -> bool {
    let long = |clause: &Clause| deck.about[clause.head.symbol as usize].len() > MOST_WITHOUT_ROWS;
    let mut clauses = deck.clauses.iter();
    clauses.any(|clause| !clause.head.arguments.is_empty() && long(clause))
}
