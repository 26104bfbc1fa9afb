//! The choice of clauses with a slip put in, to see that the comparison finds it.

use super::{about, Slip, MOST_WITHOUT_ROWS, ROWS};
use crate::cost::slips::{slip, Slipping};
use crate::cost::Slip::Tried;
use crate::deck::{Clause, Deck};
use crate::terms::{Applied, Term};

/// Bits of a word.
const WORD: usize = 64;

/// The clauses that the atom tries.
pub fn tried<'a>(deck: &'a Deck, atom: &Applied, slip: Slip) -> Vec<&'a Clause> {
    let about = about(deck, atom);
    if !has_rows(deck, atom, about.len(), slip) {
        return about;
    }
    let Some(wanted) = looked_up(deck, atom, slip) else {
        return about;
    };
    let rows: Vec<Option<u16>> = about
        .iter()
        .map(|clause| row(deck, &clause.head, slip))
        .collect();
    let stands =
        |at: &usize| stands_in(rows[*at], wanted, slip) && !left_out(*at, rows.len(), slip);
    let mut places: Vec<usize> = (0..about.len()).filter(stands).collect();
    match slip {
        Slip::EmptyIsAll if places.is_empty() => return about,
        Slip::HeadsLast => places.sort_by_key(|at| rows[*at].is_none()),
        Slip::Downwards => places.reverse(),
        Slip::DownwardsInWords => places.sort_by_key(|at| (at / WORD, WORD - at % WORD)),
        _ => {}
    }
    places.into_iter().map(|at| about[at]).collect()
}

fn has_rows(deck: &Deck, atom: &Applied, count: usize, slip: Slip) -> bool {
    let least = match slip {
        Slip::From(least) => least,
        _ => MOST_WITHOUT_ROWS + 1,
    };
    let count = match slip {
        Slip::WholeDeck => deck.clauses.len(),
        _ => count,
    };
    slip != Slip::All && !atom.arguments.is_empty() && count >= least
}

/// The row of a clause's head, and but for slips a literal's.
fn row(deck: &Deck, atom: &Applied, slip: Slip) -> Option<u16> {
    let argument = match slip {
        Slip::ByLast => atom.arguments.last(),
        _ => atom.arguments.first(),
    };
    let Some(Term::Applied(term)) = argument else {
        return None;
    };
    match slip {
        Slip::ByConstant if !term.arguments.is_empty() => None,
        Slip::ByFunctor => Some(term.symbol),
        Slip::ByValue => Some(named(deck, term.symbol) % ROWS),
        Slip::ByOrder => Some(order(deck, term.symbol) % ROWS),
        Slip::Modulo(number) => Some(term.symbol % number),
        _ => Some(term.symbol % ROWS),
    }
}

/// The symbol's number, or of a number its value.
fn named(deck: &Deck, functor: u16) -> u16 {
    let value = deck.symbols[functor as usize].value;
    value.map_or(functor, |value| value as u16)
}

/// The functors before this one.
fn order(deck: &Deck, functor: u16) -> u16 {
    let before = &deck.symbols[..functor as usize];
    before.iter().filter(|symbol| !symbol.predicate).count() as u16
}

fn looked_up(deck: &Deck, atom: &Applied, slip: Slip) -> Option<u16> {
    let row = row(deck, atom, slip);
    match slip {
        Slip::ByPredicate => row.map(|_| atom.symbol % ROWS),
        Slip::NextRow => row.map(|row| (row + 1) % ROWS),
        Slip::VariableInRow0 => Some(row.unwrap_or(0)),
        _ => row,
    }
}

fn stands_in(row: Option<u16>, wanted: u16, slip: Slip) -> bool {
    match slip {
        Slip::HeadsInNone => row == Some(wanted),
        Slip::HeadsNotIn(number) => row.map_or(wanted != number, |row| row == wanted),
        Slip::HeadsInRow0 => row.unwrap_or(0) == wanted,
        _ => row.is_none_or(|row| row == wanted),
    }
}

/// The clause at this place, of so many, is not found in any row.
fn left_out(at: usize, count: usize, slip: Slip) -> bool {
    match slip {
        Slip::Missing(place) => at == place,
        Slip::LastMissing => at + 1 == count,
        Slip::FirstWord => at >= WORD,
        Slip::NotLastWord => at / WORD == (count - 1) / WORD,
        _ => false,
    }
}

/// To be found in fresh runs and in continued ones.
pub const SLIPS: [Slipping; 30] = [
    slip("all clauses are tried", Tried(Slip::All)),
    slip("rows from 64 clauses on", Tried(Slip::From(64))),
    slip("rows from 66 clauses on", Tried(Slip::From(66))),
    slip("rows by the deck's clauses", Tried(Slip::WholeDeck)),
    slip("a variable head in no row", Tried(Slip::HeadsInNone)),
    slip("a variable head not in row 15", Tried(Slip::HeadsNotIn(15))),
    slip("a variable head not in row 0", Tried(Slip::HeadsNotIn(0))),
    slip("a variable head in row 0 alone", Tried(Slip::HeadsInRow0)),
    slip("variable heads are tried last", Tried(Slip::HeadsLast)),
    slip("rows modulo 8", Tried(Slip::Modulo(8))),
    slip("rows modulo 15", Tried(Slip::Modulo(15))),
    slip("rows modulo 32", Tried(Slip::Modulo(32))),
    slip("rows by the place among functors", Tried(Slip::ByOrder)),
    slip("rows by the functor itself", Tried(Slip::ByFunctor)),
    slip("rows by a number's value", Tried(Slip::ByValue)),
    slip("rows by the last argument", Tried(Slip::ByLast)),
    slip("rows of constants alone", Tried(Slip::ByConstant)),
    slip("a row by the predicate's number", Tried(Slip::ByPredicate)),
    slip("the next row is looked up", Tried(Slip::NextRow)),
    slip(
        "a variable is looked up in row 0",
        Tried(Slip::VariableInRow0),
    ),
    slip("an empty row stands for all", Tried(Slip::EmptyIsAll)),
    slip("the first clause is in no row", Tried(Slip::Missing(0))),
    slip("the 64th clause is in no row", Tried(Slip::Missing(63))),
    slip("the 65th clause is in no row", Tried(Slip::Missing(64))),
    slip("the 129th clause is in no row", Tried(Slip::Missing(128))),
    slip("the last clause is in no row", Tried(Slip::LastMissing)),
    slip("only a row's first word", Tried(Slip::FirstWord)),
    slip("not a row's last word", Tried(Slip::NotLastWord)),
    slip("from the highest bit down", Tried(Slip::Downwards)),
    slip(
        "from each word's highest bit down",
        Tried(Slip::DownwardsInWords),
    ),
];
