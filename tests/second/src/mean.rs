//! The sum and the mean of a column of an answer list (request U10).

pub mod case;
pub mod comparison;
pub mod judge;
pub mod program;
pub mod slips;
pub mod vectors;

pub use case::MeanCase;

use crate::carry::{stored, Fault, Given};
use crate::deck::{self, Deck};
use crate::goals::Goal;
use crate::terms::Term;

/// What the caller says of the list: how many answers, of how many terms, and which of these is added up, counted from 0.
#[derive(Clone, Copy, Debug, PartialEq, Eq)]
pub struct Column {
    pub count: u64,
    pub terms: u64,
    pub column: u64,
}

#[derive(Clone, Copy, Debug, Default, PartialEq, Eq)]
pub struct Mean {
    pub sum: i64,
    /// The mean's whole part, rounded down.
    pub whole: i64,
    pub remainder: u64,
}

/// Why no mean is given.
#[derive(Clone, Copy, Debug, PartialEq, Eq)]
pub enum Refused {
    /// 1 to 5.
    Deck(u32),
    /// 17: the count is 0.
    None,
    /// 17: the count is over 65,535.
    Many,
    /// 17: there is no such column.
    Column,
    /// 17: an answer is not well formed.
    Answer(Fault),
    /// 18: an entry is a variable.
    Variable,
    /// 18: an entry is another functor than a number.
    Functor,
}

pub const MOST_ANSWERS: u64 = 65_535;

impl Refused {
    pub fn number(self) -> u32 {
        match self {
            Refused::Deck(number) => number,
            Refused::None | Refused::Many | Refused::Column | Refused::Answer(_) => 17,
            Refused::Variable | Refused::Functor => 18,
        }
    }
}

/// The column's sum and mean: 1 to 5, then 17 over the whole list, then 18.
pub fn mean(deck: &[u16], list: &[u16], asked: Column) -> Result<Mean, Refused> {
    let deck = deck::open(deck).map_err(Refused::Deck)?;
    let answers = answers(&deck, list, asked)?;
    let column = asked.column as usize;
    let entries = answers.iter().map(|goal| value(&deck, &goal.answer()[column]));
    let values = entries.collect::<Result<Vec<i64>, Refused>>()?;
    Ok(of(&values))
}

/// The mean of values, of which there is at least one.
fn of(values: &[i64]) -> Mean {
    let (sum, count) = (values.iter().sum::<i64>(), values.len() as i64);
    Mean {
        sum,
        whole: sum.div_euclid(count),
        remainder: sum.rem_euclid(count) as u64,
    }
}

/// The answers at the list's start: pending goals without literals.
fn answers(deck: &Deck, list: &[u16], asked: Column) -> Result<Vec<Goal>, Refused> {
    match asked.count {
        0 => return Err(Refused::None),
        1..=MOST_ANSWERS => {}
        _ => return Err(Refused::Many),
    }
    if asked.column >= asked.terms {
        return Err(Refused::Column);
    }
    let given = Given {
        pending: asked.count,
        parked: 0,
        terms: asked.terms,
    };
    let start = stored::read(&deck.symbols, list, given).map_err(Refused::Answer)?;
    if start.pending.iter().any(|goal| !goal.literals.is_empty()) {
        return Err(Refused::Answer(Fault::Literals));
    }
    Ok(start.pending)
}

fn value(deck: &Deck, entry: &Term) -> Result<i64, Refused> {
    let Term::Applied(entry) = entry else {
        return Err(Refused::Variable);
    };
    let value = deck.symbols[entry.symbol as usize].value;
    value.map(i64::from).ok_or(Refused::Functor)
}
