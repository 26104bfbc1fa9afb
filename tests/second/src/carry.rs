//! Carrying on from the goals in a store (request U4).

mod case;
pub mod comparison;
mod formats;
pub mod judge;
pub mod program;
mod shrink;
pub mod slips;
pub(crate) mod stored;
pub mod vectors;

pub use case::CarryCase;

use crate::deck::Deck;
use crate::evaluation::{evaluate, Limits, Outcome, Start};
use crate::rights::Rules;

/// What the caller says of the goals at the start of the store.
#[derive(Clone, Copy, Debug, PartialEq, Eq)]
pub struct Given {
    pub pending: u64,
    pub parked: u64,
    /// Number of answer terms of each goal.
    pub terms: u64,
}

/// Why a run is not continued.
#[derive(Clone, Copy, Debug, PartialEq, Eq)]
pub enum Refused {
    /// 1 to 5, 8 or 9.
    Before(u32),
    /// 12.
    Goals(Fault),
    /// 13.
    Loose,
    /// 15 or 16.
    Rights(u32),
}

/// What is wrong with the first goal that is not well formed.
#[derive(Clone, Copy, Debug, PartialEq, Eq)]
pub enum Fault {
    /// The store ends before the goal does.
    End,
    /// Its length is under 2.
    Short,
    /// Its length is over 1,024.
    Long,
    /// A pending goal has another mark than 0.
    PendingMark,
    /// A parked goal has the mark 0.
    Unparked,
    /// Its mark is over 4.
    MarkOver,
    /// Its answer terms are not so many, or do not take so many cells.
    Terms,
    Literals,
    /// Only its variables' numbers are wrong.
    Numbering,
}

impl Refused {
    pub fn number(self) -> u32 {
        match self {
            Refused::Before(number) | Refused::Rights(number) => number,
            Refused::Goals(_) => 12,
            Refused::Loose => 13,
        }
    }
}

/// The evaluation from the store's goals, or the refusal 1 to 5, 8, 9, 12, 13, 15 or 16.
pub fn carry_on(
    deck: &[u16],
    store: &[u16],
    given: Given,
    bars: &[u16],
    budget: u32,
    answer_words: usize,
    scratch_words: usize,
) -> Result<Outcome, Refused> {
    let sizes = (answer_words, scratch_words);
    carry_with(deck, store, given, bars, budget, sizes, Rules::RIGHT)
}

/// The lengths of answers and scratch are `sizes`.
pub(crate) fn carry_with(
    deck: &[u16],
    store: &[u16],
    given: Given,
    bars: &[u16],
    budget: u32,
    sizes: (usize, usize),
    rules: Rules,
) -> Result<Outcome, Refused> {
    let (deck, start, limits) = started(deck, store, given, bars, budget, sizes, rules)?;
    Ok(evaluate(&deck, start, limits, rules.slip))
}

/// What an evaluation from the store's goals starts with.
pub(crate) fn started(
    deck: &[u16],
    store: &[u16],
    given: Given,
    bars: &[u16],
    budget: u32,
    (answer_words, scratch_words): (usize, usize),
    rules: Rules,
) -> Result<(Deck, Start, Limits), Refused> {
    let deck = crate::deck::open(deck).map_err(Refused::Before)?;
    crate::lent(store.len(), scratch_words).map_err(Refused::Before)?;
    let start = stored::read(&deck.symbols, store, given).map_err(Refused::Goals)?;
    (rules.loose_clauses)(&deck).map_err(|_| Refused::Loose)?;
    (rules.rights)(&deck, bars, &start).map_err(Refused::Rights)?;
    let limits = Limits {
        budget,
        answer_words,
        store_words: store.len(),
    };
    Ok((deck, start, limits))
}
