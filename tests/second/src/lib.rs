//! A second evaluator of the lead finder, written from documents 01 and 02 alone.
//!
//! Terms are trees, unification works on classes of equal nodes, and levels
//! are an explicit stack; so it shares no method with the engine it checks.

pub mod carry;
pub mod case;
pub mod cost;
pub mod deck;
pub mod drill;
pub mod evaluation;
pub mod goals;
mod guarded;
pub mod index;
pub mod judge;
pub mod levels;
pub mod listing;
pub mod loose;
pub mod mean;
pub mod press;
pub mod preview;
pub mod query;
pub mod random;
pub mod reader;
pub mod rights;
pub mod shrink;
pub mod terms;
pub mod text;
pub mod unify;
pub mod vectors;
pub mod world;

pub use case::Case;
pub use evaluation::{Outcome, Stop};
pub use listing::program;

use evaluation::{Limits, Start};
use rights::Rules;

const STORE_WORDS: std::ops::RangeInclusive<usize> = 1_024..=65_535;
const LEAST_SCRATCH: usize = 8_192;

/// 0, or the refusal 1 to 5.
pub fn open(deck: &[u16]) -> u32 {
    deck::open(deck).err().unwrap_or(0)
}

/// 0, or the refusal 1 to 7, 13 or 14.
pub fn check(deck: &[u16], query: &[u16]) -> u32 {
    checked(deck, query, loose::both).err().unwrap_or(0)
}

fn checked(deck: &[u16], query: &[u16], checks: loose::Checks) -> Result<(), u32> {
    let deck = deck::open(deck)?;
    let query = query::read(&deck, query)?;
    checks(&deck, &query)
}

/// The result of a run, or the refusal 1 to 9 or 13 to 16.
pub fn run(
    deck: &[u16],
    query: &[u16],
    bars: &[u16],
    budget: u32,
    answer_words: usize,
    store_words: usize,
    scratch_words: usize,
) -> Result<Outcome, u32> {
    let limits = Limits {
        budget,
        answer_words,
        store_words,
    };
    run_with(deck, query, bars, limits, scratch_words, Rules::RIGHT)
}

fn run_with(
    deck: &[u16],
    query: &[u16],
    bars: &[u16],
    limits: Limits,
    scratch_words: usize,
    rules: Rules,
) -> Result<Outcome, u32> {
    let deck = deck::open(deck)?;
    let query = query::read(&deck, query)?;
    lent(limits.store_words, scratch_words)?;
    (rules.loose)(&deck, &query)?;
    let start = Start::fresh(query);
    (rules.rights)(&deck, bars, &start)?;
    Ok(evaluation::evaluate(&deck, start, limits, rules.slip))
}

/// Refusals 8 and 9.
fn lent(store_words: usize, scratch_words: usize) -> Result<(), u32> {
    if !STORE_WORDS.contains(&store_words) {
        return Err(8);
    }
    if scratch_words < LEAST_SCRATCH {
        return Err(9);
    }
    Ok(())
}
