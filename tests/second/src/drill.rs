//! Drill terms, from request U12 alone: all variable-free terms of at most N cells over a deck's functors.
//!
//! Small lists are found by trying all rows of cells, large ones by counting: how many terms come before a term, and which
//! term stands at a place. Neither makes a term from the one before.

pub mod case;
pub mod comparison;
pub mod counting;
pub mod judge;
pub mod program;
pub mod slips;
pub mod trying;
pub mod vectors;

pub use case::Case;

use crate::deck;
use counting::Counting;

pub const MOST_CELLS: u32 = 8;
const REFUSED: u32 = 19;

/// The terms after the given one (from the start where it is empty), as many as fit whole in the room; or the refusal.
pub fn drill(words: &[u16], n: u32, after: &[u16], room: usize) -> Result<Vec<Vec<u16>>, u32> {
    let symbols = deck::open(words)?.symbols;
    if n > MOST_CELLS {
        return Err(REFUSED);
    }
    let counting = Counting::new(&symbols, n as usize);
    let from = match after {
        [] => 0,
        term => counting.place(term).ok_or(REFUSED)? + 1,
    };
    let mut terms = Vec::new();
    let mut left = room;
    for place in from..counting.number() {
        let term = counting.term(place);
        if term.len() > left {
            break;
        }
        left -= term.len();
        terms.push(term);
    }
    Ok(terms)
}
