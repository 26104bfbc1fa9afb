//! What the program that tries a clause prints.

use super::{lengthened, preview, Refused};
use crate::deck;
use crate::evaluation::Limits;
use crate::listing::{bar_words, deck_words, listing, words, ANSWERS, BUDGET, SCRATCH, STORE};

const MOST_CLAUSE_BYTES: usize = 32_768;
const MOST_QUERY_BYTES: usize = 1_000;

/// The deck's, the clause's and the member's list's files, if there are such, and standard input.
#[derive(Clone, Copy)]
pub struct Files<'a> {
    pub deck: Option<&'a [u8]>,
    pub clause: Option<&'a [u8]>,
    pub query: &'a [u8],
    pub bars: Option<&'a [u8]>,
}

pub fn preview_program(files: Files<'_>) -> Vec<u8> {
    let text = printed(files).unwrap_or_else(|number| format!("refused {number}\n"));
    text.into_bytes()
}

/// A clause that is not words is no cells; of one with more cells than a deck has words, so many are taken. The query is looked at after the copy.
fn printed(files: Files<'_>) -> Result<String, u32> {
    let deck = deck_words(files.deck)?;
    let symbols = deck::open(&deck)?.symbols;
    let bytes = files.clause.map_or(&[][..], |clause| &clause[..clause.len().min(MOST_CLAUSE_BYTES)]);
    let clause = if bytes.len() % 2 == 0 { words(bytes) } else { Vec::new() };
    let copy = lengthened(&deck, &clause).ok_or(1u32)?;
    deck::open(&copy)?;
    if files.query.len() > MOST_QUERY_BYTES {
        return Err(6);
    }
    if files.query.len() % 2 == 1 {
        return Err(7);
    }
    let limits = Limits {
        budget: BUDGET,
        answer_words: ANSWERS,
        store_words: STORE,
    };
    let bars = bar_words(&deck, files.bars);
    let outcome = preview(&deck, &clause, &words(files.query), &bars, limits, SCRATCH).map_err(Refused::number)?;
    Ok(listing(&symbols, &outcome))
}
