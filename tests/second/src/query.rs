//! Checking a query: refusals 6 and 7.

use crate::deck::Deck;
use crate::reader::Reader;
use crate::terms::Literal;

pub struct Query {
    pub literals: Vec<Literal>,
    pub variables: usize,
}

const MOST_QUERY_CELLS: usize = 500;

pub fn read(deck: &Deck, cells: &[u16]) -> Result<Query, u32> {
    if cells.len() > MOST_QUERY_CELLS {
        return Err(6);
    }
    let mut reader = Reader::new(&deck.symbols, cells);
    let literals = reader.literals().ok_or(7u32)?;
    Ok(Query {
        literals,
        variables: reader.variables(),
    })
}
