//! Another engine's call held against this evaluator, case by case.

use super::{Case, MOST_CELLS};
use crate::deck;
use crate::guarded::Guarded;
use crate::judge::same;
use crate::reader::Symbol;
use std::hint::black_box;

/// The shape of the engine's call from C: 0, or the number of the refusal.
pub trait Engine: Sync {
    fn drill(&self, deck: &[u16], n: u32, after: &[u16], list: &mut [u16], count: &mut u64) -> u32;
}

/// This evaluator behind the same call.
pub struct Second;

impl Engine for Second {
    fn drill(&self, deck: &[u16], n: u32, after: &[u16], list: &mut [u16], count: &mut u64) -> u32 {
        match super::drill(deck, n, after, list.len()) {
            Ok(terms) => {
                let cells = terms.concat();
                list[..cells.len()].copy_from_slice(&cells);
                *count = terms.len() as u64;
                0
            }
            Err(number) => number,
        }
    }
}

/// What a case must come to, of these names.
pub const COMES_TO: [&str; 21] = [
    "from the start",
    "after a term",
    "after the last term",
    "a full list",
    "an empty list",
    "refused 1",
    "refused 2",
    "refused 3",
    "refused 4",
    "refused 5",
    "refused 19, N",
    "refused 19, a predicate",
    "refused 19, a variable",
    "refused 19, an unknown symbol",
    "refused 19, cells left over",
    "refused 19, unfinished",
    "refused 19, over N cells",
    "refused 19, over N cells and no term",
    "numbers",
    "after a number",
    "format 2 without numbers",
];

/// Stands in a result that is not to be written.
const UNSET: u64 = 0x5a5a_0f0f_5a5a;

/// Every word of the lent list, the count, and what is only read; gives what the case came to.
pub fn judge(engine: &dyn Engine, case: &Case) -> Result<&'static str, String> {
    let mut list = Guarded::<u16>::new(case.room, 0x5a5a);
    let (deck, after) = (case.deck.clone(), case.after.clone());
    let mut count = UNSET;
    let number = engine.drill(black_box(&deck), case.n, black_box(&after), list.lent(), &mut count);
    same("the deck is unchanged", &(*black_box(&deck) == case.deck), &true)?;
    same("the given term is unchanged", &(*black_box(&after) == case.after), &true)?;
    match case.drill() {
        Ok(terms) => {
            let cells = terms.concat();
            same("refusal", &number, &0)?;
            list.holds("list", &cells, cells.len())?;
            same("count", &count, &(terms.len() as u64))?;
            Ok(of_format_2(case, &cells).unwrap_or(label(case, terms.len(), cells.len())))
        }
        Err(refused) => {
            same("refusal", &number, &refused)?;
            same("count", &count, &UNSET)?;
            list.holds("list", &[], 0)?;
            Ok(match refused {
                19 => COMES_TO[10 + refused_for(case)],
                _ => COMES_TO[4 + refused as usize],
            })
        }
    }
}

/// Which of the refusals of 19 this is. Cells with several faults go by the first.
fn refused_for(case: &Case) -> usize {
    let symbols = deck::open(&case.deck).map_or(Vec::new(), |deck| deck.symbols);
    let fault = fault(&symbols, &case.after);
    match (case.n > MOST_CELLS, case.after.len() > case.n as usize) {
        (true, _) => 0,
        (false, false) => fault.expect("a fault"),
        (false, true) if fault.is_none() => 6,
        (false, true) => 7,
    }
}

/// The first thing that keeps cells from being one variable-free term.
fn fault(symbols: &[Symbol], cells: &[u16]) -> Option<usize> {
    let mut open = 1;
    for cell in cells {
        match symbols.get(*cell as usize) {
            _ if open == 0 => return Some(4),
            None if *cell >= 32_768 => return Some(2),
            None => return Some(3),
            Some(symbol) if symbol.predicate => return Some(1),
            Some(symbol) => open = open - 1 + symbol.arity,
        }
    }
    (open > 0).then_some(5)
}

/// What a case over a deck of format 2 has come to, if something is written.
fn of_format_2(case: &Case, cells: &[u16]) -> Option<&'static str> {
    let deck = deck::open(&case.deck).ok().filter(|deck| deck.format == 2 && !cells.is_empty())?;
    let number = |cell: &u16| deck.symbols[*cell as usize].value.is_some();
    match (cells.iter().any(number), case.after.last().is_some_and(number)) {
        (_, true) => Some(COMES_TO[19]),
        (true, _) => Some(COMES_TO[18]),
        _ => Some(COMES_TO[20]).filter(|_| deck.symbols.iter().all(|symbol| symbol.value.is_none())),
    }
}

fn label(case: &Case, terms: usize, cells: usize) -> &'static str {
    COMES_TO[match (terms, case.after.len()) {
        (0, 0) => 4,
        (0, _) if case.room >= 8 => 2,
        _ if cells > 0 && cells == case.room => 3,
        (_, 0) => 0,
        _ => 1,
    }]
}
