//! The printed listing.

use crate::evaluation::{Outcome, Stop};
use crate::reader::Symbol;
use crate::rights::no_bars;
use crate::terms::VARIABLE;
use crate::{deck, query, run};

pub const BUDGET: u32 = 100_000;
pub const STORE: usize = 16_384;
pub const SCRATCH: usize = 8_192;
pub const ANSWERS: usize = 8_192;
const MOST_DECK_BYTES: usize = 32_768;
const MOST_QUERY_BYTES: usize = 1_000;
const MOST_BAR_BYTES: usize = 8_192;

/// What the program prints; no deck stands for a missing file.
pub fn program(deck_bytes: Option<&[u8]>, query_bytes: &[u8]) -> Vec<u8> {
    match asked(deck_bytes, query_bytes, None, BUDGET) {
        Ok(asked) => listing(&asked.symbols, &asked.outcome).into_bytes(),
        Err(number) => format!("refused {number}\n").into_bytes(),
    }
}

/// A query over a deck's file.
pub struct Asked {
    pub symbols: Vec<Symbol>,
    pub outcome: Outcome,
    /// Number of answer terms.
    pub terms: usize,
}

/// The words of a deck's file, or 1.
pub fn deck_words(bytes: Option<&[u8]>) -> Result<Vec<u16>, u32> {
    let bytes = bytes.ok_or(1u32)?;
    if bytes.len() > MOST_DECK_BYTES || bytes.len() % 2 == 1 {
        return Err(1);
    }
    Ok(words(bytes))
}

/// A member's list from its file. Without one nothing is barred; what is not words, or too many, is 15, as no list at all is.
pub fn bar_words(deck: &[u16], file: Option<&[u8]>) -> Vec<u16> {
    match file {
        None => no_bars(deck),
        Some(bytes) if bytes.len() % 2 == 1 || bytes.len() > MOST_BAR_BYTES => Vec::new(),
        Some(bytes) => words(bytes),
    }
}

pub fn asked(
    deck_bytes: Option<&[u8]>,
    query_bytes: &[u8],
    bars: Option<&[u8]>,
    budget: u32,
) -> Result<Asked, u32> {
    let deck_words = deck_words(deck_bytes)?;
    let deck = deck::open(&deck_words)?;
    if query_bytes.len() > MOST_QUERY_BYTES {
        return Err(6);
    }
    if query_bytes.len() % 2 == 1 {
        return Err(7);
    }
    let query_words = words(query_bytes);
    let terms = query::read(&deck, &query_words)?.variables;
    let outcome = run(
        &deck_words,
        &query_words,
        &bar_words(&deck_words, bars),
        budget,
        ANSWERS,
        STORE,
        SCRATCH,
    )?;
    Ok(Asked {
        symbols: deck.symbols,
        outcome,
        terms,
    })
}

pub fn words(bytes: &[u8]) -> Vec<u16> {
    let pairs = bytes.chunks_exact(2);
    pairs
        .map(|pair| u16::from_le_bytes([pair[0], pair[1]]))
        .collect()
}

pub fn listing(symbols: &[Symbol], outcome: &Outcome) -> String {
    let mut text = format!(
        "{}\n{} {} {} {} {} {}\n",
        verdict(outcome),
        stop_name(outcome.stop),
        outcome.steps,
        outcome.answers.len(),
        outcome.pending.len(),
        outcome.parked.len(),
        outcome.cost
    );
    for answer in &outcome.answers {
        answer_line(symbols, answer, &mut text);
    }
    text
}

pub fn verdict(outcome: &Outcome) -> &'static str {
    let closed = outcome.stop == Stop::Finished && outcome.parked.is_empty();
    match (closed, outcome.answers.is_empty()) {
        (true, false) => "all",
        (true, true) => "no",
        (false, _) => "open",
    }
}

pub fn stop_name(stop: Stop) -> &'static str {
    match stop {
        Stop::Finished => "finished",
        Stop::Budget => "budget",
        Stop::Answers => "answers",
        Stop::Store => "store",
    }
}

fn answer_line(symbols: &[Symbol], goal: &[u16], text: &mut String) {
    let mut cells = goal[2..].iter();
    if cells.as_slice().is_empty() {
        text.push_str("true");
    }
    let mut between = "";
    while !cells.as_slice().is_empty() {
        text.push_str(between);
        term(symbols, &mut cells, text);
        between = " ";
    }
    text.push('\n');
}

fn term(symbols: &[Symbol], cells: &mut std::slice::Iter<u16>, text: &mut String) {
    let cell = *cells.next().expect("a whole term");
    if cell >= VARIABLE {
        text.push_str(&format!("v{}", cell - VARIABLE));
        return;
    }
    text.push_str(&format!("s{cell}"));
    for at in 0..symbols[cell as usize].arity {
        text.push(if at == 0 { '(' } else { ',' });
        term(symbols, cells, text);
    }
    if symbols[cell as usize].arity > 0 {
        text.push(')');
    }
}
