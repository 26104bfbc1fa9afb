//! What the program that lists drill terms prints.

use super::drill;
use crate::deck;
use crate::reader::Symbol;

const MOST_DECK_BYTES: usize = 32_768;
const LIST_WORDS: usize = 4_096;
/// N and a term of 8 cells.
const MOST_INPUT_BYTES: usize = 18;

/// One line a term, or a line with the refusal; no deck stands for a missing file.
pub fn program(deck: Option<&[u8]>, input: &[u8]) -> Vec<u8> {
    match lines(deck, input) {
        Ok(text) => text.into_bytes(),
        Err(number) => format!("refused {number}\n").into_bytes(),
    }
}

fn lines(deck: Option<&[u8]>, input: &[u8]) -> Result<String, u32> {
    let bytes = deck.filter(|bytes| bytes.len() <= MOST_DECK_BYTES).ok_or(1u32)?;
    let words = words(bytes).ok_or(1u32)?;
    let symbols = deck::open(&words)?.symbols;
    let asked = words_of_input(input).ok_or(19u32)?;
    let terms = drill(&words, asked[0].into(), &asked[1..], LIST_WORDS)?;
    Ok(terms.iter().map(|term| format!("{}\n", text(&symbols, term).0)).collect())
}

fn words_of_input(input: &[u8]) -> Option<Vec<u16>> {
    words(input).filter(|words| !words.is_empty() && input.len() <= MOST_INPUT_BYTES)
}

fn words(bytes: &[u8]) -> Option<Vec<u16>> {
    let pairs = bytes.chunks_exact(2);
    let whole = pairs.remainder().is_empty();
    whole.then(|| pairs.map(|pair| u16::from_le_bytes([pair[0], pair[1]])).collect())
}

/// The text of the first term, and the cells after it.
fn text<'a>(symbols: &[Symbol], cells: &'a [u16]) -> (String, &'a [u16]) {
    let (first, mut rest) = cells.split_first().expect("a term");
    let mut arguments = Vec::new();
    for _ in 0..symbols[*first as usize].arity {
        let (argument, after) = text(symbols, rest);
        arguments.push(argument);
        rest = after;
    }
    let name = format!("s{first}");
    match arguments[..] {
        [] => (name, rest),
        _ => (format!("{name}({})", arguments.join(",")), rest),
    }
}
