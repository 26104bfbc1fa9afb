//! The files of texts read and of decks written, with their results.

use super::{ReadCase, Refused, WriteCase};
use crate::vectors::{case_lines, field, numbers};

/// Words or bytes, or the number of the refusal.
pub type Expected<T> = Result<Vec<T>, u32>;

pub fn parse_reads(text: &str) -> Result<Vec<(ReadCase, Expected<u16>)>, String> {
    let mut lines = case_lines(text).peekable();
    let mut cases = Vec::new();
    while lines.peek().is_some() {
        let name = field(lines.next(), "case")?.to_string();
        let text = numbers(field(lines.next(), "text")?)?;
        let room = number(field(lines.next(), "room")?)?;
        let expected = expected(lines.next(), "deck")?;
        cases.push((ReadCase { name, text, room }, expected));
    }
    Ok(cases)
}

pub fn parse_writes(text: &str) -> Result<Vec<(WriteCase, Expected<u8>)>, String> {
    let mut lines = case_lines(text).peekable();
    let mut cases = Vec::new();
    while lines.peek().is_some() {
        let name = field(lines.next(), "case")?.to_string();
        let deck = numbers(field(lines.next(), "deck")?)?;
        let room = number(field(lines.next(), "room")?)?;
        let expected = expected(lines.next(), "text")?;
        cases.push((WriteCase { name, deck, room }, expected));
    }
    Ok(cases)
}

fn number<N: std::str::FromStr>(text: &str) -> Result<N, String> {
    text.parse().map_err(|_| format!("not a number: {text}"))
}

fn expected<T: std::str::FromStr>(line: Option<&str>, key: &str) -> Result<Expected<T>, String> {
    match field(line, "refused") {
        Ok(refusal) => Ok(Err(number(refusal)?)),
        Err(_) => Ok(Ok(numbers(field(line, key)?)?)),
    }
}

/// The result of a case by this evaluator.
pub fn read_result(case: &ReadCase) -> Expected<u16> {
    case.read().map_err(Refused::number)
}
