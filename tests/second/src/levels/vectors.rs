//! The file of decks with their levels.

use super::{LevelCase, Levels, NUMBERS};
use crate::vectors::{case_lines, field, numbers};

pub fn parse(text: &str) -> Result<Vec<(LevelCase, Result<Levels, u32>)>, String> {
    let mut lines = case_lines(text).peekable();
    let mut cases = Vec::new();
    while lines.peek().is_some() {
        let name = field(lines.next(), "case")?.to_string();
        let deck = numbers(field(lines.next(), "deck")?)?;
        let result = lines.next();
        let named = lines.next_if(|line| field(Some(line), "named").is_ok());
        let expected = match field(result, "refused") {
            Ok(refusal) => Err(number(refusal)?),
            Err(_) => Ok(Levels {
                numbers: padded(numbers(field(result, "levels")?)?),
                circular: named.map(|line| number(field(Some(line), "named")?)).transpose()?,
            }),
        };
        cases.push((LevelCase { name, deck, room: NUMBERS }, expected));
    }
    Ok(cases)
}

/// The file has the numbers up to the last that is not 0.
fn padded(mut numbers: Vec<u16>) -> Vec<u16> {
    numbers.resize(NUMBERS, 0);
    numbers
}

fn number<N: std::str::FromStr>(text: &str) -> Result<N, String> {
    text.parse().map_err(|_| format!("not a number: {text}"))
}
