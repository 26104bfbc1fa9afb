//! The file of calls with their results.

use super::Case;
use crate::vectors::{case_lines, field, numbers};

/// How many terms and their cells, or the number of the refusal.
pub type Expected = Result<(usize, Vec<u16>), u32>;

pub fn parse(text: &str) -> Result<Vec<(Case, Expected)>, String> {
    let mut lines = case_lines(text).peekable();
    let mut cases = Vec::new();
    while lines.peek().is_some() {
        let name = field(lines.next(), "case")?.to_string();
        let deck = numbers(field(lines.next(), "deck")?)?;
        let after = numbers(field(lines.next(), "after")?)?;
        let sizes: Vec<usize> = numbers(field(lines.next(), "drill")?)?;
        let [n, room] = sizes[..] else {
            return Err(format!("{name}: not N and a length"));
        };
        let result = lines.next();
        let expected = match field(result, "refused") {
            Ok(number) => Err(number.parse().map_err(|_| "not a number")?),
            Err(_) => {
                let count = field(result, "terms")?.parse().map_err(|_| "not a number")?;
                Ok((count, numbers(field(lines.next(), "cells")?)?))
            }
        };
        let n = u32::try_from(n).map_err(|_| "N over 32 bits")?;
        cases.push((Case { name, deck, n, after, room }, expected));
    }
    Ok(cases)
}

/// The result of a case by this evaluator.
pub fn result(case: &Case) -> Expected {
    case.drill().map(|terms| (terms.len(), terms.concat()))
}

/// A case as it stands in the file, without its result.
pub fn print(case: &Case) -> String {
    let row = |words: &[u16]| words.iter().map(|word| format!(" {word}")).collect::<String>();
    let Case { name, deck, n, after, room } = case;
    format!("case {name}\ndeck{}\nafter{}\ndrill {n} {room}\n", row(deck), row(after))
}
