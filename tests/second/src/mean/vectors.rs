//! The file of calls with their results.

use super::{Column, Mean, MeanCase, Refused};
use crate::vectors::{case_lines, field, line, numbers};

/// The mean, or the number of the refusal.
pub type Expected = Result<Mean, u32>;

pub fn parse(text: &str) -> Result<Vec<(MeanCase, Expected)>, String> {
    let mut lines = case_lines(text).peekable();
    let mut cases = Vec::new();
    while lines.peek().is_some() {
        let name = field(lines.next(), "case")?.to_string();
        let deck = numbers(field(lines.next(), "deck")?)?;
        let list = numbers(field(lines.next(), "list")?)?;
        let asked: Vec<u64> = numbers(field(lines.next(), "column")?)?;
        let [count, terms, column] = asked[..] else {
            return Err(format!("{name}: three numbers expected"));
        };
        let asked = Column { count, terms, column };
        let expected = result_line(lines.next())?;
        cases.push((MeanCase { name, deck, list, asked }, expected));
    }
    Ok(cases)
}

fn result_line(line: Option<&str>) -> Result<Expected, String> {
    if let Ok(number) = field(line, "refused") {
        return Ok(Err(number.parse().map_err(|_| format!("refused {number}"))?));
    }
    let found: Vec<i64> = numbers(field(line, "mean")?)?;
    let [sum, whole, remainder] = found[..] else {
        return Err("a sum and two parts expected".to_string());
    };
    let remainder = remainder.try_into().map_err(|_| "a remainder below 0")?;
    Ok(Ok(Mean { sum, whole, remainder }))
}

/// The result of a case by this evaluator.
pub fn result(case: &MeanCase) -> Expected {
    case.mean().map_err(Refused::number)
}

/// A case as it stands in the file, without its result.
pub fn print(case: &MeanCase) -> String {
    let Column { count, terms, column } = case.asked;
    let lists = line("deck", &case.deck) + &line("list", &case.list);
    format!("case {}\n{lists}column {count} {terms} {column}\n", case.name)
}
