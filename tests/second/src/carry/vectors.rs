//! The file of continued runs with their results.

use super::{CarryCase, Given, Refused};
use crate::vectors::{
    case_lines, expected, field, line, numbers, parse_expected, print_expected, Expected,
};

/// The result of a case by this evaluator.
pub fn result(case: &CarryCase) -> Expected {
    expected(case.run().map_err(Refused::number))
}

pub fn parse(text: &str) -> Result<Vec<(CarryCase, Expected)>, String> {
    let mut lines = case_lines(text).peekable();
    let mut cases = Vec::new();
    while lines.peek().is_some() {
        cases.push(parse_case(&mut lines)?);
    }
    Ok(cases)
}

fn parse_case<'a>(
    lines: &mut impl Iterator<Item = &'a str>,
) -> Result<(CarryCase, Expected), String> {
    let name = field(lines.next(), "case")?.to_string();
    let deck = numbers(field(lines.next(), "deck")?)?;
    let mut store: Vec<u16> = numbers(field(lines.next(), "store")?)?;
    let [fill] = numbers::<usize>(field(lines.next(), "fill")?)?[..] else {
        return Err(format!("{name}: one number expected"));
    };
    let last = store.last().copied().unwrap_or(0);
    store.resize(store.len() + fill, last);
    let [pending, parked, terms] = numbers(field(lines.next(), "goals")?)?[..] else {
        return Err(format!("{name}: three numbers expected"));
    };
    let [budget, answer_words, scratch_words] =
        numbers::<usize>(field(lines.next(), "sizes")?)?[..]
    else {
        return Err(format!("{name}: three sizes expected"));
    };
    let bars = numbers(field(lines.next(), "bars")?)?;
    let case = CarryCase {
        deck,
        store,
        given: Given {
            pending,
            parked,
            terms,
        },
        bars,
        budget: u32::try_from(budget).map_err(|_| format!("{name}: budget"))?,
        answer_words,
        scratch_words,
        name,
    };
    Ok((case, parse_expected(lines)?))
}

/// A case and its result, as in the file.
pub fn print(case: &CarryCase, expected: &Expected) -> String {
    let last = case.store.last();
    let differs = case.store.iter().rposition(|word| Some(word) != last);
    let kept = differs.map_or(1, |at| at + 2).min(case.store.len());
    let given = case.given;
    format!("case {}\n", case.name)
        + &line("deck", &case.deck)
        + &line("store", &case.store[..kept])
        + &format!("fill {}\n", case.store.len() - kept)
        + &format!("goals {} {} {}\n", given.pending, given.parked, given.terms)
        + &format!(
            "sizes {} {} {}\n",
            case.budget, case.answer_words, case.scratch_words
        )
        + &line("bars", &case.bars)
        + &print_expected(expected)
}
