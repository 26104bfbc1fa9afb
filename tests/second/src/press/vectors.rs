//! The file of presses with their results.

use super::{PressCase, Record, STEPPED};
use crate::vectors::{case_lines, field, line, numbers};
use std::fmt::Write;

/// What a case must give.
#[derive(Clone, Debug, PartialEq, Eq)]
pub enum Expected {
    Refused(u32),
    Pressed {
        outcome: u32,
        record: Record,
        answers: Vec<u16>,
        store: Vec<u16>,
    },
}

pub(super) const OUTCOMES: [&str; 5] = ["finished", "budget", "answers", "store", "stepped"];

/// The result of a case by this evaluator.
pub fn result(case: &PressCase) -> Expected {
    match case.press() {
        Err(refused) => Expected::Refused(refused.number()),
        Ok(pressed) => Expected::Pressed {
            outcome: pressed.number(),
            record: case.record.after(&pressed.outcome),
            answers: pressed.outcome.answer_list(),
            store: pressed.outcome.store_start(),
        },
    }
}

pub fn parse(text: &str) -> Result<Vec<(PressCase, Expected)>, String> {
    let mut lines = case_lines(text).peekable();
    let mut cases = Vec::new();
    while lines.peek().is_some() {
        cases.push(parse_case(&mut lines)?);
    }
    Ok(cases)
}

fn parse_case<'a>(
    lines: &mut impl Iterator<Item = &'a str>,
) -> Result<(PressCase, Expected), String> {
    let name = field(lines.next(), "case")?.to_string();
    let deck = numbers(field(lines.next(), "deck")?)?;
    let mut store: Vec<u16> = numbers(field(lines.next(), "store")?)?;
    let [fill] = numbers::<usize>(field(lines.next(), "fill")?)?[..] else {
        return Err(format!("{name}: one number expected"));
    };
    let last = store.last().copied().unwrap_or(0);
    store.resize(store.len() + fill, last);
    let record = record(&numbers(field(lines.next(), "record")?)?)?;
    let [terms] = numbers(field(lines.next(), "terms")?)?[..] else {
        return Err(format!("{name}: one number expected"));
    };
    let [budget, answer_words, scratch_words] =
        numbers::<usize>(field(lines.next(), "sizes")?)?[..]
    else {
        return Err(format!("{name}: three sizes expected"));
    };
    let bars = numbers(field(lines.next(), "bars")?)?;
    let case = PressCase {
        deck,
        store,
        record,
        terms,
        bars,
        budget: u32::try_from(budget).map_err(|_| format!("{name}: budget"))?,
        answer_words,
        scratch_words,
        name,
    };
    Ok((case, parse_expected(lines)?))
}

fn record(numbers: &[u64]) -> Result<Record, String> {
    let [steps, cost, answers, pending, parked] = *numbers else {
        return Err("a record has five numbers".to_string());
    };
    Ok(Record {
        steps,
        cost,
        answers,
        pending,
        parked,
    })
}

fn parse_expected<'a>(lines: &mut impl Iterator<Item = &'a str>) -> Result<Expected, String> {
    let line = lines.next();
    if let Ok(number) = field(line, "refused") {
        let number = number.parse().map_err(|_| format!("refused {number}"))?;
        return Ok(Expected::Refused(number));
    }
    let rest = field(line, "pressed")?;
    let (name, rest) = rest.split_once(' ').ok_or("pressed: no numbers")?;
    let outcome = OUTCOMES.iter().position(|one| *one == name);
    Ok(Expected::Pressed {
        outcome: outcome.ok_or(format!("pressed {name}"))? as u32,
        record: record(&numbers(rest)?)?,
        answers: numbers(field(lines.next(), "answers")?)?,
        store: numbers(field(lines.next(), "store")?)?,
    })
}

/// A case and its result, as in the file.
pub fn print(case: &PressCase, expected: &Expected) -> String {
    let last = case.store.last();
    let differs = case.store.iter().rposition(|word| Some(word) != last);
    let kept = differs.map_or(1, |at| at + 2).min(case.store.len());
    let mut text = format!("case {}\n", case.name) + &line("deck", &case.deck) + &line("store", &case.store[..kept]);
    write!(
        text,
        "fill {}\nrecord {}\nterms {}\nsizes {} {} {}\n",
        case.store.len() - kept,
        print_record(case.record),
        case.terms,
        case.budget,
        case.answer_words,
        case.scratch_words
    )
    .expect("text can be written");
    text + &line("bars", &case.bars) + &print_expected(expected)
}

fn print_record(record: Record) -> String {
    let Record {
        steps,
        cost,
        answers,
        pending,
        parked,
    } = record;
    format!("{steps} {cost} {answers} {pending} {parked}")
}

fn print_expected(expected: &Expected) -> String {
    match expected {
        Expected::Refused(number) => format!("refused {number}\n"),
        Expected::Pressed {
            outcome,
            record,
            answers,
            store,
        } => {
            let name = OUTCOMES[(*outcome).min(STEPPED) as usize];
            format!("pressed {name} {}\n", print_record(*record)) + &line("answers", answers) + &line("store", store)
        }
    }
}
