//! The text form of runs with their results.

use crate::case::Case;
use crate::evaluation::Outcome;
use crate::listing::stop_name;
use std::fmt::Write;

/// What a case must give.
#[derive(Clone, Debug, PartialEq, Eq)]
pub enum Expected {
    Refused(u32),
    Ran(Ran),
}

#[derive(Clone, Debug, PartialEq, Eq)]
pub struct Ran {
    pub stop: String,
    pub steps: u32,
    pub cost: u32,
    /// Numbers of answers, pending and parked goals.
    pub counts: [usize; 3],
    pub answers: Vec<u16>,
    pub store: Vec<u16>,
}

/// The result of a case by this evaluator.
pub fn result(case: &Case) -> Expected {
    expected(case.run())
}

pub(crate) fn expected(result: Result<Outcome, u32>) -> Expected {
    match result {
        Err(number) => Expected::Refused(number),
        Ok(outcome) => Expected::Ran(ran(&outcome)),
    }
}

fn ran(outcome: &Outcome) -> Ran {
    Ran {
        stop: stop_name(outcome.stop).to_string(),
        steps: outcome.steps,
        cost: outcome.cost,
        counts: [
            outcome.answers.len(),
            outcome.pending.len(),
            outcome.parked.len(),
        ],
        answers: outcome.answer_list(),
        store: outcome.store_start(),
    }
}

pub fn parse(text: &str) -> Result<Vec<(Case, Expected)>, String> {
    let mut lines = case_lines(text).peekable();
    let mut cases = Vec::new();
    while lines.peek().is_some() {
        cases.push(parse_case(&mut lines)?);
    }
    Ok(cases)
}

/// The lines that are not empty and no heading.
pub(crate) fn case_lines(text: &str) -> impl Iterator<Item = &str> {
    let lines = text.lines().map(str::trim);
    lines.filter(|line| !line.is_empty() && !line.starts_with('#'))
}

fn parse_case<'a>(lines: &mut impl Iterator<Item = &'a str>) -> Result<(Case, Expected), String> {
    let name = field(lines.next(), "case")?.to_string();
    let deck = numbers(field(lines.next(), "deck")?)?;
    let query = numbers(field(lines.next(), "query")?)?;
    let sizes: Vec<usize> = numbers(field(lines.next(), "sizes")?)?;
    let bars = numbers(field(lines.next(), "bars")?)?;
    let [budget, answer_words, store_words, scratch_words] = sizes[..] else {
        return Err(format!("{name}: four sizes expected"));
    };
    let budget = u32::try_from(budget).map_err(|_| format!("{name}: budget"))?;
    let expected = parse_expected(lines)?;
    let case = Case {
        name,
        deck,
        query,
        bars,
        budget,
        answer_words,
        store_words,
        scratch_words,
    };
    Ok((case, expected))
}

pub(crate) fn parse_expected<'a>(
    lines: &mut impl Iterator<Item = &'a str>,
) -> Result<Expected, String> {
    let line = lines.next();
    if let Ok(number) = field(line, "refused") {
        let number = number.parse().map_err(|_| format!("refused {number}"))?;
        return Ok(Expected::Refused(number));
    }
    let rest = field(line, "ran")?;
    let (stop, rest) = rest.split_once(' ').ok_or("ran: no numbers")?;
    let numbers_: Vec<u32> = numbers(rest)?;
    let [steps, answers, pending, parked, cost] = numbers_[..] else {
        return Err(format!("ran {rest}: five numbers expected"));
    };
    Ok(Expected::Ran(Ran {
        stop: stop.to_string(),
        steps,
        cost,
        counts: [answers as usize, pending as usize, parked as usize],
        answers: numbers(field(lines.next(), "answers")?)?,
        store: numbers(field(lines.next(), "store")?)?,
    }))
}

pub(crate) fn field<'a>(line: Option<&'a str>, key: &str) -> Result<&'a str, String> {
    let line = line.ok_or(format!("{key} expected at the end"))?;
    let (word, rest) = line.split_once(' ').unwrap_or((line, ""));
    if word == key {
        Ok(rest)
    } else {
        Err(format!("{key} expected, found {word}"))
    }
}

pub(crate) fn numbers<N: std::str::FromStr>(text: &str) -> Result<Vec<N>, String> {
    let parts = text.split_whitespace();
    parts
        .map(|part| part.parse().map_err(|_| format!("not a number: {part}")))
        .collect()
}

/// A case and its result, as in the file of runs.
pub fn print(case: &Case, expected: &Expected) -> String {
    print_case(case) + &print_expected(expected)
}

pub(crate) fn print_expected(expected: &Expected) -> String {
    let mut text = String::new();
    match expected {
        Expected::Refused(number) => writeln!(text, "refused {number}"),
        Expected::Ran(ran) => {
            let [answers, pending, parked] = ran.counts;
            let counts = format!("{} {answers} {pending} {parked} {}", ran.steps, ran.cost);
            let lists = line("answers", &ran.answers) + &line("store", &ran.store);
            write!(text, "ran {} {counts}\n{lists}", ran.stop)
        }
    }
    .expect("text can be written");
    text
}

fn print_case(case: &Case) -> String {
    let sizes = format!(
        "sizes {} {} {} {}\n",
        case.budget, case.answer_words, case.store_words, case.scratch_words
    );
    format!("case {}\n", case.name)
        + &line("deck", &case.deck)
        + &line("query", &case.query)
        + &sizes
        + &line("bars", &case.bars)
}

pub(crate) fn line(key: &str, words: &[u16]) -> String {
    let mut text = key.to_string();
    for word in words {
        write!(text, " {word}").expect("text can be written");
    }
    text.push('\n');
    text
}
