//! The file of previews with their results.

use super::{PreviewCase, Refused};
use crate::case::Case;
use crate::vectors::{self, case_lines, field, line, numbers, parse_expected, Expected};

pub fn parse(text: &str) -> Result<Vec<(PreviewCase, Expected)>, String> {
    let mut lines = case_lines(text).peekable();
    let mut cases = Vec::new();
    while lines.peek().is_some() {
        let name = field(lines.next(), "case")?.to_string();
        let deck = numbers(field(lines.next(), "deck")?)?;
        let clause = numbers(field(lines.next(), "clause")?)?;
        let query = numbers(field(lines.next(), "query")?)?;
        let sizes: Vec<usize> = numbers(field(lines.next(), "sizes")?)?;
        let [budget, answer_words, store_words, scratch_words] = sizes[..] else {
            return Err(format!("{name}: four sizes expected"));
        };
        let budget = u32::try_from(budget).map_err(|_| format!("{name}: budget"))?;
        let bars = numbers(field(lines.next(), "bars")?)?;
        let run = Case {
            name,
            deck,
            query,
            bars,
            budget,
            answer_words,
            store_words,
            scratch_words,
        };
        cases.push((PreviewCase { run, clause }, parse_expected(&mut lines)?));
    }
    Ok(cases)
}

/// The result of a case by this evaluator.
pub fn result(case: &PreviewCase) -> Expected {
    vectors::expected(case.preview().map_err(Refused::number))
}

/// A case as it stands in the file, without its result.
pub fn print(case: &PreviewCase) -> String {
    let Case { name, deck, query, bars, budget, answer_words, store_words, scratch_words } = &case.run;
    let lists = line("deck", deck) + &line("clause", &case.clause) + &line("query", query);
    let sizes = format!("sizes {budget} {answer_words} {store_words} {scratch_words}\n");
    format!("case {name}\n{lists}{sizes}") + &line("bars", bars)
}
