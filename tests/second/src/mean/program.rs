//! What the program over a column's mean prints.

use super::{mean, Column};
use crate::listing::{asked, deck_words, verdict, BUDGET};

/// The column's number takes the first two bytes of the input, low byte first; a missing one is 0. The query stands behind it.
fn parts(input: &[u8]) -> (u64, &[u8]) {
    let byte = |at: usize| input.get(at).copied().map_or(0, u64::from);
    (byte(0) + 256 * byte(1), &input[input.len().min(2)..])
}

/// The verdict, the sum, the number of answers, the mean's whole part and its remainder, in one line; or a refusal's line.
pub fn mean_program(deck: Option<&[u8]>, input: &[u8]) -> Vec<u8> {
    line(deck, input)
        .unwrap_or_else(|number| format!("refused {number}\n"))
        .into_bytes()
}

fn line(deck: Option<&[u8]>, input: &[u8]) -> Result<String, u32> {
    let (column, query) = parts(input);
    let run = asked(deck, query, None, BUDGET)?;
    let count = run.outcome.answers.len() as u64;
    let terms = run.terms as u64;
    let found = mean(
        &deck_words(deck)?,
        &run.outcome.answer_list(),
        Column {
            count,
            terms,
            column,
        },
    );
    let found = found.map_err(|refused| refused.number())?;
    Ok(format!(
        "{} {} {count} {} {}\n",
        verdict(&run.outcome),
        found.sum,
        found.whole,
        found.remainder
    ))
}
