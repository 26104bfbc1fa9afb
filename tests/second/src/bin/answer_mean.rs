//! The program that prints the mean of a column of a query's answers, over the deck in `survey.dck`, by this evaluator.

use second::mean::program::mean_program;
use std::io::{stdin, stdout, Read, Write};

fn main() -> std::io::Result<()> {
    let deck = std::fs::read("survey.dck").ok();
    let mut input = Vec::new();
    stdin().read_to_end(&mut input)?;
    stdout().write_all(&mean_program(deck.as_deref(), &input))
}
