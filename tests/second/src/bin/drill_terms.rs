//! The program that lists drill terms, by this evaluator: reads survey.dck, and N and the given term from standard input.

use second::drill::program::program;
use std::io::{stdin, stdout, Read, Write};

fn main() -> std::io::Result<()> {
    let mut input = Vec::new();
    stdin().take(20).read_to_end(&mut input)?;
    let deck = std::fs::read("survey.dck").ok();
    stdout().write_all(&program(deck.as_deref(), &input))
}
