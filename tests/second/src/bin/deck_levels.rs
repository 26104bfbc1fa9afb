//! The program that prints the levels of the deck in `survey.dck`, by this evaluator.

use second::levels::program::levels_program;
use std::io::{stdout, Write};

fn main() -> std::io::Result<()> {
    let deck = std::fs::read("survey.dck").ok();
    stdout().write_all(&levels_program(deck.as_deref()))
}
