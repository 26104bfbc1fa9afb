//! The program that writes the deck in `survey.dck` as text, by this evaluator.

use second::text::program::write_program;
use std::io::{stdout, Write};

fn main() -> std::io::Result<()> {
    let deck = std::fs::read("survey.dck").ok();
    stdout().write_all(&write_program(deck.as_deref()))
}
