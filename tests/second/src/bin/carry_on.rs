//! The program that carries on from `open.goals`, with a member's list (the file `bars`) and a budget on standard input, and writes `open.goals.new`, by this evaluator.

use second::carry::program::carry_program;
use std::fs;
use std::io::{read_to_string, stdin, stdout, Write};

fn main() -> std::io::Result<()> {
    let (deck, goals) = (fs::read("survey.dck").ok(), fs::read("open.goals").ok());
    let bars = fs::read("bars").ok();
    let budget = read_to_string(stdin())?.parse().expect("a budget");
    let (text, goals) = carry_program(deck.as_deref(), goals.as_deref(), bars.as_deref(), budget);
    if let Some(goals) = goals {
        fs::write("open.goals.new", goals)?;
    }
    stdout().write_all(&text)
}
