//! The program with a member's list (the file `bars`) and a budget (the file `budget`) that also writes the goals left to `open.goals.new`, by this evaluator.

use second::carry::program::open_program;
use second::listing::BUDGET;
use std::fs;
use std::io::{stdin, stdout, Read, Write};

fn main() -> std::io::Result<()> {
    let deck = fs::read("survey.dck").ok();
    let bars = fs::read("bars").ok();
    let budget =
        fs::read_to_string("budget").map_or(BUDGET, |text| text.parse().expect("a budget"));
    let mut query = Vec::new();
    stdin().read_to_end(&mut query)?;
    let (text, goals) = open_program(deck.as_deref(), &query, bars.as_deref(), budget);
    if let Some(goals) = goals {
        fs::write("open.goals.new", goals)?;
    }
    stdout().write_all(&text)
}
