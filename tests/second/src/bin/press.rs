//! The program that presses once, with the display in the file `display`, a member's list (the file `bars`) and a budget on standard input, by this evaluator.

use second::press::program::{digits, press_program};
use std::fs;
use std::io::{stdin, stdout, Read, Write};

fn main() -> std::io::Result<()> {
    let (deck, display) = (fs::read("survey.dck").ok(), fs::read("display").ok());
    let bars = fs::read("bars").ok();
    let mut limit = Vec::new();
    stdin().read_to_end(&mut limit)?;
    let text = press_program(deck.as_deref(), display.as_deref(), bars.as_deref(), digits(&limit));
    stdout().write_all(&text)
}
