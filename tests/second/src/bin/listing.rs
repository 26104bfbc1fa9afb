//! The program: `survey.dck` and a query on standard input, listed.

use std::io::{Read, Write};

fn main() -> std::io::Result<()> {
    let deck = std::fs::read("survey.dck").ok();
    let mut query = Vec::new();
    std::io::stdin().read_to_end(&mut query)?;
    let text = second::program(deck.as_deref(), &query);
    std::io::stdout().write_all(&text)
}
