//! The program that tries a clause (the file `clause`) for a member (the file `bars`), by this evaluator.

use second::preview::program::{preview_program, Files};
use std::fs;
use std::io::{stdin, stdout, Read, Write};

fn main() -> std::io::Result<()> {
    let [deck, clause, bars] = ["survey.dck", "clause", "bars"].map(|name| fs::read(name).ok());
    let mut query = Vec::new();
    stdin().read_to_end(&mut query)?;
    let files = Files {
        deck: deck.as_deref(),
        clause: clause.as_deref(),
        query: &query,
        bars: bars.as_deref(),
    };
    stdout().write_all(&preview_program(files))
}
