//! The program that reads a text from standard input, by this evaluator.

use second::text::program::{read_program, MOST_TEXT_BYTES};
use std::io::{stdin, stdout, Read, Write};

fn main() -> std::io::Result<()> {
    let mut text = Vec::new();
    stdin()
        .take(MOST_TEXT_BYTES as u64 + 1)
        .read_to_end(&mut text)?;
    stdout().write_all(&read_program(&text))
}
