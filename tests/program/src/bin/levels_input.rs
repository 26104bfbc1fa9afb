//! `levels_input [folder] [random cases]`: runs the program `deck_levels` of a folder on decks of all kinds. Standard output must be the
//! second evaluator's, byte for byte, the exit status 0, and it must return.

use program::inputs::{bytes, largest_deck, L, NUMBERS};
use program::run::{built, Input, Program};
use second::levels::program::levels_program;
use second::levels::vectors::parse;
use second::random::levels::{largest, level_case, SHAPES};
use std::collections::BTreeMap;
use std::io;
use std::time::Instant;

const VECTORS: &str = concat!(env!("CARGO_MANIFEST_DIR"), "/../vectors/levels.txt");

fn main() -> io::Result<()> {
    let mut arguments = std::env::args().skip(1);
    let folder = arguments.next();
    let seeds = arguments.next().map_or(500, |text| text.parse().expect("a number"));
    let start = Instant::now();
    let program = Program::new(&built(folder.as_deref(), "deck_levels"))?;
    let mut seen = BTreeMap::new();
    program.clear()?;
    *seen.entry(hold(&program, "no deck", None)?).or_insert(0) += 1;
    for (name, deck) in decks(seeds)? {
        program.put(&deck)?;
        *seen.entry(hold(&program, &name, Some(&deck))?).or_insert(0) += 1;
    }
    program.clear()?;
    let runs: usize = seen.values().sum();
    println!("{runs} runs of the program over levels agree, {:.0?}: {seen:?}", start.elapsed());
    Ok(())
}

fn decks(seeds: u64) -> io::Result<Vec<(String, Vec<u8>)>> {
    let mut decks = vec![("deck L".to_string(), bytes(&L)), ("the largest deck".to_string(), bytes(&largest_deck()))];
    decks.push(("numbers".to_string(), bytes(&NUMBERS)));
    for (case, _) in parse(&std::fs::read_to_string(VECTORS)?).map_err(io::Error::other)? {
        decks.push((case.name, bytes(&case.deck)));
    }
    decks.extend((0..seeds).map(level_case).map(|case| (case.name, bytes(&case.deck))));
    decks.extend((0..SHAPES).map(largest).map(|(name, deck)| (name, bytes(&deck))));
    for length in [0, 1, 15, 16, 17, 32_766, 32_767, 32_768, 32_769, 32_770, 65_536] {
        let mut deck = bytes(&largest_deck());
        deck.resize(length, 0);
        decks.push((format!("{length} bytes"), deck));
    }
    Ok(decks)
}

/// Gives what was printed, in a word or two.
fn hold(program: &Program, name: &str, deck: Option<&[u8]>) -> io::Result<String> {
    let ended = program.run(Input::Pipe(&[]))?;
    let expected = levels_program(deck);
    let shown = |text: &[u8]| format!("{:?}", &text[..text.len().min(40)]);
    assert!(ended.stdout == expected, "{name}: printed {}, and not {}", shown(&ended.stdout), shown(&expected));
    assert!(ended.stderr.is_empty(), "{name}: said {}", shown(&ended.stderr));
    assert!(ended.status.code() == Some(0), "{name}: {}", ended.status);
    let refused = ended.stdout.starts_with(b"refused").then(|| String::from_utf8_lossy(&ended.stdout).trim().to_string());
    Ok(refused.unwrap_or_else(|| ["levels", "named"][ended.stdout[0] as usize].to_string()))
}
