//! `preview_input [folder] [random cases]`: runs the program `leads_try` of a folder on decks, clauses, queries and members' lists of all kinds.
//! Standard output must be the second evaluator's, byte for byte, the exit status 0, and it must return.

use program::inputs::{bytes, L, NUMBERS};
use program::run::{built, Input, Program};
use second::preview::program::{preview_program, Files};
use second::preview::vectors::parse;
use second::random::previews::preview_case;
use std::collections::BTreeMap;
use std::io;
use std::time::Instant;

const VECTORS: &str = concat!(env!("CARGO_MANIFEST_DIR"), "/../vectors/preview.txt");

/// The bytes of the inputs; no bytes where there is no file.
#[derive(Clone)]
struct Tried {
    name: String,
    deck: Option<Vec<u8>>,
    clause: Option<Vec<u8>>,
    query: Vec<u8>,
    bars: Option<Vec<u8>>,
}

fn main() -> io::Result<()> {
    let mut arguments = std::env::args().skip(1);
    let folder = arguments.next();
    let seeds = arguments.next().map_or(500, |text| text.parse().expect("a number"));
    let start = Instant::now();
    let program = Program::new(&built(folder.as_deref(), "leads_try"))?;
    let mut seen = BTreeMap::new();
    for tried in all(seeds)? {
        *seen.entry(hold(&program, &tried)?).or_insert(0) += 1;
    }
    program.clear()?;
    let runs: usize = seen.values().sum();
    println!("{runs} runs of the program that tries a clause agree, {:.0?}: {seen:?}", start.elapsed());
    Ok(())
}

fn all(seeds: u64) -> io::Result<Vec<Tried>> {
    let vectors = parse(&std::fs::read_to_string(VECTORS)?).map_err(io::Error::other)?;
    let cases = vectors.into_iter().map(|(case, _)| case).chain((0..seeds).map(preview_case));
    let mut all: Vec<Tried> = Vec::new();
    for (at, case) in cases.enumerate() {
        all.push(Tried {
            name: case.run.name,
            deck: Some(bytes(&case.run.deck)),
            clause: Some(bytes(&case.clause)),
            query: bytes(&case.run.query),
            bars: (at % 2 == 0).then(|| bytes(&case.run.bars)),
        });
    }
    all.extend(by_hand());
    Ok(all)
}

/// Deck L and drawn(b), with inputs that are missing, not words or too long.
fn by_hand() -> Vec<Tried> {
    let right = Tried {
        name: "deck L".to_string(),
        deck: Some(bytes(&L)),
        clause: Some(bytes(&[3, 1])),
        query: bytes(&[4, 32_768]),
        bars: None,
    };
    let mut all = vec![
        right.clone(),
        Tried { deck: None, ..right.clone() },
        Tried { clause: None, ..right.clone() },
        Tried { deck: Some(bytes(&NUMBERS)), ..right.clone() },
        Tried { bars: Some(vec![0]), ..right.clone() },
        Tried { bars: Some(bytes(&[0, 0, 0, 1, 0])), ..right.clone() },
    ];
    for length in [0, 1, 2, 3, 511, 512, 513, 514, 32_708, 32_709, 32_710, 32_712, 32_766, 32_767, 32_768, 32_769, 32_770, 65_536] {
        let mut clause = bytes(&[3, 1]);
        clause.resize(length, 0);
        all.push(Tried { name: format!("a clause of {length} bytes"), clause: Some(clause.clone()), ..right.clone() });
        all.push(Tried { name: format!("a query of {length} bytes"), query: clause, ..right.clone() });
    }
    for query in [999, 1_000, 1_001, 1_002] {
        let query = vec![0; query];
        all.push(Tried { query: query.clone(), ..right.clone() });
        all.push(Tried { query, clause: Some(bytes(&[3])), ..right.clone() });
    }
    all
}

/// Gives the first line that was printed.
fn hold(program: &Program, tried: &Tried) -> io::Result<String> {
    match &tried.deck {
        Some(deck) => program.put(deck)?,
        None => program.clear()?,
    }
    program.beside("clause", tried.clause.as_deref())?;
    program.beside("bars", tried.bars.as_deref())?;
    let ended = program.run(Input::Pipe(&tried.query))?;
    let expected = preview_program(Files {
        deck: tried.deck.as_deref(),
        clause: tried.clause.as_deref(),
        query: &tried.query,
        bars: tried.bars.as_deref(),
    });
    let name = &tried.name;
    let shown = |text: &[u8]| String::from_utf8_lossy(&text[..text.len().min(100)]).to_string();
    let (found, listing) = (shown(&ended.stdout), shown(&expected));
    assert!(ended.stdout == expected, "{name}: printed {found:?}, and not {listing:?}");
    assert!(ended.stderr.is_empty(), "{name}: said {:?}", shown(&ended.stderr));
    assert!(ended.status.code() == Some(0), "{name}: {}", ended.status);
    Ok(found.lines().next().unwrap_or_default().to_string())
}
