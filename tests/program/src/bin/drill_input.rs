//! `drill_input [folder] [random cases]`: runs the program `drill_terms` of a folder on decks and inputs of all kinds. Standard output must be
//! the second evaluator's, byte for byte, the exit status 0, and it must return.

use program::inputs::{bytes, largest_deck, L, NUMBERS};
use program::run::{built, Input, Program};
use second::drill::case::{bare, case};
use second::drill::program::program;
use second::drill::vectors::parse;
use std::collections::BTreeMap;
use std::fs;
use std::io;
use std::time::Instant;

const VECTORS: &str = concat!(env!("CARGO_MANIFEST_DIR"), "/../vectors/drill.txt");

fn main() -> io::Result<()> {
    let mut arguments = std::env::args().skip(1);
    let folder = arguments.next();
    let seeds = arguments.next().map_or(500, |text| text.parse().expect("a number"));
    let start = Instant::now();
    let mut judge = Judge { program: Program::new(&built(folder.as_deref(), "drill_terms"))?, seen: BTreeMap::new() };
    judge.decks()?;
    judge.inputs()?;
    judge.cases(seeds)?;
    let runs: usize = judge.seen.values().sum();
    println!("{runs} runs of the program that lists drill terms agree, {:.0?}: {:?}", start.elapsed(), judge.seen);
    judge.program.clear()
}

struct Judge {
    program: Program,
    /// First lines, and how often.
    seen: BTreeMap<String, usize>,
}

impl Judge {
    fn hold(&mut self, name: &str, deck: Option<&[u8]>, asked: &[u8]) -> io::Result<()> {
        match deck {
            Some(deck) => self.program.put(deck)?,
            None => self.program.clear()?,
        }
        self.run(name, Input::Pipe(asked), &program(deck, asked))
    }

    fn run(&mut self, name: &str, input: Input, expected: &[u8]) -> io::Result<()> {
        let ended = self.program.run(input)?;
        let shown = |text: &[u8]| String::from_utf8_lossy(&text[..text.len().min(100)]).to_string();
        let found = shown(&ended.stdout);
        assert!(ended.stdout == expected, "{name}: printed {found:?}, and not {:?}", shown(expected));
        assert!(ended.stderr.is_empty(), "{name}: said {:?}", shown(&ended.stderr));
        assert!(ended.status.code() == Some(0), "{name}: {}", ended.status);
        let first = match found.lines().next() {
            Some(line) if line.starts_with("refused") => line.to_string(),
            Some(_) => "terms".to_string(),
            None => "no terms".to_string(),
        };
        *self.seen.entry(first).or_default() += 1;
        Ok(())
    }

    /// Decks that are there or not, of every length, with an input that is right and one that is not.
    fn decks(&mut self) -> io::Result<()> {
        let largest = bytes(&largest_deck());
        let mut decks = vec![bytes(&L), largest.clone(), bytes(&bare(&[0; 4_096])), bytes(&bare(&[15, 0, 1]))];
        decks.extend([bytes(&NUMBERS), bytes(&bare(&[512; 4_096])), bytes(&bare(&[1, 512, 256, 2, 0, 512]))]);
        for length in [0, 1, 15, 16, 17, 57, 32_766, 32_767, 32_768, 32_769, 32_770, 65_536] {
            let mut deck = largest.clone();
            deck.resize(length, 0);
            decks.push(deck);
        }
        for asked in [&[8, 0][..], &[9, 0], &[], &[1]] {
            self.hold("no deck", None, asked)?;
            for deck in &decks {
                self.hold(&format!("a deck of {} bytes", deck.len()), Some(deck), asked)?;
            }
        }
        Ok(())
    }

    /// Inputs of every length up to 24 bytes, in pieces, and without end.
    fn inputs(&mut self) -> io::Result<()> {
        let deck = bytes(&bare(&[0, 1, 257, 2]));
        for length in 0..25 {
            let ones: Vec<u8> = [8, 0].into_iter().chain([1, 0].into_iter().cycle()).take(length).collect();
            self.hold(&format!("{length} bytes"), Some(&deck), &ones)?;
            let mut term = ones;
            if let Some(low) = length.checked_sub(2).filter(|at| *at > 1 && at % 2 == 0) {
                term[low] = 0;
            }
            self.hold(&format!("a term, {length} bytes"), Some(&deck), &term)?;
        }
        for words in [[0, 1], [255, 255], [8, 1], [0, 128]] {
            self.hold("N of two bytes", Some(&deck), &words)?;
            self.hold("a cell of two bytes", Some(&deck), &[&[3, 0], &words[..]].concat())?;
        }
        let asked = [3, 0, 3, 0, 0, 0, 0, 0];
        let expected = program(Some(&deck), &asked);
        for size in [1, 3, 8] {
            self.run("in pieces", Input::Pieces(&asked, size), &expected)?;
        }
        self.run("no input", Input::Opened("/dev/null"), b"refused 19\n")?;
        self.run("input without end", Input::Opened("/dev/zero"), b"refused 19\n")
    }

    fn cases(&mut self, seeds: u64) -> io::Result<()> {
        let stated = parse(&fs::read_to_string(VECTORS)?).map_err(io::Error::other)?;
        let cases = stated.into_iter().map(|(case, _)| case).chain((0..seeds).map(case));
        for case in cases {
            let n = case.n.min(u16::MAX.into()) as u16;
            let asked = bytes(&[&[n], &case.after[..]].concat());
            self.hold(&case.name, Some(&bytes(&case.deck)), &asked)?;
        }
        Ok(())
    }
}
