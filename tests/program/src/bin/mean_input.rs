//! `mean_input [folder] [random cases]`: runs the program `answer_mean` of a folder on decks and inputs of all kinds. Standard output must be
//! the second evaluator's, byte for byte, the exit status 0, and it must return.

use program::inputs::{bytes, Inputs, L, X, Y};
use program::random;
use program::run::{built, Input, Program};
use second::deck::NUMBER;
use second::mean::program::mean_program;
use second::random::Dice;
use second::world::World;
use std::collections::BTreeMap;
use std::io;
use std::time::Instant;

fn main() -> io::Result<()> {
    let mut arguments = std::env::args().skip(1);
    let folder = arguments.next();
    let seeds = arguments.next().map_or(500, |text| text.parse().expect("a number"));
    let start = Instant::now();
    let mut judge = Judge { program: Program::new(&built(folder.as_deref(), "answer_mean"))?, seen: BTreeMap::new() };
    judge.inputs()?;
    judge.cases(seeds)?;
    let runs: usize = judge.seen.values().sum();
    println!("{runs} runs of the program over means agree, {:.0?}: {:?}", start.elapsed(), judge.seen);
    judge.program.clear()
}

struct Judge {
    program: Program,
    /// First words, and how often.
    seen: BTreeMap<String, usize>,
}

impl Judge {
    fn hold(&mut self, name: &str, deck: Option<&[u8]>, input: &[u8]) -> io::Result<()> {
        self.program.clear()?;
        if let Some(deck) = deck {
            self.program.put(deck)?;
        }
        let ended = self.program.run(Input::Pipe(input))?;
        let expected = mean_program(deck, input);
        let shown = |text: &[u8]| String::from_utf8_lossy(&text[..text.len().min(100)]).to_string();
        let found = shown(&ended.stdout);
        assert!(ended.stdout == expected, "{name}: printed {found:?}, and not {:?}", shown(&expected));
        assert!(ended.stderr.is_empty(), "{name}: said {:?}", shown(&ended.stderr));
        assert!(ended.status.code() == Some(0), "{name}: {}", ended.status);
        let first =
            if found.starts_with("refused") { found.trim() } else { found.split(' ').next().unwrap_or_default() };
        *self.seen.entry(first.to_string()).or_default() += 1;
        Ok(())
    }

    /// Inputs of every length around those that count.
    fn inputs(&mut self) -> io::Result<()> {
        let (deck, whole) = (bytes(&lengths(&mut Dice::new(0)).deck()), bytes(&L));
        for length in [0, 1, 2, 3, 4, 1_000, 1_001, 1_002, 1_003, 1_004, 1_005, 2_000] {
            for deck in [None, Some(&deck[..]), Some(&whole[..]), Some(&whole[..57])] {
                self.hold(&format!("{length} bytes"), deck, &vec![0; length])?;
            }
        }
        for column in [0, 1, 2, 255, 256, 32_768, 65_535] {
            self.hold(&format!("column {column}"), Some(&deck), &asked(column, &bytes(&[2, X, Y])))?;
        }
        Ok(())
    }

    fn cases(&mut self, seeds: u64) -> io::Result<()> {
        for seed in 0..seeds {
            let mut dice = Dice::new(seed);
            for Inputs { name, deck, query } in
                [random::noise(seed), random::noisy_query(seed), random::damaged(seed), random::case(seed)]
            {
                let column = dice.below(3) as u16;
                self.hold(&name, deck.as_deref(), &asked(column, &query))?;
            }
            let world = lengths(&mut dice);
            let column = *dice.pick(&[1, 1, 1, 1, 1, 0, 2]);
            self.hold(&format!("lengths-{seed}"), Some(&bytes(&world.deck())), &asked(column, &bytes(&world.query)))?;
        }
        Ok(())
    }
}

fn asked(column: u16, query: &[u8]) -> Vec<u8> {
    [&column.to_le_bytes(), query].concat()
}

/// Facts p(a, n), p(b, n) .. with numbers n of both signs; seldom one that is no number, or a clause p(f(x), y) if p(x, y), by which no run finishes.
fn lengths(dice: &mut Dice) -> World {
    const F: u16 = 3;
    let count = dice.range(1, 40) as u16;
    let (p, first) = (2u16, dice.word());
    let way = dice.below(3) as u16;
    let value = |at: u16| [first.wrapping_add(at * 1_237), 32_768 + at, 65_535 - at][way as usize];
    let number = |dice: &mut Dice| 4 + dice.below(count as usize) as u16;
    let mut clauses: Vec<Vec<u16>> = (0..dice.range(1, 60)).map(|at| vec![p, at as u16 % 2, number(dice)]).collect();
    if dice.chance(1, 8) {
        clauses.push(vec![p, 0, 1]);
    }
    if dice.chance(1, 4) {
        clauses.push(vec![p, F, X, Y, p, X, Y]);
    }
    let symbols = [0, 0, 258, 1].into_iter().chain((0..count).map(|_| NUMBER)).collect();
    let values = [0; 4].into_iter().chain((0..count).map(value)).collect();
    let query = dice.pick(&[vec![p, X, Y], vec![p, 1, X], vec![p, 1, X, p, 0, Y], vec![p, X, Y, p, X, Y + 1]]).clone();
    World { symbols, values: Some(values), clauses, query }
}
