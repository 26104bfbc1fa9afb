//! `carry_input [folder] [random cases]`: runs the programs `leads_open` and `carry_on` of a folder on decks, queries, members' lists and
//! files of goals of all kinds. Standard output and the goals left must be the second evaluator's, byte for byte, the exit status 0, and they must return.

use program::inputs::{bytes, L, NUMBERS};
use program::run::{built, Input, Program};
use second::carry::program::{carry_program, open_program, Printed};
use second::carry::vectors::parse;
use second::carry::CarryCase;
use second::random::carries::carry_case;
use second::random::case;
use std::collections::BTreeMap;
use std::io;
use std::time::Instant;

const VECTORS: &str = concat!(env!("CARGO_MANIFEST_DIR"), "/../vectors/carry_on.txt");
/// The store of the programs, in words.
const STORE: usize = 16_384;

fn main() -> io::Result<()> {
    let mut arguments = std::env::args().skip(1);
    let folder = arguments.next();
    let seeds = arguments.next().map_or(300, |text| text.parse().expect("a number"));
    let start = Instant::now();
    let mut judge = Judge { folder, seen: BTreeMap::new() };
    judge.kept(seeds)?;
    judge.carried(seeds)?;
    judge.damaged()?;
    judge.listed()?;
    let runs: usize = judge.seen.values().sum();
    println!("{runs} runs of the programs over open goals agree, {:.0?}: {:?}", start.elapsed(), judge.seen);
    Ok(())
}

struct Judge {
    folder: Option<String>,
    /// First lines, and how often.
    seen: BTreeMap<String, usize>,
}

impl Judge {
    fn program(&self, name: &str) -> io::Result<Program> {
        Program::new(&built(self.folder.as_deref(), name))
    }

    /// The bytes printed, and the goals left after a run that was not refused.
    fn hold(&mut self, program: &Program, case: &str, input: Input, expected: &Printed) -> io::Result<()> {
        program.beside("open.goals.new", None)?;
        let ended = program.run(input)?;
        let shown = |text: &[u8]| String::from_utf8_lossy(&text[..text.len().min(100)]).to_string();
        let (found, listing) = (shown(&ended.stdout), shown(&expected.0));
        assert!(ended.stdout == expected.0, "{case}: printed {found:?}, and not {listing:?}");
        assert!(ended.stderr.is_empty(), "{case}: said {:?}", shown(&ended.stderr));
        assert!(ended.status.code() == Some(0), "{case}: {}", ended.status);
        if expected.1.is_some() {
            assert!(program.found("open.goals.new") == expected.1, "{case}: other goals are left");
        }
        let first = found.lines().next().unwrap_or_default().to_string();
        *self.seen.entry(first).or_default() += 1;
        Ok(())
    }

    /// Queries with lists and budgets; without files nothing is barred, and the budget is 100,000.
    fn kept(&mut self, seeds: u64) -> io::Result<()> {
        let program = self.program("leads_open")?;
        let mut asked = vec![("deck L".to_string(), bytes(&L), bytes(&[4, 32_768]), None, None)];
        asked.extend((0..16).map(|budget| ("deck L".to_string(), bytes(&L), bytes(&[4, 32_768]), None, Some(budget))));
        for budget in [99_999, 100_000, 100_001, u32::MAX] {
            asked.push(("deck L".to_string(), bytes(&L), bytes(&[4, 32_768]), None, Some(budget)));
        }
        for case in (0..seeds).map(case) {
            for bars in [None, Some(bytes(&case.bars))] {
                asked.push((case.name.clone(), bytes(&case.deck), bytes(&case.query), bars, Some(case.budget)));
            }
        }
        for (name, deck, query, bars, budget) in asked {
            let expected = open_program(Some(&deck), &query, bars.as_deref(), budget.unwrap_or(100_000));
            program.put(&deck)?;
            program.beside("bars", bars.as_deref())?;
            program.beside("budget", budget.map(|budget| budget.to_string()).as_deref().map(str::as_bytes))?;
            self.hold(&program, &name, Input::Pipe(&query), &expected)?;
        }
        program.clear()?;
        self.hold(&program, "no deck", Input::Pipe(&[]), &open_program(None, &[], None, 0))
    }

    /// The file of continued runs, random ones, and each carried on again from the goals that it left.
    fn carried(&mut self, seeds: u64) -> io::Result<()> {
        let program = self.program("carry_on")?;
        let text = std::fs::read_to_string(VECTORS)?;
        let vectors = parse(&text).map_err(io::Error::other)?.into_iter().map(|(case, _)| case);
        for case in vectors.chain((0..seeds).map(carry_case)) {
            let deck = bytes(&case.deck);
            program.put(&deck)?;
            for bars in [None, Some(bytes(&case.bars))] {
                program.beside("bars", bars.as_deref())?;
                let mut left = Some(file(&case));
                for _ in 0..2 {
                    let Some(goals) = left else {
                        break;
                    };
                    let given = (Some(deck.as_slice()), Some(goals.as_slice()), bars.as_deref());
                    left = self.carry(&program, &case.name, given, case.budget)?;
                }
            }
        }
        Ok(())
    }

    fn carry(
        &mut self,
        program: &Program,
        name: &str,
        (deck, goals, bars): Given,
        budget: u32,
    ) -> io::Result<Option<Vec<u8>>> {
        let expected = carry_program(deck, goals, bars, budget);
        program.beside("open.goals", goals)?;
        let digits = budget.to_string();
        self.hold(program, name, Input::Pipe(digits.as_bytes()), &expected)?;
        assert!(program.found("open.goals").as_deref() == goals, "{name}: the file of goals was changed");
        Ok(expected.1)
    }

    /// No file, no deck, each length of the file, each byte of it otherwise, and the longest files.
    fn damaged(&mut self) -> io::Result<()> {
        let program = self.program("carry_on")?;
        let deck = bytes(&L);
        let (text, left) = open_program(Some(&deck), &bytes(&[4, 32_768]), None, 8);
        let goals = left.expect("goals are left");
        assert!(text.starts_with(b"open"), "a run cut short");
        program.clear()?;
        self.carry(&program, "no deck", (None, Some(&goals), None), 9)?;
        program.put(&deck)?;
        self.carry(&program, "no file", (Some(&deck), None, None), 9)?;
        for budget in [0, 1, 9, 100_000, u32::MAX] {
            self.carry(&program, "deck L", (Some(&deck), Some(&goals), None), budget)?;
        }
        for length in 0..goals.len() + 4 {
            let mut other = goals.clone();
            other.resize(length, 7);
            self.carry(&program, &format!("{length} bytes"), (Some(&deck), Some(&other), None), 9)?;
        }
        for at in 0..goals.len() {
            for change in [1, 16, 128] {
                let mut other = goals.clone();
                other[at] ^= change;
                self.carry(&program, &format!("byte {at} otherwise"), (Some(&deck), Some(&other), None), 9)?;
            }
        }
        for length in [2 * STORE - 2, 2 * STORE - 1, 2 * STORE, 2 * STORE + 1, 2 * STORE + 2, 200_000] {
            let mut other = goals.clone();
            other.resize(24 + length, 0);
            self.carry(&program, &format!("{length} bytes of goals"), (Some(&deck), Some(&other), None), 9)?;
        }
        self.crowds(&program, &deck)
    }

    /// Deck L, in both formats, with each list of words 0, 1 and 2, and with lists of all lengths, those of the room and beyond too.
    fn listed(&mut self) -> io::Result<()> {
        let mut lists: Vec<Vec<u8>> = (0..243).map(|number| bytes(&in_threes(number))).collect();
        lists.extend((0..22).map(|length| vec![0; length]));
        lists.extend([8_190, 8_191, 8_192, 8_193, 8_194, 200_000].map(|length| vec![0; length]));
        for deck in [bytes(&L), bytes(&NUMBERS)] {
            self.asked_with(&deck, &lists)?;
            self.carried_with(&deck, &lists)?;
        }
        Ok(())
    }

    fn asked_with(&mut self, deck: &[u8], lists: &[Vec<u8>]) -> io::Result<()> {
        let program = self.program("leads_open")?;
        program.put(deck)?;
        program.beside("budget", None)?;
        for list in lists {
            program.beside("bars", Some(list))?;
            for query in [vec![], bytes(&[4, 32_768]), bytes(&[16_387, 0]), bytes(&[0])] {
                let expected = open_program(Some(deck), &query, Some(list), 100_000);
                self.hold(&program, &shown(list), Input::Pipe(&query), &expected)?;
            }
        }
        Ok(())
    }

    fn carried_with(&mut self, deck: &[u8], lists: &[Vec<u8>]) -> io::Result<()> {
        let program = self.program("carry_on")?;
        let goals = open_program(Some(deck), &bytes(&[4, 32_768]), None, 8).1.expect("goals are left");
        program.put(deck)?;
        for list in lists {
            program.beside("bars", Some(list))?;
            for goals in [None, Some(goals.as_slice())] {
                self.carry(&program, &shown(list), (Some(deck), goals, Some(list)), 9)?;
            }
            assert!(program.found("bars").as_ref() == Some(list), "{}: it was changed", shown(list));
        }
        Ok(())
    }

    /// As many goals as the store takes.
    fn crowds(&mut self, program: &Program, deck: &[u8]) -> io::Result<()> {
        for goals in [STORE as u64 / 2 - 1, STORE as u64 / 2, STORE as u64 / 2 + 1, u64::MAX] {
            let counts = [goals, 0, 0].map(u64::to_le_bytes).concat();
            let crowd = [counts, bytes(&[2, 0].repeat(STORE / 2))].concat();
            for budget in [0, 10, 20_000] {
                self.carry(program, &format!("{goals} goals"), (Some(deck), Some(&crowd), None), budget)?;
            }
        }
        Ok(())
    }
}

/// The deck's file, the goals' and the list's.
type Given<'a> = (Option<&'a [u8]>, Option<&'a [u8]>, Option<&'a [u8]>);

fn shown(list: &[u8]) -> String {
    format!("a list of {} bytes, {:?}", list.len(), &list[..list.len().min(10)])
}

/// Five words, 0 to 2.
fn in_threes(number: u16) -> [u16; 5] {
    [number % 3, number / 3 % 3, number / 9 % 3, number / 27 % 3, number / 81]
}

/// A file of goals: the three numbers, then the goals' words, and where they are not whole some words more.
fn file(case: &CarryCase) -> Vec<u8> {
    let given = [case.given.pending, case.given.parked, case.given.terms];
    let whole = case.run().is_ok();
    let words = if whole { case.words() } else { (case.words() + 5).min(case.store.len()) };
    let mut file = given.map(u64::to_le_bytes).concat();
    file.extend(bytes(&case.store[..words]));
    file
}
