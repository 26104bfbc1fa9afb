//! `press_input [folder] [random cases]`: runs the program `press` of a folder on decks, displays, members' lists and budgets of all kinds. Standard output
//! must be the second evaluator's, byte for byte, the exit status 0, and it must return.

use program::inputs::{bytes, L};
use program::run::{built, Input, Program};
use second::press::program::{digits, file, press_program};
use second::press::vectors::parse;
use second::press::{PressCase, Record};
use second::random::carries::carry_case;
use std::collections::BTreeMap;
use std::io;
use std::time::Instant;

const VECTORS: &str = concat!(env!("CARGO_MANIFEST_DIR"), "/../vectors/press.txt");
/// The store of the program, in words, and the numbers in front of them, in bytes.
const STORE: usize = 16_384;
const HEADER: usize = 48;

fn main() -> io::Result<()> {
    let mut arguments = std::env::args().skip(1);
    let folder = arguments.next();
    let seeds = arguments.next().map_or(300, |text| text.parse().expect("a number"));
    let start = Instant::now();
    let program = Program::new(&built(folder.as_deref(), "press"))?;
    let seen = BTreeMap::new();
    let mut judge = Judge { program, seen };
    judge.pressed(seeds)?;
    judge.deck_l()?;
    judge.damaged()?;
    judge.listed()?;
    judge.crowds()?;
    let runs: usize = judge.seen.values().sum();
    println!("{runs} presses of the program agree, {:.0?}: {:?}", start.elapsed(), judge.seen);
    Ok(())
}

/// The deck's file, the display's and the list's.
type Given<'a> = (Option<&'a [u8]>, Option<&'a [u8]>, Option<&'a [u8]>);

struct Judge {
    program: Program,
    /// First lines, and how often.
    seen: BTreeMap<String, usize>,
}

impl Judge {
    /// The display's file after the press, if it was not refused.
    fn hold(&mut self, case: &str, (deck, display, bars): Given, budget: &str) -> io::Result<Option<Vec<u8>>> {
        match deck {
            Some(deck) => self.program.put(deck)?,
            None => self.program.clear()?,
        }
        self.program.beside("display", display)?;
        self.program.beside("bars", bars)?;
        let expected = press_program(deck, display, bars, digits(budget.as_bytes()));
        let ended = self.program.run(Input::Pipe(budget.as_bytes()))?;
        let first = |text: &[u8]| String::from_utf8_lossy(text.split(|byte| *byte == 10).next().unwrap_or_default()).to_string();
        let (found, wanted) = (first(&ended.stdout), first(&expected));
        assert!(ended.stdout == expected, "{case}: printed {found:?}, and not {wanted:?}, or another display");
        assert!(ended.stderr.is_empty(), "{case}: said {:?}", String::from_utf8_lossy(&ended.stderr));
        assert!(ended.status.code() == Some(0), "{case}: {}", ended.status);
        assert!(self.program.found("display").as_deref() == display, "{case}: the display's file was changed");
        let refused = found.starts_with("refused");
        *self.seen.entry(found).or_default() += 1;
        Ok((!refused).then(|| expected[wanted.len() + 1..].to_vec()))
    }

    /// The file of presses, and random goals; each pressed on from the display that it left, with its list and without.
    fn pressed(&mut self, seeds: u64) -> io::Result<()> {
        let text = std::fs::read_to_string(VECTORS)?;
        let vectors = parse(&text).map_err(io::Error::other)?.into_iter().map(|(case, _)| case);
        for case in vectors.chain((0..seeds).map(filled)) {
            let deck = bytes(&case.deck);
            for bars in [None, Some(bytes(&case.bars))] {
                let mut left = Some(display(&case));
                for _ in 0..3 {
                    let Some(before) = left else {
                        break;
                    };
                    let given = (Some(deck.as_slice()), Some(before.as_slice()), bars.as_deref());
                    left = self.hold(&case.name, given, &case.budget.to_string())?;
                }
            }
        }
        Ok(())
    }

    /// From a fresh query, pressed to its end with every budget; and budgets in other words.
    fn deck_l(&mut self) -> io::Result<()> {
        let deck = bytes(&L);
        for budget in 0..16 {
            let mut left = fresh();
            for _ in 0..12 {
                let given = (Some(deck.as_slice()), Some(left.as_slice()), None);
                left = self.hold("deck L", given, &budget.to_string())?.expect("not refused");
            }
        }
        for budget in ["", "x", "3x", "007", "4294967295", "4294967296", "99999999999999999999999999999999999", "5\n", " 5"] {
            self.hold(&format!("budget {budget:?}"), (Some(&deck), Some(&fresh()), None), budget)?;
        }
        Ok(())
    }

    /// No file, no deck, each length of the file, each byte of it otherwise, and the longest files.
    fn damaged(&mut self) -> io::Result<()> {
        let deck = bytes(&L);
        let whole = [fresh(), bytes(&[4_103, 1, 32_768, 2, 32_768, 16_387, 32_768])].concat();
        self.hold("no deck", (None, Some(&whole), None), "9")?;
        self.hold("no file", (Some(&deck), None, None), "9")?;
        for length in 0..whole.len() + 4 {
            let mut other = whole.clone();
            other.resize(length, 7);
            self.hold(&format!("{length} bytes"), (Some(&deck), Some(&other), None), "9")?;
        }
        for at in 0..whole.len() {
            for change in [1, 16, 128] {
                let mut other = whole.clone();
                other[at] ^= change;
                self.hold(&format!("byte {at} otherwise"), (Some(&deck), Some(&other), None), "9")?;
            }
        }
        for length in [2 * STORE - 2, 2 * STORE - 1, 2 * STORE, 2 * STORE + 1, 2 * STORE + 2, 200_000] {
            let mut other = whole.clone();
            other.resize(HEADER + length, 0);
            self.hold(&format!("{length} bytes of goals"), (Some(&deck), Some(&other), None), "9")?;
        }
        Ok(())
    }

    /// Deck L with each list of words 0, 1 and 2, and with lists of all lengths, those of the room and beyond too.
    fn listed(&mut self) -> io::Result<()> {
        let deck = bytes(&L);
        let mut lists: Vec<Vec<u8>> = (0..243u16).map(|number| bytes(&in_threes(number))).collect();
        lists.extend((0..16).map(|length| vec![0; length]));
        lists.extend([8_190, 8_191, 8_192, 8_193, 8_194, 200_000].map(|length| vec![0; length]));
        for list in &lists {
            for display in [None, Some(fresh()), Some(file(Record::default(), 0, &[]))] {
                let given = (Some(deck.as_slice()), display.as_deref(), Some(list.as_slice()));
                self.hold("a list", given, "9")?;
                assert!(self.program.found("bars").as_ref() == Some(list), "a list was changed");
            }
        }
        Ok(())
    }

    /// As many goals as the store takes, and records near the greatest value.
    fn crowds(&mut self) -> io::Result<()> {
        let deck = bytes(&L);
        for pending in [STORE as u64 / 2 - 1, STORE as u64 / 2, STORE as u64 / 2 + 1, u64::MAX] {
            for near in [0, u64::MAX - 1, u64::MAX] {
                let record = Record {
                    steps: near,
                    cost: near,
                    answers: near,
                    pending,
                    parked: 0,
                };
                let crowd = file(record, 0, &[2, 0].repeat(STORE / 2));
                for budget in ["0", "1", "20000"] {
                    self.hold(&format!("{pending} goals"), (Some(&deck), Some(&crowd), None), budget)?;
                }
            }
        }
        Ok(())
    }
}

/// Deck L's query "which x is a lead?", before its first step.
fn fresh() -> Vec<u8> {
    let record = Record {
        pending: 1,
        ..Record::default()
    };
    file(record, 1, &[5, 1, 32_768, 4, 32_768])
}

/// Five words, 0 to 2.
fn in_threes(number: u16) -> [u16; 5] {
    [number % 3, number / 3 % 3, number / 9 % 3, number / 27 % 3, number / 81]
}

/// Goals filled in by hand, at times damaged, with counts near the greatest value at times.
fn filled(seed: u64) -> PressCase {
    let case = carry_case(seed);
    let near = [0, 1_000, u64::MAX - 5, u64::MAX];
    let count = |at: u64| near[((seed + at) % 4) as usize];
    PressCase {
        record: Record {
            steps: count(0),
            cost: count(1),
            answers: count(2),
            pending: case.given.pending,
            parked: case.given.parked,
        },
        name: case.name,
        deck: case.deck,
        store: case.store,
        terms: case.given.terms,
        bars: case.bars,
        budget: case.budget,
        answer_words: case.answer_words,
        scratch_words: case.scratch_words,
    }
}

/// The display's file of a case: of whole goals just their words, and else the whole store.
fn display(case: &PressCase) -> Vec<u8> {
    let start = case.press().map(|pressed| pressed.outcome);
    let before = start.map_or(case.store.len(), |_| words(case));
    file(case.record, case.terms, &case.store[..before])
}

/// The words that the goals take.
fn words(case: &PressCase) -> usize {
    let goals = case.record.pending + case.record.parked;
    (0..goals).fold(0, |at, _| at + (case.store[at] % 4_096) as usize)
}
