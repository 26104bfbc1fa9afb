//! `text_input [folder] [random cases]`: runs the programs `read_text` and `write_text` of a folder on texts and decks of all kinds. Standard
//! output must be the second evaluator's, byte for byte, the exit status 0, and they must return.

use program::inputs::{bytes, largest_deck, L, NUMBERS};
use program::run::{built, Input, Program};
use second::random::texts::{declared, nested, numbered, read_case, sized, sized_numbers, write_case};
use second::text::program::{read_program, write_program, MOST_TEXT_BYTES};
use second::text::vectors::{parse_reads, parse_writes};
use std::collections::BTreeMap;
use std::fs;
use std::io;
use std::time::Instant;

const VECTORS: &str = concat!(env!("CARGO_MANIFEST_DIR"), "/../vectors");

fn main() -> io::Result<()> {
    let mut arguments = std::env::args().skip(1);
    let folder = arguments.next();
    let seeds = arguments.next().map_or(500, |text| text.parse().expect("a number"));
    let start = Instant::now();
    let mut seen = BTreeMap::new();
    reading(&Judge::new(folder.as_deref(), "read_text")?, seeds, &mut seen)?;
    writing(&Judge::new(folder.as_deref(), "write_text")?, seeds, &mut seen)?;
    let runs: usize = seen.values().sum();
    println!("{runs} runs of the programs over texts agree, {:.0?}: {seen:?}", start.elapsed());
    Ok(())
}

/// First lines, and how often.
type Seen = BTreeMap<String, usize>;

struct Judge {
    program: Program,
    name: &'static str,
}

impl Judge {
    fn new(folder: Option<&str>, name: &'static str) -> io::Result<Judge> {
        let program = Program::new(&built(folder, name))?;
        Ok(Judge { program, name })
    }

    fn hold(&self, case: &str, input: Input, expected: &[u8], seen: &mut Seen) -> io::Result<()> {
        let ended = self.program.run(input)?;
        let shown = |text: &[u8]| String::from_utf8_lossy(&text[..text.len().min(100)]).to_string();
        let name = format!("{}, {case}", self.name);
        let found = shown(&ended.stdout);
        assert!(ended.stdout == expected, "{name}: printed {found:?}, and not {:?}", shown(expected));
        assert!(ended.stderr.is_empty(), "{name}: said {:?}", shown(&ended.stderr));
        assert!(ended.status.code() == Some(0), "{name}: {}", ended.status);
        let refused =
            found.starts_with("refused").then(|| found.split_whitespace().take(2).collect::<Vec<_>>().join(" "));
        let first = format!("{}: {}", self.name, refused.as_deref().unwrap_or("done"));
        *seen.entry(first).or_default() += 1;
        Ok(())
    }
}

fn reading(judge: &Judge, seeds: u64, seen: &mut Seen) -> io::Result<()> {
    let mut texts = vec![];
    for (case, _) in parse_reads(&file("read_text.txt")?).map_err(io::Error::other)? {
        texts.push((case.name, case.text));
    }
    let random = (0..seeds).map(read_case);
    texts.extend(random.map(|case| (case.name, case.text)));
    for words in 16_382..16_388 {
        texts.push((format!("{words} words"), sized(words, 4_096)));
        texts.push((format!("{words} words of format 2"), sized_numbers(words, 4_096)));
    }
    for number in [4_096, 4_097, 16_376, 16_377, 20_000] {
        texts.push((format!("{number} declarations"), declared(number)));
        texts.push((format!("{number} numbers"), numbered(number)));
    }
    texts.push(("nested".to_string(), nested(80_000, 80_001, 1)));
    texts.push(("nested, without end".to_string(), nested(120_000, 0, 1)));
    for (name, text) in &texts {
        judge.hold(name, Input::Pipe(text), &read_program(text), seen)?;
    }
    long_texts(judge, seen)
}

/// Around the most bytes that are read, and in pieces.
fn long_texts(judge: &Judge, seen: &mut Seen) -> io::Result<()> {
    let rules = b"pr p/0.p.";
    for length in [0, 1, 2, 3, 4, 1 << 20].into_iter().chain(5..20) {
        let length = (MOST_TEXT_BYTES + length).saturating_sub(2);
        let mut text = rules.to_vec();
        text.resize(length, b' ');
        let name = format!("{length} bytes");
        judge.hold(&name, Input::Pipe(&text), &read_program(&text), seen)?;
        text[length - 1] = b'!';
        judge.hold(&name, Input::Pipe(&text), &read_program(&text), seen)?;
    }
    for size in [1, 3, 8] {
        judge.hold("in pieces", Input::Pieces(rules, size), &read_program(rules), seen)?;
    }
    judge.hold("no input", Input::Opened("/dev/null"), &read_program(&[]), seen)?;
    judge.hold("input without end", Input::Opened("/dev/zero"), b"refused 11\n", seen)
}

fn writing(judge: &Judge, seeds: u64, seen: &mut Seen) -> io::Result<()> {
    let mut decks = vec![("deck L".to_string(), bytes(&L)), ("the largest deck".to_string(), bytes(&largest_deck()))];
    decks.push(("numbers".to_string(), bytes(&NUMBERS)));
    for (case, _) in parse_writes(&file("write_text.txt")?).map_err(io::Error::other)? {
        decks.push((case.name, bytes(&case.deck)));
    }
    let random = (0..seeds).map(write_case);
    decks.extend(random.map(|case| (case.name, bytes(&case.deck))));
    let large = second::text::read(&sized(16_384, 4_096), 16_384).expect("a deck");
    decks.push(("4,096 symbols".to_string(), bytes(&large)));
    let numbers = second::text::read(&sized_numbers(16_384, 4_096), 16_384).expect("a deck");
    decks.push(("4,095 numbers".to_string(), bytes(&numbers)));
    for length in [0, 1, 15, 16, 17, 32_766, 32_767, 32_768, 32_769, 32_770, 65_536] {
        let mut deck = bytes(&large);
        deck.resize(length, 0);
        decks.push((format!("{length} bytes"), deck));
    }
    judge.program.clear()?;
    judge.hold("no deck", Input::Pipe(&[]), &write_program(None), seen)?;
    for (name, deck) in &decks {
        judge.program.put(deck)?;
        judge.hold(name, Input::Pipe(&[]), &write_program(Some(deck)), seen)?;
    }
    judge.program.clear()
}

fn file(name: &str) -> io::Result<String> {
    fs::read_to_string(format!("{VECTORS}/{name}"))
}
