//! `bad_input [program] [random cases]`: runs the program on input that is
//! missing, cut, too long or damaged. Its standard output must be the second
//! evaluator's, byte for byte, its exit status 0, and it must return.

use program::inputs::{bytes, deck, deck_of, largest_deck, long_listing, Inputs, L, NUMBERS, X};
use program::run::{built, Input, Program};
use program::{cases, random, shape};
use std::collections::BTreeMap;
use std::fs::{self, File, Permissions};
use std::io;
use std::os::unix::fs::{symlink, PermissionsExt};
use std::path::{Path, PathBuf};
use std::time::Instant;

fn main() -> io::Result<()> {
    let mut arguments = std::env::args().skip(1);
    let path = arguments.next().map_or(built(None, "leads"), PathBuf::from);
    let seeds = arguments.next().map_or(1_000, |text| text.parse().expect("a number"));
    let start = Instant::now();
    let mut judge = Judge { program: Program::new(&path)?, seen: BTreeMap::new() };
    files(&mut judge)?;
    standard_input(&mut judge)?;
    lengths(&mut judge)?;
    symbols(&mut judge)?;
    for case in cases::all() {
        judge.hold(&case.inputs)?;
    }
    judge.hold(&long_listing())?;
    for seed in 0..seeds {
        judge.hold(&random::noise(seed))?;
        judge.hold(&random::noisy_query(seed))?;
        judge.hold(&random::damaged(seed))?;
        judge.hold(&random::case(seed))?;
    }
    let runs: usize = judge.seen.values().sum();
    println!("{runs} runs of the program agree, {:.0?}: {:?}", start.elapsed(), judge.seen);
    Ok(())
}

struct Judge {
    program: Program,
    /// First lines, and how often.
    seen: BTreeMap<String, usize>,
}

impl Judge {
    fn hold(&mut self, inputs: &Inputs) -> io::Result<()> {
        self.program.clear()?;
        if let Some(deck) = &inputs.deck {
            self.program.put(deck)?;
        }
        self.compare(&inputs.name, Input::Pipe(&inputs.query), &inputs.listing())
    }

    /// With the deck file as it stands.
    fn compare(&mut self, name: &str, input: Input, expected: &[u8]) -> io::Result<()> {
        let ended = self.program.run(input)?;
        let shown = |text: &[u8]| String::from_utf8_lossy(&text[..text.len().min(200)]).to_string();
        let found = shown(&ended.stdout);
        assert!(ended.stdout == expected, "{name}: printed {found:?}, and not {:?}", shown(expected));
        assert!(shape::is_output(&ended.stdout), "{name}: no listing: {found:?}");
        assert!(ended.stderr.is_empty(), "{name}: said {:?}", shown(&ended.stderr));
        assert!(ended.status.code() == Some(0), "{name}: {}", ended.status);
        let first = found.lines().next().unwrap_or_default();
        *self.seen.entry(first.to_string()).or_default() += 1;
        Ok(())
    }
}

/// What can stand where the deck file should.
fn files(judge: &mut Judge) -> io::Result<()> {
    let (l, leads) = (bytes(&L), bytes(&[4, X]));
    let missing = second::program(None, &leads);
    let too_long = second::program(Some(&[0; 100_000]), &leads);
    let whole = second::program(Some(&l), &leads);
    let mut look = |name: &str, expected: &[u8], make: fn(&Program, &Path, &[u8]) -> io::Result<()>| {
        judge.program.clear()?;
        make(&judge.program, &judge.program.deck(), &l)?;
        judge.compare(name, Input::Pipe(&leads), expected)
    };
    look("no file", &missing, |_, _, _| Ok(()))?;
    look("a file that cannot be read", &missing, |program, path, l| {
        program.put(l)?;
        fs::set_permissions(path, Permissions::from_mode(0o000))
    })?;
    look("a folder", &missing, |_, path, _| fs::create_dir(path))?;
    look("a link to nothing", &missing, |_, path, _| symlink("nowhere", path))?;
    look("a file without end", &too_long, |_, path, _| symlink("/dev/zero", path))?;
    look("a file of 2^30 bytes", &too_long, |program, path, l| {
        program.put(l)?;
        File::options().write(true).open(path)?.set_len(1 << 30)
    })?;
    look("deck L", &whole, |program, _, l| program.put(l))
}

/// What standard input can be.
fn standard_input(judge: &mut Judge) -> io::Result<()> {
    // p; asked of zeros, so that only the length can be wrong.
    let fact = bytes(&deck(&[256], &[&[0]]));
    judge.program.put(&fact)?;
    let expected = |length: usize| second::program(Some(&fact), &vec![0; length]);
    judge.compare("no input", Input::Opened("/dev/null"), &expected(0))?;
    judge.compare("input without end", Input::Opened("/dev/zero"), &expected(1 << 20))?;
    let long = vec![0; 5 << 20];
    judge.compare("5 MB of input", Input::Pipe(&long), &expected(long.len()))?;
    for (length, size) in [(2, 1), (3, 1), (1_000, 7), (1_000, 999), (1_001, 500), (1_002, 1_000)] {
        let name = format!("{length} bytes of input, {size} at a time");
        judge.compare(&name, Input::Pieces(&vec![0; length], size), &expected(length))?;
    }
    Ok(())
}

/// A deck of format 2 with each byte of its header and of its symbols otherwise, and cut at each byte.
fn symbols(judge: &mut Judge) -> io::Result<()> {
    let (deck, query) = (bytes(&NUMBERS), bytes(&[4, X]));
    for at in 0..2 * NUMBERS[4] as usize {
        for byte in (0..8).map(|bit| deck[at] ^ (1 << bit)).chain([0, 1, 2, 3, 7, 255]) {
            let mut other = deck.clone();
            other[at] = byte;
            judge.hold(&Inputs::new(&format!("byte {at} is {byte}"), Some(other), query.clone()))?;
        }
    }
    for length in 0..=deck.len() {
        judge.hold(&Inputs::new(&format!("format 2, {length} bytes"), Some(deck[..length].to_vec()), query.clone()))?;
    }
    Ok(())
}

/// Lengths at the borders, of both inputs.
fn lengths(judge: &mut Judge) -> io::Result<()> {
    let cut = [0, 1, 2, 15, 16, 17, 32_766, 32_767, 32_768, 32_769, 32_770, 32_771, 32_772, 65_536, 98_304];
    let cut = cut.map(|length| {
        let mut deck = bytes(&largest_deck());
        deck.resize(length, 0);
        deck
    });
    // In order, but for their lengths.
    let in_order = [16_382, 16_383, 16_384, 16_385, 16_386, 20_000].map(|words| bytes(&deck_of(words)));
    let queries = [0, 1, 2, 3, 998, 999, 1_000, 1_001, 1_002, 1_003, 1_004, 2_000, 65_536, 65_537];
    for deck in cut.into_iter().chain(in_order).chain([bytes(&deck(&[256], &[&[0]]))]) {
        for length in queries {
            let name = format!("a deck of {} bytes, a query of {length} bytes", deck.len());
            judge.hold(&Inputs::new(&name, Some(deck.clone()), vec![0; length]))?;
        }
    }
    Ok(())
}
