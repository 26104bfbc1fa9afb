//! The whole comparison of an engine's two calls with this evaluator.

use super::judge::{judge_read, judge_write, Engine, READS, WRITES};
use super::shrink::{small_read, small_write};
use super::vectors::{parse_reads, parse_writes, read_result};
use super::{size, tokens, write, ReadCase, WriteCase};
use crate::random::texts::{alike, declared, nested, numbered, read_case, sized, sized_numbers, used, write_case};
use std::collections::BTreeMap;
use std::time::{Duration, Instant};

/// How often each of the things that a case can come to was reached.
pub type Reached = BTreeMap<&'static str, usize>;

pub struct Comparison<'a> {
    engine: &'a dyn Engine,
    pub reached: Reached,
}

const ROOMY: usize = 16_384;
/// A call that takes longer walks through the text again and again.
const MOST_TIME: Duration = Duration::from_secs(1);

impl<'a> Comparison<'a> {
    pub fn new(engine: &'a dyn Engine) -> Comparison<'a> {
        let reached = Reached::new();
        Comparison { engine, reached }
    }

    /// An error is the case, made small.
    pub fn read(&mut self, case: &ReadCase) -> Result<(), String> {
        match judge_read(self.engine, case) {
            Ok(label) => *self.reached.entry(label).or_default() += 1,
            Err(what) => return Err(small_read(self.engine, case, &what)),
        }
        Ok(())
    }

    pub fn write(&mut self, case: &WriteCase) -> Result<(), String> {
        match judge_write(self.engine, case) {
            Ok(label) => *self.reached.entry(label).or_default() += 1,
            Err(what) => return Err(small_write(self.engine, case, &what)),
        }
        Ok(())
    }

    /// The cases with stated results. Both evaluators must give them.
    pub fn vectors(&mut self, reads: &str, writes: &str) -> Result<usize, String> {
        let (reads, writes) = (parse_reads(reads)?, parse_writes(writes)?);
        for (case, expected) in &reads {
            if read_result(case) != *expected {
                return Err(format!("the second evaluator differs on {}", case.name));
            }
            self.read(case)?;
        }
        for (case, expected) in &writes {
            if case.write() != *expected {
                return Err(format!("the second evaluator differs on {}", case.name));
            }
            self.write(case)?;
        }
        Ok(reads.len() + writes.len())
    }

    /// A text, and a deck's text read again.
    pub fn random(&mut self, seed: u64) -> Result<(), String> {
        self.read(&read_case(seed))?;
        let case = write_case(seed);
        self.write(&case)?;
        if let Ok(text) = write(&case.deck, usize::MAX) {
            let (name, room) = (case.name, case.deck.len());
            self.read(&ReadCase { name, text, room })?;
        }
        Ok(())
    }

    /// A text with each token left out, doubled or replaced, and each byte left out, replaced and followed by every byte.
    pub fn damaged(&mut self, text: &str) -> Result<(), String> {
        let text = text.as_bytes();
        let room = size(text).unwrap_or(ROOMY);
        let places: Vec<usize> = tokens(text).iter().map(|token| token.place).collect();
        for pair in places.windows(2) {
            let (from, to) = (pair[0], pair[1]);
            let again = [&text[from..to], b" ", &text[from..to]].concat();
            self.changed(text, from..to, &[], room)?;
            self.changed(text, from..to, &again, room)?;
            for other in places.windows(2) {
                self.changed(text, from..to, &text[other[0]..other[1]], room)?;
            }
        }
        for at in 0..text.len() {
            self.changed(text, at..text.len(), &[], room)?;
            self.changed(text, at..at + 1, &[], room)?;
            for byte in 0..=255 {
                self.changed(text, at..at + 1, &[byte], room)?;
                self.changed(text, at..at, &[byte], room)?;
            }
        }
        (0..=room + 1).try_for_each(|room| self.changed(text, 0..0, &[], room))
    }

    fn changed(
        &mut self,
        text: &[u8],
        range: std::ops::Range<usize>,
        by: &[u8],
        room: usize,
    ) -> Result<(), String> {
        let name = format!("bytes {} to {} by {by:?}", range.start, range.end);
        let text = [&text[..range.start], by, &text[range.end..]].concat();
        self.read(&ReadCase { name, text, room })
    }

    /// Decks of 16,384 words and around; many declarations; deep nesting, quickly.
    pub fn limits(&mut self) -> Result<(), String> {
        for words in 16_382..16_387 {
            for room in [16_381, 16_382, 16_383, 16_384, 16_385, 16_386, 70_000] {
                self.quick(format!("{words} words"), sized(words, 2), room)?;
                self.quick(
                    format!("{words} words, 4,096 symbols"),
                    sized(words, 4_096),
                    room,
                )?;
                for symbols in [2, 4_096] {
                    let text = sized_numbers(words, symbols);
                    self.quick(format!("{words} words, {symbols} numbers"), text, room)?;
                }
            }
        }
        for number in [
            4_095, 4_096, 4_097, 16_375, 16_376, 16_377, 65_535, 65_536, 70_000, 100_000,
        ] {
            let text = declared(number);
            for room in [8 + number, 7 + number, ROOMY, 200_000] {
                self.quick(format!("{number} declarations"), text.clone(), room)?;
            }
            for end in [
                "fn a0/0.",
                "pr a4094/3.",
                "b.",
                "a0.",
                "a1(a0).a1.",
                "a0(a0).",
                "fn a0/0",
            ] {
                let text = [&text, end.as_bytes()].concat();
                self.quick(format!("{number} declarations and {end}"), text, ROOMY)?;
            }
        }
        self.many_numbers()?;
        for shape in 0..3 {
            self.quick(format!("names alike, {shape}"), alike(shape), ROOMY)?;
        }
        self.uses()?;
        self.nesting()?;
        self.largest_decks()
    }

    /// Many numbers, at times with two equal values: 11 comes first, then 1, then 2.
    fn many_numbers(&mut self) -> Result<(), String> {
        for number in [4_095, 4_096, 4_097, 8_187, 8_188, 8_189, 65_535, 65_536] {
            for end in ["", "nu b 0.", "nu b -32768.", "nu b -28674.", "nu b -32768.nu b 0.", "b."] {
                let text = [&numbered(number)[..], end.as_bytes()].concat();
                for room in [7, 8 + 2 * number, 10 + 2 * number, ROOMY] {
                    self.quick(format!("{number} numbers and {end}"), text.clone(), room)?;
                }
            }
        }
        Ok(())
    }

    /// Many declarations, all of them used, with a clause before the uses and one after them.
    fn uses(&mut self) -> Result<(), String> {
        for number in [4_097, 8_192, 8_193, 20_000] {
            for (first, last) in [
                ("", ""),
                ("", "a0(_0)."),
                ("a0(_0).", ""),
                ("a0.", "b."),
                ("b.", "a1."),
                ("a1.", "b."),
                ("a1(_0).", "a4095(a1(a0))."),
            ] {
                let name = format!("{number} used, {first} before and {last} after");
                self.quick(name, used(number, first, last), ROOMY)?;
            }
        }
        for last in ["", "a0(_0)."] {
            let (name, text) = ("100,000 used".to_string(), used(100_000, "", last));
            let room = ROOMY;
            self.read(&ReadCase { name, text, room })?;
        }
        Ok(())
    }

    fn nesting(&mut self) -> Result<(), String> {
        for deep in [200, 254, 255, 256, 16_000, 16_360, 16_370, 100_000] {
            for inside in 0..3 {
                for close in [0, 1, deep / 2, deep, deep + 1, deep + 2] {
                    let text = nested(deep, close, inside);
                    self.quick(format!("nested {deep}, closed {close}"), text, ROOMY)?;
                }
            }
        }
        let wide = |inner: &str| format!("fn f/2.fn a/0.pr p/1.p({}", inner.repeat(100_000));
        for text in [wide("f("), wide("f(a,"), wide("f(_0)("), wide("a,")] {
            self.quick("wide".to_string(), text.clone().into_bytes(), ROOMY)?;
            let closed = format!("{text}a{}.", ")".repeat(100_001));
            self.quick("wide and closed".to_string(), closed.into_bytes(), ROOMY)?;
        }
        let long = format!("pr p/0.p:-{}p.", "~p,".repeat(100_000));
        self.quick("a long body".to_string(), long.into_bytes(), ROOMY)?;
        self.quick("spaces".to_string(), vec![b' '; 300_000], ROOMY)?;
        self.quick("letters".to_string(), vec![b'a'; 300_000], ROOMY)?;
        self.quick(
            "digits".to_string(),
            [&b"fn a/"[..], &[b'9'; 300_000]].concat(),
            ROOMY,
        )
    }

    /// Also what the engine takes for it.
    fn quick(&mut self, name: String, text: Vec<u8>, room: usize) -> Result<(), String> {
        let (mut deck, mut numbers) = (vec![0; room], (0, 0));
        let start = Instant::now();
        self.engine
            .read(&text, &mut deck, &mut numbers.0, &mut numbers.1);
        let time = start.elapsed();
        if time > MOST_TIME {
            return Err(format!("{name}: {} bytes took {time:.1?}", text.len()));
        }
        self.read(&ReadCase { name, text, room })
    }

    /// The longest decks, written into lists that are exactly full and one short, and read again.
    fn largest_decks(&mut self) -> Result<(), String> {
        for text in [sized(16_384, 2), sized(16_384, 4_096), sized_numbers(16_384, 2), sized_numbers(16_384, 4_096)] {
            let deck = super::read(&text, ROOMY).expect("16,384 words");
            let text = write(&deck, usize::MAX).expect("a deck");
            for room in [text.len() - 1, text.len(), text.len() + 1, 262_144] {
                let (name, deck) = ("the longest deck".to_string(), deck.clone());
                self.write(&WriteCase { name, deck, room })?;
            }
            self.quick("the longest deck's text".to_string(), text, ROOMY)?;
        }
        Ok(())
    }
}

/// Adds up, and names what no case came to.
pub fn together(all: Vec<Reached>) -> Result<Reached, String> {
    let mut sum = Reached::new();
    for (label, number) in all.into_iter().flatten() {
        *sum.entry(label).or_default() += number;
    }
    let missing: Vec<&str> = READS
        .into_iter()
        .chain(WRITES)
        .filter(|label| !sum.contains_key(label))
        .collect();
    if missing.is_empty() {
        return Ok(sum);
    }
    Err(format!("not reached: {missing:?}"))
}

/// Texts to be damaged everywhere.
pub const SHORT: [&str; 7] = [
    "",
    " \npr p/0.",
    "fn a/0.fn b/0.pr end/1.pr lead/1.\nend(a).lead(_0) :- end(_0), ~lead(b).\n",
    "fn fn/2. pr pr/0. pr abcdefghijklmnop/1.\n pr:-abcdefghijklmnop(fn(_0,fn(_1,_0))),pr.",
    "fn f/15.fn g/10.pr p/1.p(_0).p(_1023).p(f(_0,_1,_2,_3,_4,_5,_6,_7,_8,_9,_10,_11,_12,_13,_14)).",
    "v2.nu a 5.nu b-35.fn c/0.pr p/1.p(a).p(_0):-p(_0),~p(b).",
    " v2\n.nu abcdefghijklmnop5.nu nu -32768.pr v2/1.nu n 32767.v2(nu).v2(abcdefghijklmnop).",
];
