//! The whole comparison of an engine's call with this evaluator.

use super::case::{bare, case};
use super::counting::Counting;
use super::judge::{judge, Engine, COMES_TO};
use super::{trying, vectors, Case};
use crate::deck::{self, NUMBER};
use std::collections::BTreeMap;

/// How often each of the things that a case can come to was reached.
pub type Reached = BTreeMap<&'static str, usize>;

pub struct Comparison<'a> {
    engine: &'a dyn Engine,
    pub reached: Reached,
}

/// Symbol words whose lists are gone through whole, and the cells of their terms.
pub const SMALL: [(&[u16], u32); 11] = [
    (&[0, 1, 257, 0, 2], 4),
    (&[0], 8),
    (&[1, 0], 8),
    (&[2, 256, 0], 7),
    (&[0, 8, 9, 15, 3], 4),
    (&[7, 8, 0], 8),
    (&[6, 5, 0, 7], 8),
    (&[256, 271], 8),
    (&[1, 2, 3], 8),
    (&[NUMBER, 1, 256, 0, NUMBER, 2], 4),
    (&[2, NUMBER], 7),
];

impl<'a> Comparison<'a> {
    pub fn new(engine: &'a dyn Engine) -> Comparison<'a> {
        let reached = Reached::new();
        Comparison { engine, reached }
    }

    pub fn call(&mut self, case: &Case) -> Result<(), String> {
        match judge(self.engine, case) {
            Ok(label) => *self.reached.entry(label).or_default() += 1,
            Err(what) => return Err(format!("{}{what}", vectors::print(case))),
        }
        Ok(())
    }

    /// The cases with stated results. Both evaluators must give them.
    pub fn vectors(&mut self, text: &str) -> Result<usize, String> {
        let cases = vectors::parse(text)?;
        for (case, expected) in &cases {
            if vectors::result(case) != *expected {
                return Err(format!("the second evaluator differs on {}", case.name));
            }
            self.call(case)?;
        }
        Ok(cases.len())
    }

    /// Small lists, found by trying: every N, from the start and after every term, in lists of every length from 0 on.
    pub fn whole(&mut self) -> Result<(), String> {
        for (symbols, most) in SMALL {
            for n in 0..=most {
                self.whole_list(symbols, n)?;
            }
            self.call(&of(symbols, 9, &[], 40))?;
        }
        Ok(())
    }

    fn whole_list(&mut self, symbols: &[u16], n: u32) -> Result<(), String> {
        let deck = bare(symbols);
        let terms = trying::all(&deck::open(&deck).map_err(|_| "no deck")?.symbols, n as usize);
        let room = terms.iter().map(Vec::len).sum();
        if super::drill(&deck, n, &[], room).as_ref() != Ok(&terms) {
            return Err(format!("trying and counting differ on {symbols:?}, {n}"));
        }
        let starts = std::iter::once(&[][..]).chain(terms.iter().map(Vec::as_slice));
        for (at, start) in starts.enumerate() {
            let left: usize = terms[at..].iter().map(Vec::len).sum();
            // Every length where the list is short; else the first and the last ones.
            let lengths = (0..=left + 2).filter(|room| left < 120 || *room < 30 || *room + 20 > left);
            for room in lengths {
                self.call(&of(symbols, n, start, room))?;
            }
            for extra in [0, 1, 32_768] {
                self.call(&of(symbols, n, &[start, &[extra]].concat(), 24))?;
            }
            self.spoiled(symbols, n, start)?;
        }
        Ok(())
    }

    /// A term with each of its cells in turn made a predicate, a variable or an unknown symbol; cut off there; and whole, where N is too small for it.
    fn spoiled(&mut self, symbols: &[u16], n: u32, term: &[u16]) -> Result<(), String> {
        let predicate = symbols.iter().position(|word| (256..NUMBER).contains(word)).map(|number| number as u16);
        let wrong = predicate.into_iter().chain([32_768, symbols.len() as u16, 16_384]);
        for at in 0..term.len() {
            for cell in wrong.clone() {
                self.call(&of(symbols, n, &[&term[..at], &[cell], &term[at + 1..]].concat(), 24))?;
            }
            if at > 0 {
                self.call(&of(symbols, n, &term[..at], 24))?;
            }
            self.call(&of(symbols, at as u32, term, 24))?;
        }
        Ok(())
    }

    /// 4,096 symbols: the ends of each size, and the places around them.
    pub fn large(&mut self) -> Result<(), String> {
        for symbols in [
            vec![0; 4_096],
            [vec![0; 100], vec![2], vec![0; 3_995]].concat(),
            [vec![256; 4_090], vec![7, 0, 1, 8, 2, 0]].concat(),
            (0..4_096).map(|number| number % 4).collect(),
            [vec![NUMBER; 100], vec![2], vec![NUMBER; 2_000], vec![0; 1_995]].concat(),
        ] {
            let deck = bare(&symbols);
            let counting = Counting::new(&deck::open(&deck).map_err(|_| "no deck")?.symbols, 8);
            let mut ends = vec![0, counting.number()];
            for cells in 1..8 {
                ends.push(Counting::new(&deck::open(&deck).map_err(|_| "no deck")?.symbols, cells).number());
            }
            for end in ends {
                for place in end.saturating_sub(3)..(end + 2).min(counting.number()) {
                    self.call(&of(&symbols, 8, &counting.term(place), 60))?;
                }
            }
            self.call(&of(&symbols, 8, &[], 60))?;
            self.call(&of(&symbols, 8, &[], 9_000))?;
        }
        Ok(())
    }

    pub fn random(&mut self, seed: u64) -> Result<(), String> {
        self.call(&case(seed))
    }
}

fn of(symbols: &[u16], n: u32, after: &[u16], room: usize) -> Case {
    let name = format!("{} symbols", symbols.len());
    Case { name, deck: bare(symbols), n, after: after.to_vec(), room }
}

/// Names what no case came to.
pub fn missing(reached: &Reached) -> Vec<&'static str> {
    COMES_TO.into_iter().filter(|label| !reached.contains_key(label)).collect()
}
