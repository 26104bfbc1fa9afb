//! The bytes of the program's two inputs, and ways to write them down.

use second::world::World;

/// Variables.
pub const X: u16 = 32_768;
pub const Y: u16 = 32_769;
pub const Z: u16 = 32_770;
/// Added to a predicate's number.
pub const NOT: u16 = 16_384;

/// Deck L of document 01: end of a, end of b; a is drawn; x is a lead if x is
/// an end and not drawn.
pub const L: [u16; 29] =
    [1, 5, 8, 4, 13, 12, 17, 29, 0, 0, 257, 257, 257, 0, 2, 4, 6, 2, 0, 2, 1, 3, 0, 4, 32768, 2, 32768, 16387, 32768];

/// The same in format 2, where a is the number 7 and b is -35.
pub const NUMBERS: [u16; 34] = [
    2, 5, 8, 4, 18, 12, 22, 34, 512, 7, 512, 65501, 257, 0, 257, 0, 257, 0, 0, 2, 4, 6, 2, 0, 2, 1, 3, 0, 4, 32768, 2, 32768, 16387, 32768,
];

/// One run of the program.
#[derive(Clone, Debug, PartialEq, Eq)]
pub struct Inputs {
    pub name: String,
    /// The file `survey.dck`, if it is there.
    pub deck: Option<Vec<u8>>,
    /// Standard input.
    pub query: Vec<u8>,
}

impl Inputs {
    pub fn new(name: &str, deck: Option<Vec<u8>>, query: Vec<u8>) -> Inputs {
        let name = name.to_string();
        Inputs { name, deck, query }
    }

    /// What the second evaluator prints.
    pub fn listing(&self) -> Vec<u8> {
        second::program(self.deck.as_deref(), &self.query)
    }
}

pub fn bytes(words: &[u16]) -> Vec<u8> {
    words.iter().flat_map(|word| word.to_le_bytes()).collect()
}

pub fn deck(symbols: &[u16], clauses: &[&[u16]]) -> Vec<u16> {
    let world = World {
        symbols: symbols.to_vec(),
        clauses: clauses.iter().map(|clause| clause.to_vec()).collect(),
        ..World::default()
    };
    world.deck()
}

/// A deck of so many words, over 100: one predicate without arguments, p, and
/// clauses p if p .. p. After the clause starts all words are 0.
pub fn deck_of(words: usize) -> Vec<u16> {
    let long = [0; 256];
    let clauses = (words - 9).div_ceil(257);
    let mut list: Vec<&[u16]> = vec![&long; clauses - 1];
    list.push(&long[..words - 9 - clauses - 256 * (clauses - 1)]);
    deck(&[256], &list)
}

/// The most words that a deck can have.
pub fn largest_deck() -> Vec<u16> {
    deck_of(16_384)
}

/// Answers that are long to print: the functor 4,095, nested 1,000 times, as
/// often as fits.
pub fn long_listing() -> Inputs {
    // p, d, s/1, a; p(s(x), f(..f(y))) if p(x, y), with 100 times f; p(a, a); d, nine times.
    let (p, d, s, a, f) = (0, 1, 2, 3, 4_095);
    let clause = [vec![p, s, X], vec![f; 100], vec![X + 1, p, X, X + 1]].concat();
    let mut symbols = vec![0; 4_096];
    (symbols[0], symbols[1], symbols[2], symbols[4_095]) = (258, 256, 1, 1);
    let (last, choice) = ([p, a, a], [d]);
    let mut clauses: Vec<&[u16]> = vec![&clause, &last];
    clauses.resize(11, &choice);
    let query = [vec![d, p], vec![s; 10], vec![a, X]].concat();
    Inputs::new("a long listing", Some(bytes(&deck(&symbols, &clauses))), bytes(&query))
}
