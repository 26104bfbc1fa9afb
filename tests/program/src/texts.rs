//! The cases of the programs over texts that the gate runs, each with the start of what is printed, and the files of the program crate that runs them.

use crate::inputs::{bytes, deck, L, Y};
use second::text::program::{read_program, write_program, MOST_TEXT_BYTES};
use second::text::write;

pub const CASES: &str = concat!(env!("CARGO_MANIFEST_DIR"), "/../../crates/text_cases/data/cases");
pub const STDOUT: &str = concat!(env!("CARGO_MANIFEST_DIR"), "/../../crates/text_cases/stdout");

/// The input of one of the two programs.
pub enum Asked {
    /// A text on standard input.
    Read(Vec<u8>),
    /// The deck file, if it is there.
    Write(Option<Vec<u8>>),
}

pub struct TextCase {
    pub name: &'static str,
    pub asked: Asked,
    /// How it starts.
    pub start: &'static [u8],
}

impl TextCase {
    /// What the second evaluator prints.
    pub fn printed(&self) -> Vec<u8> {
        match &self.asked {
            Asked::Read(text) => read_program(text),
            Asked::Write(file) => write_program(file.as_deref()),
        }
    }
}

pub fn all() -> Vec<TextCase> {
    [read(), unreadable(), long(), written(), numbers(), no_numbers()].into_iter().flatten().collect()
}

fn reading(name: &'static str, text: &[u8], start: &'static [u8]) -> TextCase {
    TextCase { name, asked: Asked::Read(text.to_vec()), start }
}

fn writing(name: &'static str, file: &[u8], start: &'static [u8]) -> TextCase {
    TextCase { name, asked: Asked::Write(Some(file.to_vec())), start }
}

/// The rules of leads, with names.
const LEADS: &[u8] = b"pr end/1.\npr drawn/1.\nfn a/0.\npr lead/1.\nlead(_0) :- end(_0), ~drawn(_0).\n";

/// Taken as text, for mending; a query of it is refused.
const LOOSE: &[u8] = b"fn f/1.pr p/1.pr q/2.pr r/0.\np(f(_0)).\nr :- ~q(_0, f(_1)).\np(_0) :- q(_0, _0), ~p(_1).\n";

/// Texts in the grammar with names well used.
fn read() -> Vec<TextCase> {
    let clause = |cells: usize| format!("pr p/0.p:-p{}.", ",p".repeat(cells - 2)).into_bytes();
    vec![
        reading("deck L as text", &write(&L, MOST_TEXT_BYTES).expect("a text"), &[1, 0, 5, 0, 8, 0]),
        reading("rules with names", LEADS, &[1, 0, 4, 0, 8, 0]),
        reading("nothing spaced", b"fn f/2.fn c/0.pr p/1.p(f(f(c,_0),c)).", &[1, 0, 3, 0, 8, 0]),
        reading("a loose variable in each place", LOOSE, &[1, 0, 4, 0, 8, 0]),
        reading("no text", b"", b"refused 1\n"),
        reading("spacing only", b" \n ", b"refused 1\n"),
        reading("a text's clause of 256 cells", &clause(256), &[1, 0, 1, 0, 8, 0, 1, 0, 9, 0, 0, 1]),
        reading("a text's clause of 257 cells", &clause(257), b"refused 4\n"),
        reading("a functor in a literal's place", b"fn a/0.a.", b"refused 5\n"),
        reading("a predicate in a term's place", b"pr p/1.pr q/0.p(q).", b"refused 5\n"),
        reading("variable 1 first", b"pr p/1.p(_1).", b"refused 5\n"),
    ]
}

/// Refusal 10 and its place.
fn unreadable() -> Vec<TextCase> {
    vec![
        reading("a byte of no class", b"!", b"refused 10 0\n"),
        reading("a capital letter", b"fn a/0.\nA", b"refused 10 8\n"),
        reading("a byte above 127", b"fn \x80/0.", b"refused 10 3\n"),
        reading("an arity over 15", b"fn a/16.", b"refused 10 5\n"),
        reading("variable 1,024", b"pr p/1.p(_1024).", b"refused 10 9\n"),
        reading("a name of 17 bytes", b"pr a23456789012345zz/0.", b"refused 10 19\n"),
        reading("no last dot", b"pr p/0.p \n", b"refused 10 10\n"),
        reading("a name declared twice", b"fn a/0.pr a/1.", b"refused 10 10\n"),
        reading("a name undeclared", b"pr p/1.p(a).", b"refused 10 9\n"),
        reading("a name with another arity", b"fn a/0.pr p/1.p(a(_0)).", b"refused 10 16\n"),
        reading("the grammar before the names", b"p(q).~", b"refused 10 5\n"),
    ]
}

/// Texts with spaces up to a length.
fn long() -> Vec<TextCase> {
    let spaced = |length: usize| {
        let mut text = b"pr p/0.p.".to_vec();
        text.resize(length, b' ');
        text
    };
    let ended = |length: usize| {
        let mut text = b"pr p/0.p".to_vec();
        text.resize(length, b' ');
        text
    };
    vec![
        reading("262,144 bytes", &spaced(MOST_TEXT_BYTES), &[1, 0, 1, 0, 8, 0]),
        reading("262,145 bytes", &spaced(MOST_TEXT_BYTES + 1), b"refused 11\n"),
        reading("99,999 bytes and no dot", &ended(99_999), b"refused 10 99999\n"),
        reading("100,000 bytes and no dot", &ended(100_000), b"refused 10 100000\n"),
        reading("262,144 bytes and no dot", &ended(MOST_TEXT_BYTES), b"refused 10 262144\n"),
        reading("262,145 bytes and no dot", &ended(MOST_TEXT_BYTES + 1), b"refused 11\n"),
    ]
}

/// Deck files.
fn written() -> Vec<TextCase> {
    let l = bytes(&L);
    let with = |at: usize, word: u16| {
        let mut words = L;
        words[at] = word;
        bytes(&words)
    };
    let filled = |length: usize| {
        let mut file = l.clone();
        file.resize(length, b' ');
        file
    };
    let lines = b"fn s0/0.\nfn s1/0.\npr s2/1.\npr s3/1.\npr s4/1.\ns2(s0).\ns2(s1).\ns3(s0).\ns4(_0) :- s2(_0), ~s3(_0).\n";
    vec![
        writing("deck L", &l, lines),
        writing("nested terms", &bytes(&deck(&[2, 0, 257], &[&[2, 0, 0, 1, Y - 1, 1]])), b"fn s0/2.\n"),
        writing("a deck with loose variables", &read_program(LOOSE), b"fn s0/1.\n"),
        TextCase { name: "no deck file", asked: Asked::Write(None), start: b"refused 1\n" },
        writing("an empty deck file", b"", b"refused 1\n"),
        writing("a deck of 57 bytes", &l[..57], b"refused 1\n"),
        writing("a deck of 59 bytes", &filled(59), b"refused 1\n"),
        writing("a deck of 32,769 bytes", &filled(32_769), b"refused 1\n"),
        writing("a deck of 32,770 bytes", &filled(32_770), b"refused 1\n"),
        writing("format 2", &with(0, 2), b"refused 1\n"),
        writing("a symbol of 16 terms", &with(8, 16), b"refused 2\n"),
        writing("the first clause at 1", &with(13, 1), b"refused 3\n"),
        writing("a clause of 257 cells", &bytes(&deck(&[256], &[&[0; 257]])), b"refused 4\n"),
        writing("a functor as head", &with(17, 0), b"refused 5\n"),
    ]
}

/// Texts and decks with numbers.
fn numbers() -> Vec<TextCase> {
    vec![
        reading("a number", b"v2.\nnu n1 -35.\npr p/1.\np(n1).\n", &[2, 0, 2, 0, 8, 0]),
        writing("a number as text", &read_program(b"v2.\nnu n1 -35.\npr p/1.\np(n1).\n"), b"v2.\nnu s0 -35.\n"),
        reading("its text again", b"v2.\nnu s0 -35.\npr s1/1.\ns1(s0).\n", &[2, 0, 2, 0, 8, 0]),
        reading("values at the bounds", b"v2.nu a-32768.nu b 32767.nu c 0.nu d 16.nu e 15.nu f-1.", &[2, 0, 6, 0, 8, 0]),
        writing("values at the bounds as text", &read_program(b"v2.nu a-32768.nu b 32767.nu c 0.nu d 16.nu e 15.nu f-1."), b"v2.\nnu s0 -32768.\n"),
        reading("format 2 without numbers", b" v2 .fn a/0.pr p/1.p(a).", &[2, 0, 2, 0, 8, 0]),
        writing("format 2 without numbers as text", &read_program(b" v2 .fn a/0.pr p/1.p(a)."), b"v2.\nfn s0/0.\n"),
        reading("numbers among other symbols", b"v2.fn f/1.nu n-1.pr p/2.nu m 5.p(f(n),m).p(_0,_0):-~p(_0,f(_0)).", &[2, 0, 4, 0, 8, 0]),
        writing("numbers among other symbols as text", &read_program(b"v2.fn f/1.nu n-1.pr p/2.nu m 5.p(f(n),m).p(_0,_0):-~p(_0,f(_0))."), b"v2.\nfn s0/1.\n"),
        reading("a digit after a name of 16 bytes", b"v2.nu abcdefghijklmnop5.", &[2, 0, 1, 0, 8, 0]),
        reading("`nu` and `v2` as names", b"v2.fn nu/0.nu v2 7.pr p/2.p(nu,v2).", &[2, 0, 3, 0, 8, 0]),
        reading("the same in format 1", b"pr nu/1.fn v2/0.nu(v2).", &[1, 0, 2, 0, 8, 0]),
        reading("`v2.` as a clause", b"pr v2/0.v2.", &[1, 0, 1, 0, 8, 0]),
    ]
}

/// Numbers that are none, where there are none, and decks that they make wrong.
fn no_numbers() -> Vec<TextCase> {
    vec![
        reading("minus 0", b"v2.nu a-0.", b"refused 10 7\n"),
        reading("32768", b"v2.nu a 32768.", b"refused 10 8\n"),
        reading("-32769", b"v2.nu a -32769.", b"refused 10 8\n"),
        reading("-65536", b"v2.nu a -65536.", b"refused 10 8\n"),
        reading("65537", b"v2.nu a 65537.", b"refused 10 8\n"),
        reading("a sign by itself", b"v2.nu a - 5.", b"refused 10 8\n"),
        reading("a number in format 1", b"nu n1 -35.", b"refused 10 3\n"),
        reading("`v2.` after a declaration", b"fn a/0.v2.nu n1 5.", b"refused 10 13\n"),
        reading("`v2` without a dot", b"v2 fn a/0.", b"refused 10 3\n"),
        reading("a number with an arity", b"v2.nu a/5.", b"refused 10 7\n"),
        reading("a number as a term", b"v2.pr p/1.p(5).", b"refused 10 12\n"),
        reading("a negative arity", b"v2.fn a/-3.", b"refused 10 8\n"),
        reading("a leading zero", b"v2.nu a 05.", b"refused 10 9\n"),
        reading("a number declared again", b"v2.nu a 5.fn a/0.", b"refused 10 13\n"),
        reading("a number with terms", b"v2.nu a 5.pr p/1.p(a(_0)).", b"refused 10 19\n"),
        reading("two equal numbers", b"v2.nu a 5.nu b 5.", b"refused 2\n"),
        reading("a number as a literal", b"v2.nu a 5.a.", b"refused 5\n"),
        reading("format 2 without a symbol", b"v2.", b"refused 1\n"),
        writing("two equal numbers in a deck", &bytes(&[2, 2, 8, 0, 12, 0, 12, 12, 512, 5, 512, 5]), b"refused 2\n"),
        writing("a second word of a functor", &bytes(&[2, 1, 8, 0, 10, 0, 10, 10, 0, 1]), b"refused 2\n"),
        writing("format 3", &bytes(&[3, 1, 8, 0, 10, 0, 10, 10, 0, 0]), b"refused 1\n"),
    ]
}
/// What the crate reads, in the form that its source states.
pub fn cases(list: &[TextCase]) -> Vec<u8> {
    let mut file = number(list.len()).to_vec();
    for case in list {
        let line = line(case);
        file.extend(number(line.len()));
        file.extend(line.as_bytes());
        let (asked, bytes): (usize, &[u8]) = match &case.asked {
            Asked::Read(text) => (0, text),
            Asked::Write(Some(file)) => (1, file),
            Asked::Write(None) => (2, &[]),
        };
        file.extend(number(asked));
        file.extend(input(bytes));
    }
    file
}

/// What it must write is the second evaluator's.
pub fn stdout(list: &[TextCase]) -> Vec<u8> {
    let mut text = Vec::new();
    for case in list {
        text.extend(line(case).as_bytes());
        text.extend(case.printed());
    }
    text
}

fn line(case: &TextCase) -> String {
    format!("-- {}\n", case.name)
}

fn number(number: usize) -> [u8; 3] {
    let [low, middle, high, 0] = u32::try_from(number).expect("32 bits").to_le_bytes() else {
        panic!("24 bits");
    };
    [low, middle, high]
}

/// Spaces at the end are not given.
fn input(bytes: &[u8]) -> Vec<u8> {
    let last = bytes.iter().rposition(|byte| *byte != b' ');
    let given = &bytes[..last.map_or(0, |last| last + 1)];
    [&number(bytes.len())[..], &number(given.len()), given].concat()
}
