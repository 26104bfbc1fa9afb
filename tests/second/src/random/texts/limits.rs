//! Texts at the limits: of deck words, of declarations, of nesting.

use super::Dice;

pub fn text(dice: &mut Dice) -> Vec<u8> {
    match dice.below(6) {
        0 | 1 => {
            let words = dice.range(16_380, 16_390);
            let symbols = dice.range(2, 4_000);
            sized(words, symbols)
        }
        2 => declared(dice.range(4_090, 4_100)),
        3 => {
            let words = dice.range(16_380, 16_390);
            let symbols = dice.range(2, 4_000);
            sized_numbers(words, symbols)
        }
        4 => numbered(dice.range(4_090, 4_100)),
        _ => {
            let (deep, close) = (dice.range(100, 3_000), dice.range(0, 3_000));
            nested(deep, close, dice.below(3))
        }
    }
}

/// A text whose deck has just so many words, with so many symbols: facts of two words, and one longer rule if need be.
pub fn sized(words: usize, symbols: usize) -> Vec<u8> {
    [declared(symbols - 1), facts(words - 8 - symbols)].concat()
}

/// The same in format 2, with numbers.
pub fn sized_numbers(words: usize, symbols: usize) -> Vec<u8> {
    [numbered(symbols - 1), facts(words - 8 - 2 * symbols)].concat()
}

fn facts(left: usize) -> Vec<u8> {
    let mut text = b"pr p/0.\n".to_vec();
    for at in 0..left / 2 {
        let odd = at == 0 && left % 2 == 1;
        text.extend(if odd { &b"p :- ~p.\n"[..] } else { b"p.\n" });
    }
    text
}

/// So many declarations.
pub fn declared(number: usize) -> Vec<u8> {
    let line = |at: usize| format!("fn a{at}/{}.\n", at % 16);
    (0..number).map(line).collect::<String>().into_bytes()
}

/// So many declarations of numbers, the least value first.
pub fn numbered(number: usize) -> Vec<u8> {
    let line = |at: usize| format!("nu a{at} {}.\n", at as i64 - 32_768);
    let lines: String = (0..number).map(line).collect();
    ["v2.\n", &lines].concat().into_bytes()
}

/// So many declarations; a clause; each name used in a fact, the last one first; and another clause.
pub fn used(number: usize, first: &str, last: &str) -> Vec<u8> {
    let fact = |at: usize| match at % 16 {
        0 => format!("a{at}."),
        arity => format!("a{at}({}).", vec!["_0"; arity].join(",")),
    };
    let facts: String = (0..number).rev().map(fact).collect();
    let clauses = format!("{first}{facts}{last}");
    [declared(number), clauses.into_bytes()].concat()
}

/// `p(f(f(..`, so deep, with so many brackets closed; at the innermost place none, one or two arguments.
pub fn nested(deep: usize, close: usize, inside: usize) -> Vec<u8> {
    let arguments = ["", "a", "a,a"][inside];
    let (open, closed) = ("f(".repeat(deep), ")".repeat(close));
    let end = if close > deep { "." } else { "" };
    format!("fn f/1.fn a/0.pr p/1.p({open}{arguments}{closed}{end}").into_bytes()
}

/// 4,000 names that differ at their start, at their end or in the order of their letters only, each used in a fact, the last one first.
pub fn alike(shape: usize) -> Vec<u8> {
    let letter = |place: usize| char::from(b'a' + (place % 26) as u8);
    let name = |at: usize| match shape {
        0 => format!(
            "{}{}{}aaaaaaaaaaaaa",
            letter(at),
            letter(at / 26),
            letter(at / 676)
        ),
        1 => format!(
            "aaaaaaaaaaaaa{}{}{}",
            letter(at / 676),
            letter(at / 26),
            letter(at)
        ),
        _ => permuted(at),
    };
    let declared = (0..4_000).map(|at| format!("fn {}/0.", name(at)));
    let used = (0..4_000).rev().map(|at| format!("p({}).", name(at)));
    let text: String = declared
        .chain(["pr p/1.".to_string()])
        .chain(used)
        .collect();
    text.into_bytes()
}

/// The letters a to g, in the order of this number, below 5,040.
fn permuted(number: usize) -> String {
    let (mut left, mut number) = (b"abcdefg".to_vec(), number);
    let mut name = String::new();
    while !left.is_empty() {
        name.push(char::from(left.remove(number % left.len())));
        number /= left.len() + 1;
    }
    name
}
