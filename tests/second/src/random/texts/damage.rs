//! Damage to tokens and to bytes.

use super::draft::{name, Draft};
use super::Dice;
use std::ops::Range;

const ANY_TOKEN: [&str; 28] = [
    "fn",
    "pr",
    "nu",
    "v2",
    "-1",
    "-0",
    "-",
    "5",
    "a",
    "zzzzzzzzzzzzzzzz",
    "0",
    "1",
    "15",
    "16",
    "00",
    "_0",
    "_1",
    "_1023",
    "_1024",
    ":-",
    ":",
    ".",
    ",",
    "(",
    ")",
    "~",
    "/",
    "_",
];

/// One fault of the tokens.
pub fn damage(dice: &mut Dice, draft: &mut Draft) {
    let tokens = &mut draft.tokens;
    if tokens.is_empty() {
        return tokens.push(dice.pick(&ANY_TOKEN).to_string());
    }
    let at = dice.below(tokens.len());
    match dice.below(18) {
        0 => drop(tokens.remove(at)),
        1 => tokens.insert(at, tokens[at].clone()),
        2 => tokens.swap(at, at.saturating_sub(1)),
        3 => tokens[at] = dice.pick(&ANY_TOKEN).to_string(),
        4 => tokens.insert(at, dice.pick(&ANY_TOKEN).to_string()),
        5 => tokens.truncate(at),
        6 => drop(tokens.pop()),
        7 => renamed(dice, tokens),
        8 => number(dice, tokens),
        9 => variable(dice, tokens),
        10 => twice(dice, tokens),
        11 => arguments(dice, tokens),
        12 => declared_late(dice, tokens),
        13 => long_clause(dice, tokens),
        14 => value(dice, tokens),
        15 => marker(dice, tokens),
        16 => equal_values(dice, tokens),
        _ => tokens[at] = tokens[dice.below(tokens.len())].clone(),
    }
}

/// A place whose token is such.
fn place(dice: &mut Dice, tokens: &[String], such: fn(u8) -> bool) -> Option<usize> {
    let first = |at: &usize| tokens[*at].bytes().next().is_some_and(such);
    let places: Vec<usize> = (0..tokens.len()).filter(first).collect();
    (!places.is_empty()).then(|| *dice.pick(&places))
}

fn letter(byte: u8) -> bool {
    byte.is_ascii_lowercase()
}

/// A name at one place, or everywhere, is another one; some have 17 bytes.
fn renamed(dice: &mut Dice, tokens: &mut [String]) {
    let Some(at) = place(dice, tokens, letter) else {
        return;
    };
    let (old, number) = (tokens[at].clone(), dice.below(9));
    let new = match dice.below(4) {
        0 => format!("{old:b<16}"),
        1 => format!("{old:b<17}"),
        2 => format!("{old:0<17}"),
        _ => name(dice, number),
    };
    if dice.chance(1, 3) {
        tokens[at] = new;
        return;
    }
    for token in tokens.iter_mut().filter(|token| **token == old) {
        token.clone_from(&new);
    }
}

fn number(dice: &mut Dice, tokens: &mut [String]) {
    if let Some(at) = place(dice, tokens, |byte| byte.is_ascii_digit()) {
        let zero = format!("0{}", tokens[at]);
        let large = [
            "15",
            "16",
            "17",
            "256",
            "65536",
            "4294967296",
            "18446744073709551616",
            &zero,
            &zero,
        ];
        tokens[at] = dice.pick(&large).to_string();
    }
}

fn variable(dice: &mut Dice, tokens: &mut [String]) {
    if let Some(at) = place(dice, tokens, |byte| byte == b'_') {
        let zero = format!("_0{}", &tokens[at][1..]);
        let other = [
            "_1",
            "_2",
            "_1023",
            "_1024",
            "_01",
            "_65536",
            "_65537",
            "_4294967296",
            "_",
            "_x",
            "_ 0",
            &zero,
        ];
        tokens[at] = dice.pick(&other).to_string();
    }
}

/// A number's value.
fn value(dice: &mut Dice, tokens: &mut Vec<String>) {
    let all = declarations(tokens);
    let values: Vec<usize> = all.iter().filter(|one| one.len() == 4).map(|one| one.start + 2).collect();
    if values.is_empty() {
        return;
    }
    let at = *dice.pick(&values);
    let zero = format!("0{}", tokens[at]);
    let below_0 = format!("-{}", tokens[at]);
    let others = [
        "0", "-0", "00", "-00", "-01", "- 5", "--5", "+5", "5-", "32767", "32768", "-32768", "-32769", "65535", "65536", "-65536",
        "4294967296", "-4294967295", "18446744073709551617", &zero, &below_0, "_0", "a",
    ];
    match dice.below(4) {
        0 => drop(tokens.remove(at)),
        1 => drop(tokens.splice(at..at, ["/".to_string()])),
        _ => tokens[at] = dice.pick(&others).to_string(),
    }
}

/// The mark of format 2 is lost, doubled, or stands elsewhere.
fn marker(dice: &mut Dice, tokens: &mut Vec<String>) {
    let mark = ["v2", "."].map(str::to_string);
    let there = start(tokens);
    let ends = declarations(tokens).into_iter().map(|one| one.end);
    let ends: Vec<usize> = [0, there].into_iter().chain(ends).collect();
    let at = *dice.pick(&ends);
    if there > 0 && dice.chance(1, 2) {
        tokens.drain(..there);
        let at = at.saturating_sub(there);
        if dice.chance(1, 2) {
            tokens.splice(at..at, mark);
        }
    } else {
        tokens.splice(at..at, mark);
    }
}

/// A number gets the value of another.
fn equal_values(dice: &mut Dice, tokens: &mut [String]) {
    let all = declarations(tokens);
    let values: Vec<usize> = all.iter().filter(|one| one.len() == 4).map(|one| one.start + 2).collect();
    if values.len() > 1 {
        tokens[*dice.pick(&values)] = tokens[*dice.pick(&values)].clone();
    }
}

/// A declaration again, as it was or of another kind or of another arity or value.
fn twice(dice: &mut Dice, tokens: &mut Vec<String>) {
    let all = declarations(tokens);
    if all.is_empty() {
        return;
    }
    let mut again = tokens[dice.pick(&all).clone()].to_vec();
    let last = again.len() - 2;
    match dice.below(3) {
        0 => again[0] = dice.pick(&["fn", "pr", "nu"]).to_string(),
        1 => again[last] = dice.range(0, 15).to_string(),
        _ => {}
    }
    let places: Vec<usize> = all.iter().map(|one| one.start).chain([all[all.len() - 1].end]).collect();
    let to = *dice.pick(&places);
    tokens.splice(to..to, again);
}

/// Where declarations begin: after the mark of format 2, if it is there.
fn start(tokens: &[String]) -> usize {
    if tokens.len() > 1 && tokens[0] == "v2" && tokens[1] == "." {
        2
    } else {
        0
    }
}

/// The whole declarations that the tokens begin with.
fn declarations(tokens: &[String]) -> Vec<Range<usize>> {
    let mut all = Vec::new();
    let mut at = start(tokens);
    while let Some(length) = declaration(&tokens[at..]) {
        all.push(at..at + length);
        at += length;
    }
    all
}

/// How many tokens the declaration here has, if there is one.
fn declaration(tokens: &[String]) -> Option<usize> {
    let token = |at: usize| tokens.get(at).map_or("", |token| token);
    match (token(0), token(2)) {
        ("fn" | "pr", "/") if token(4) == "." => Some(5),
        ("nu", value) if value != "/" && token(3) == "." => Some(4),
        _ => None,
    }
}

/// One argument more or less; brackets more or less.
fn arguments(dice: &mut Dice, tokens: &mut Vec<String>) {
    let Some(at) = place(dice, tokens, |byte| {
        byte == b'(' || byte == b',' || byte == b')'
    }) else {
        return;
    };
    let add: &[&str] = match (tokens[at].as_str(), dice.below(3)) {
        ("(", 0) => &["(", "_0", ","],
        (")", 0) => &[",", "_0", ")"],
        ("(", 1) | (",", 0) => &["(", "_0", ")", ","],
        (")", 1) => &["(", "_0", ")", ")"],
        (",", _) => &[",", "_0", ","],
        _ => &[],
    };
    tokens.splice(at..=at, add.iter().map(|token| token.to_string()));
}

fn declared_late(dice: &mut Dice, tokens: &mut Vec<String>) {
    let all = declarations(tokens);
    if all.is_empty() {
        return;
    }
    let moved: Vec<String> = tokens.drain(dice.pick(&all).clone()).collect();
    if dice.chance(1, 2) {
        tokens.extend(moved);
    }
}

/// A clause of around 256 cells, or just over.
fn long_clause(dice: &mut Dice, tokens: &mut Vec<String>) {
    let from = start(tokens);
    let name = tokens.get(from + 1).cloned().unwrap_or_default();
    let cells = dice.range(254, 259);
    let declared = ["pr", "longest", "/", "0", "."].map(str::to_string);
    tokens.splice(from..from, declared);
    let name = if dice.chance(1, 8) {
        name.as_str()
    } else {
        "longest"
    };
    tokens.extend(["longest", ":-"].map(str::to_string));
    for _ in 1..cells {
        tokens.extend([name, ","].map(str::to_string));
    }
    tokens.pop();
    tokens.push(".".to_string());
}

/// A text with a few bytes changed.
pub fn bytes(dice: &mut Dice) -> Vec<u8> {
    let mut text = super::drafted(dice, 0);
    for _ in 0..*dice.pick(&[1, 1, 1, 2, 4]) {
        let at = dice.range(0, text.len());
        let byte = byte(dice);
        match dice.below(5) {
            0 if at < text.len() => drop(text.remove(at)),
            1 | 2 if at < text.len() => text[at] = byte,
            3 => text.truncate(at),
            _ => text.insert(at, byte),
        }
    }
    text
}

fn byte(dice: &mut Dice) -> u8 {
    if dice.chance(1, 4) {
        return dice.word() as u8;
    }
    *dice.pick(b" \n\t\r\0.,/~():-_0123456789abfnpruvz:.-+AZ;%\x7f\x80\xff")
}

/// Tokens in any order, or bytes in any order.
pub fn noise(dice: &mut Dice) -> Vec<u8> {
    let length = dice.range(0, 12);
    if dice.chance(1, 2) {
        return (0..length).map(|_| byte(dice)).collect();
    }
    let tokens = (0..length)
        .map(|_| dice.pick(&ANY_TOKEN).to_string())
        .collect();
    Draft { tokens }.spaced(dice)
}
