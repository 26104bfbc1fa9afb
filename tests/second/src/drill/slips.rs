//! This evaluator with a slip put in, to see that the comparison finds it.

use super::case::bare;
use super::drill;
use super::judge::{Engine, Second};

pub struct Slip {
    pub name: &'static str,
    drill: fn(&[u16], u32, &[u16], usize) -> Result<Vec<Vec<u16>>, u32>,
}

impl Engine for Slip {
    fn drill(&self, deck: &[u16], n: u32, after: &[u16], list: &mut [u16], count: &mut u64) -> u32 {
        match (self.drill)(deck, n, after, list.len()) {
            Ok(terms) => {
                let mut cells = terms.concat();
                cells.truncate(list.len());
                list[..cells.len()].copy_from_slice(&cells);
                *count = terms.len() as u64;
                0
            }
            Err(number) => number,
        }
    }
}

/// Another engine's call that leaves more than the terms.
pub struct Touches;

impl Engine for Touches {
    fn drill(&self, deck: &[u16], n: u32, after: &[u16], list: &mut [u16], count: &mut u64) -> u32 {
        let number = Second.drill(deck, n, after, list, count);
        if let (0, Some(last)) = (number, list.last_mut()) {
            *last = 0;
        }
        number
    }
}

/// All terms after the given one.
fn rest(deck: &[u16], n: u32, after: &[u16]) -> Result<Vec<Vec<u16>>, u32> {
    drill(deck, n, after, 6_000)
}

fn fitting(terms: Vec<Vec<u16>>, room: usize) -> Vec<Vec<u16>> {
    let mut left = room;
    let fits = |term: &Vec<u16>| {
        let whole = term.len() <= left;
        left -= term.len().min(left);
        whole
    };
    terms.into_iter().take_while(fits).collect()
}

/// The places of the symbols' first words.
fn places(deck: &[u16]) -> impl Iterator<Item = usize> {
    let (format, count) = (deck[0] as usize, deck[1] as usize);
    (0..count).map(move |symbol| 8 + format * symbol)
}

fn first_words(deck: &[u16]) -> Vec<u16> {
    places(deck).map(|at| deck[at]).collect()
}

/// A deck with some of its functors made predicates, so that they are passed over.
fn without(deck: &[u16], passed: fn(u16) -> bool) -> Vec<u16> {
    let words = first_words(deck).into_iter();
    let left: Vec<u16> = words.map(|word| if passed(word) { 256 } else { word }).collect();
    bare(&left)
}

/// The terms that come after these cells in the list's order, though they need not be of it.
fn beyond(deck: &[u16], n: u32, cells: &[u16], room: usize) -> Result<Vec<Vec<u16>>, u32> {
    let terms = rest(deck, n, &[])?;
    let later = terms.into_iter().filter(|term| (term.len(), &term[..]) > (cells.len(), cells));
    Ok(fitting(later.collect(), room))
}

/// A deck with its predicates made functors.
fn functors(deck: &[u16]) -> Vec<u16> {
    let words = first_words(deck).into_iter();
    bare(&words.map(|word| word & 255).collect::<Vec<u16>>())
}

/// The cells with a constant of the deck in each variable's place.
fn filled(deck: &[u16], cells: &[u16]) -> Option<Vec<u16>> {
    let constant = first_words(deck).iter().position(|word| *word == 0)? as u16;
    Some(cells.iter().map(|cell| if *cell < 32_768 { *cell } else { constant }).collect())
}

/// For each symbol its number, or of a number its value.
fn named(deck: &[u16], cell: u16) -> u16 {
    match deck.get(8 + 2 * cell as usize..).unwrap_or_default() {
        [512, value, ..] if deck[0] == 2 => *value,
        _ => cell,
    }
}

pub const SLIPS: [Slip; 19] = [
    Slip {
        name: "the order by length is forgotten",
        drill: |deck, n, after, room| {
            let mut terms = rest(deck, n, after)?;
            terms.sort();
            Ok(fitting(terms, room))
        },
    },
    Slip {
        name: "a term twice at the change of length",
        drill: |deck, n, after, room| {
            let terms = rest(deck, n, after)?;
            let longer = |at: &usize| *at > 0 && terms[at - 1].len() < terms[*at].len();
            let again = (0..terms.len()).flat_map(|at| vec![terms[at].clone(); 1 + usize::from(longer(&at))]);
            Ok(fitting(again.collect(), room))
        },
    },
    Slip {
        name: "the given term itself is written",
        drill: |deck, n, after, room| {
            let mut terms = rest(deck, n, after)?;
            if !after.is_empty() {
                terms.insert(0, after.to_vec());
            }
            Ok(fitting(terms, room))
        },
    },
    Slip {
        name: "a term is cut at the list's end",
        drill: |deck, n, after, room| {
            let whole = drill(deck, n, after, room)?.len();
            Ok(drill(deck, n, after, room + 8)?.into_iter().take(whole + 1).collect())
        },
    },
    Slip {
        name: "N = 9 is let through",
        drill: |deck, n, after, room| drill(deck, if n == 9 { 8 } else { n }, after, room),
    },
    Slip {
        name: "N is cut to 16 bits",
        drill: |deck, n, after, room| drill(deck, n % 65_536, after, room),
    },
    Slip {
        name: "functors of arity over 7 hide others",
        drill: |deck, n, after, room| {
            let terms = drill(deck, n, after, room)?;
            let hidden = first_words(deck).iter().position(|word| (8..16).contains(word));
            Ok(terms.into_iter().take_while(|term| hidden.is_none_or(|first| (term[0] as usize) < first)).collect())
        },
    },
    Slip {
        name: "the largest size is forgotten",
        drill: |deck, n, after, room| {
            let terms = drill(deck, n, after, room)?;
            Ok(terms.into_iter().filter(|term| (term.len() as u32) < n || n == 1).collect())
        },
    },
    Slip {
        name: "a term that just fills the list is not written",
        drill: |deck, n, after, room| {
            let mut terms = drill(deck, n, after, room)?;
            if terms.concat().len() == room {
                terms.pop();
            }
            Ok(terms)
        },
    },
    Slip {
        name: "cells after the given term are passed over",
        drill: |deck, n, after, room| {
            let found = (1..=after.len()).find_map(|end| drill(deck, n, &after[..end], room).ok());
            found.map_or_else(|| drill(deck, n, after, room), Ok)
        },
    },
    Slip {
        name: "a given term that is not of the list means from the start",
        drill: |deck, n, after, room| drill(deck, n, after, room).or_else(|_| drill(deck, n, &[], room)),
    },
    Slip {
        name: "a predicate is taken in a given term",
        drill: |deck, n, after, room| match drill(deck, n, after, room) {
            Err(19) if drill(&functors(deck), n, after, room).is_ok() => beyond(deck, n, after, room),
            found => found,
        },
    },
    Slip {
        name: "a variable is taken in a given term",
        drill: |deck, n, after, room| match drill(deck, n, after, room) {
            Err(19) if filled(deck, after).is_some_and(|cells| drill(deck, n, &cells, room).is_ok()) => beyond(deck, n, after, room),
            found => found,
        },
    },
    Slip {
        name: "a given term of over N cells is taken",
        drill: |deck, n, after, room| match drill(deck, n, after, room) {
            Err(19) if n < 8 && drill(deck, 8, after, room).is_ok() => beyond(deck, n, after, room),
            found => found,
        },
    },
    Slip {
        name: "functors of arity 7 are passed over",
        drill: |deck, n, after, room| match drill(deck, n, after, room) {
            Ok(_) if after.is_empty() => drill(&without(deck, |word| word == 7), n, after, room),
            found => found,
        },
    },
    Slip {
        name: "numbers are passed over",
        drill: |deck, n, after, room| match drill(deck, n, after, room) {
            Ok(_) if after.is_empty() => drill(&without(deck, |word| word == 512), n, after, room),
            found => found,
        },
    },
    Slip {
        name: "numbers are written as their values",
        drill: |deck, n, after, room| {
            let terms = drill(deck, n, after, room)?.into_iter();
            Ok(terms.map(|term| term.iter().map(|cell| named(deck, *cell)).collect()).collect())
        },
    },
    Slip {
        name: "numbers are in order of their values",
        drill: |deck, n, after, room| {
            let mut terms = drill(deck, n, after, room)?;
            terms.sort_by_key(|term| (term.len(), term.iter().map(|cell| named(deck, *cell) as i16).collect::<Vec<i16>>()));
            Ok(terms)
        },
    },
    Slip {
        name: "the second words are symbols as well",
        drill: |deck, n, after, room| match drill(deck, n, after, room) {
            Ok(found) if deck[0] == 2 => drill(&bare(&deck[8..8 + 2 * deck[1] as usize]), n, after, room).or(Ok(found)),
            found => found,
        },
    },
];
