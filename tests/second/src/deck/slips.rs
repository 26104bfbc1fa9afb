//! This evaluator with a slip put into its reading of a deck's formats (request U10): it takes another deck than the one given.

use super::NUMBER;
use crate::carry::{self, Given};
use crate::drill;
use crate::judge::{Engine, Lent, Report, Second};
use crate::levels;
use crate::mean::{self, Column, Mean};
use crate::text;
use crate::world::World;

pub struct Slip {
    pub name: &'static str,
    deck: fn(&[u16]) -> Vec<u16>,
}

impl Engine for Slip {
    fn open(&self, deck: &[u16]) -> u32 {
        Second.open(&(self.deck)(deck))
    }

    fn check(&self, deck: &[u16], query: &[u16]) -> u32 {
        Second.check(&(self.deck)(deck), query)
    }

    fn run(
        &self,
        deck: &[u16],
        query: &[u16],
        bars: &[u16],
        budget: u32,
        lent: Lent<'_>,
        report: &mut Report,
    ) -> u32 {
        Second.run(&(self.deck)(deck), query, bars, budget, lent, report)
    }
}

impl carry::judge::Engine for Slip {
    fn carry_on(
        &self,
        deck: &[u16],
        given: Given,
        bars: &[u16],
        budget: u32,
        lent: Lent<'_>,
        report: &mut Report,
    ) -> u32 {
        Second.carry_on(&(self.deck)(deck), given, bars, budget, lent, report)
    }
}

impl text::judge::Engine for Slip {
    fn read(&self, text: &[u8], deck: &mut [u16], words: &mut usize, place: &mut usize) -> u32 {
        text::judge::Second.read(text, deck, words, place)
    }

    fn write(&self, deck: &[u16], text: &mut [u8], bytes: &mut usize) -> u32 {
        text::judge::Second.write(&(self.deck)(deck), text, bytes)
    }
}

impl levels::judge::Engine for Slip {
    fn levels(&self, deck: &[u16], list: &mut [u16], circular: &mut u32) -> u32 {
        levels::judge::Second.levels(&(self.deck)(deck), list, circular)
    }
}

impl drill::judge::Engine for Slip {
    fn drill(&self, deck: &[u16], n: u32, after: &[u16], list: &mut [u16], count: &mut u64) -> u32 {
        drill::judge::Second.drill(&(self.deck)(deck), n, after, list, count)
    }
}

impl mean::judge::Engine for Slip {
    fn mean(&self, deck: &[u16], list: &[u16], asked: Column, found: &mut Mean) -> u32 {
        mean::judge::Second.mean(&(self.deck)(deck), list, asked, found)
    }
}

/// A deck with its symbols changed; of format 2 only, and where its parts hang together.
fn with(deck: &[u16], change: impl Fn(&mut [u16], &mut [u16])) -> Vec<u16> {
    let taken = World::take_apart(deck, &[]);
    let Some(mut world) = taken.filter(|world| world.format() == 2) else {
        return deck.to_vec();
    };
    if let Some(values) = &mut world.values {
        change(&mut world.symbols, values);
    }
    world.deck()
}

/// What is such is a symbol of no kind.
fn refused(deck: &[u16], such: impl Fn(u16, u16) -> bool) -> Vec<u16> {
    with(deck, |words, values| {
        for (word, value) in words.iter_mut().zip(values) {
            if such(*word, *value) {
                *word = 768;
            }
        }
    })
}

/// The second words of such symbols are 0.
fn passed_over(deck: &[u16], such: impl Fn(u16) -> bool) -> Vec<u16> {
    with(deck, |words, values| {
        let pairs = words.iter().zip(values);
        pairs.filter(|(word, _)| such(**word)).for_each(|(_, value)| *value = 0);
    })
}

/// Numbers whose places are such, and that have equal values, get values of their own.
fn told_apart(deck: &[u16], such: fn(usize, usize) -> bool) -> Vec<u16> {
    with(deck, |words, values| {
        for at in 0..words.len() {
            let equal = |before: &usize| words[*before] == NUMBER && values[*before] == values[at];
            let found = (0..at).filter(equal).any(|before| such(before, at));
            if words[at] == NUMBER && found {
                let free = (0..u16::MAX).find(|value| !values.contains(value));
                values[at] = free.unwrap_or(0);
            }
        }
    })
}

/// Numbers are taken to be equal where this is.
fn equal_by(deck: &[u16], by: fn(u16) -> u16) -> Vec<u16> {
    with(deck, |words, values| {
        let pairs = words.iter().zip(values);
        let numbers = pairs.filter(|(word, _)| **word == NUMBER);
        numbers.for_each(|(_, value)| *value = by(*value));
    })
}

/// A number that is one, in place of such a word.
fn number_for(deck: &[u16], such: fn(u16) -> bool) -> Vec<u16> {
    with(deck, |words, _| words.iter_mut().filter(|word| such(**word)).for_each(|word| *word = NUMBER))
}

pub const SLIPS: [Slip; 21] = [
    Slip {
        name: "the second words stand after all the first ones",
        deck: |deck| {
            with(deck, |words, values| {
                let all: Vec<u16> = words.iter().zip(values.iter()).flat_map(|(word, value)| [*word, *value]).collect();
                let (first, second) = all.split_at(words.len());
                words.copy_from_slice(first);
                values.copy_from_slice(second);
            })
        },
    },
    Slip {
        name: "the second word comes first",
        deck: |deck| with(deck, |words, values| words.swap_with_slice(values)),
    },
    Slip {
        name: "the second word is the next symbol's",
        deck: |deck| with(deck, |_, values| values.rotate_left(1)),
    },
    Slip {
        name: "a number's value is the next number's",
        deck: |deck| {
            with(deck, |words, values| {
                let numbers: Vec<usize> = (0..words.len()).filter(|at| words[*at] == NUMBER).collect();
                let theirs: Vec<u16> = numbers.iter().map(|at| values[*at]).collect();
                for (at, value) in numbers.iter().zip(theirs.iter().cycle().skip(1)) {
                    values[*at] = *value;
                }
            })
        },
    },
    Slip {
        name: "equal values are not looked for",
        deck: |deck| told_apart(deck, |_, _| true),
    },
    Slip {
        name: "equal values are found next to each other only",
        deck: |deck| told_apart(deck, |before, at| before + 1 < at),
    },
    Slip {
        name: "equal values are not found next to each other",
        deck: |deck| told_apart(deck, |before, at| before + 1 == at),
    },
    Slip {
        name: "values are equal where their last bytes are",
        deck: |deck| equal_by(deck, |value| value & 255),
    },
    Slip {
        name: "values are equal but for their signs",
        deck: |deck| equal_by(deck, |value| (value as i16).unsigned_abs()),
    },
    Slip {
        name: "the value 0 equals the second word of what is no number",
        deck: |deck| {
            let other = World::take_apart(deck, &[]).is_some_and(|world| world.symbols.iter().any(|word| *word != NUMBER));
            refused(deck, |word, value| other && word == NUMBER && value == 0)
        },
    },
    Slip {
        name: "the value 0 is refused",
        deck: |deck| refused(deck, |word, value| word == NUMBER && value == 0),
    },
    Slip {
        name: "values below 0 are refused",
        deck: |deck| refused(deck, |word, value| word == NUMBER && value > 32_767),
    },
    Slip {
        name: "a functor's second word is not looked at",
        deck: |deck| passed_over(deck, |word| word < 16),
    },
    Slip {
        name: "a predicate's second word is not looked at",
        deck: |deck| passed_over(deck, |word| (256..272).contains(&word)),
    },
    Slip {
        name: "a second word is looked at as a number's only",
        deck: |deck| passed_over(deck, |word| word != NUMBER),
    },
    Slip {
        name: "a number may have an arity",
        deck: |deck| number_for(deck, |word| (513..528).contains(&word)),
    },
    Slip {
        name: "a number may be a predicate as well",
        deck: |deck| number_for(deck, |word| word == 768),
    },
    Slip {
        name: "512 is a functor in format 1",
        deck: |deck| {
            let taken = World::take_apart(deck, &[]).filter(|world| world.format() == 1);
            let Some(mut world) = taken else {
                return deck.to_vec();
            };
            world.symbols.iter_mut().filter(|word| **word == NUMBER).for_each(|word| *word = 0);
            world.deck()
        },
    },
    Slip {
        name: "format 3 is taken as format 2",
        deck: |deck| match deck {
            [3, rest @ ..] => [&[2], rest].concat(),
            _ => deck.to_vec(),
        },
    },
    Slip {
        name: "over 2,048 symbols of two words are refused",
        deck: |deck| match deck {
            [2, symbols, ..] if (2_049..5_000).contains(symbols) => vec![0; 8],
            _ => deck.to_vec(),
        },
    },
    Slip {
        name: "format 2 is refused",
        deck: |deck| match deck {
            [2, ..] => vec![0; 8],
            _ => deck.to_vec(),
        },
    },
];
