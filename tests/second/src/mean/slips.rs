//! This evaluator with a slip put in, to see that the comparison finds it.

use super::judge::{tell, Engine, Second};
use super::{mean, Column, Mean, Refused};
use crate::carry::Fault;
use crate::world::World;

type Call = fn(&[u16], &[u16], Column) -> Result<Mean, u32>;

pub struct Slip {
    pub name: &'static str,
    mean: Call,
}

impl Engine for Slip {
    fn mean(&self, deck: &[u16], list: &[u16], asked: Column, found: &mut Mean) -> u32 {
        tell((self.mean)(deck, list, asked), found)
    }
}

/// Another engine's call that tells something with a refusal.
pub struct Touches;

impl Engine for Touches {
    fn mean(&self, deck: &[u16], list: &[u16], asked: Column, found: &mut Mean) -> u32 {
        let number = Second.mean(deck, list, asked, found);
        if number == 18 {
            found.sum = 0;
        }
        number
    }
}

fn right(deck: &[u16], list: &[u16], asked: Column) -> Result<Mean, u32> {
    mean(deck, list, asked).map_err(Refused::number)
}

/// The column of a deck whose symbols are changed before it is opened.
fn over(deck: &[u16], list: &[u16], asked: Column, change: fn(&mut World)) -> Result<Mean, u32> {
    right(deck, list, asked)?;
    changed(deck, list, asked, change)
}

fn changed(deck: &[u16], list: &[u16], asked: Column, change: fn(&mut World)) -> Result<Mean, u32> {
    match World::take_apart(deck, &[]) {
        Some(mut world) => {
            change(&mut world);
            right(&world.deck(), list, asked)
        }
        None => right(deck, list, asked),
    }
}

/// Another mean of the same sum and count.
fn told(deck: &[u16], list: &[u16], asked: Column, of: fn(i64, i64) -> (i64, i64)) -> Result<Mean, u32> {
    let Mean { sum, .. } = right(deck, list, asked)?;
    let (whole, remainder) = of(sum, asked.count as i64);
    let remainder = remainder as u64;
    Ok(Mean { sum, whole, remainder })
}

/// The fault that 17 is for, if it is.
fn fault(deck: &[u16], list: &[u16], asked: Column) -> Option<Fault> {
    match mean(deck, list, asked) {
        Err(Refused::Answer(fault)) => Some(fault),
        _ => None,
    }
}

/// All symbols without arguments are numbers, of the values that such functions give them by number.
fn valued(world: &mut World, value: impl Fn(usize) -> u16) {
    let values = world.values.get_or_insert_with(Vec::new);
    values.resize(world.symbols.len(), 0);
    for (at, word) in world.symbols.iter_mut().enumerate().filter(|one| *one.1 == 0) {
        (*word, values[at]) = (crate::deck::NUMBER, value(at));
    }
}

/// The list, with its first goal pending.
fn unmarked(list: &[u16]) -> Vec<u16> {
    let lengths = list.first().map(|word| word % 4_096);
    lengths.into_iter().chain(list.iter().skip(1).copied()).collect()
}

pub const SLIPS: [Slip; 31] = [
    Slip {
        name: "the mean is rounded towards zero",
        mean: |deck, list, asked| told(deck, list, asked, |sum, count| (sum / count, sum - sum / count * count)),
    },
    Slip {
        name: "the whole part is rounded towards zero",
        mean: |deck, list, asked| told(deck, list, asked, |sum, count| (sum / count, sum.rem_euclid(count))),
    },
    Slip {
        name: "the remainder is of the sum without its sign",
        mean: |deck, list, asked| told(deck, list, asked, |sum, count| (sum.div_euclid(count), sum.abs() % count)),
    },
    Slip {
        name: "one less for every sum below 0",
        mean: |deck, list, asked| {
            told(deck, list, asked, |sum, count| match sum {
                0.. => (sum / count, sum % count),
                _ => (sum / count - 1, sum % count + count),
            })
        },
    },
    Slip {
        name: "rounded to the nearest",
        mean: |deck, list, asked| told(deck, list, asked, |sum, count| ((2 * sum + count).div_euclid(2 * count), sum.rem_euclid(count))),
    },
    Slip {
        name: "the sum is cut to 16 bits",
        mean: |deck, list, asked| {
            let Mean { sum, .. } = right(deck, list, asked)?;
            Ok(Mean { sum: (sum as i16).into(), ..right(deck, list, asked)? })
        },
    },
    Slip {
        name: "the sum is kept within 31 bits",
        mean: |deck, list, asked| {
            let found = right(deck, list, asked)?;
            Ok(Mean { sum: found.sum.clamp(-0x4000_0000, 0x3fff_ffff), ..found })
        },
    },
    Slip {
        name: "a sum below 0 is added up without signs",
        mean: |deck, list, asked| {
            let found = right(deck, list, asked)?;
            let more = if found.sum < 0 { 65_536 * asked.count as i64 } else { 0 };
            Ok(Mean { sum: found.sum + more, ..found })
        },
    },
    Slip {
        name: "the last answer is left out",
        mean: |deck, list, asked| {
            let found = right(deck, list, asked)?;
            match asked.count {
                1 => Ok(found),
                count => right(deck, list, Column { count: count - 1, ..asked }),
            }
        },
    },
    Slip {
        name: "the first answer's column is added up twice",
        mean: |deck, list, asked| {
            let found = right(deck, list, asked)?;
            let first = right(deck, list, Column { count: 1, ..asked })?;
            Ok(Mean { sum: found.sum + first.sum, ..found })
        },
    },
    Slip {
        name: "columns are counted from 1",
        mean: |deck, list, asked| {
            let found = right(deck, list, asked)?;
            match asked.column {
                0 => Ok(found),
                column => right(deck, list, Column { column: column - 1, ..asked }),
            }
        },
    },
    Slip {
        name: "columns are counted in cells",
        mean: |deck, list, asked| {
            let found = right(deck, list, asked)?;
            let cell = list[2 + asked.column as usize];
            let first = right(deck, &[3, 1, cell], Column { count: 1, terms: 1, column: 0 })?;
            Ok(if asked.count == 1 { first } else { found })
        },
    },
    Slip {
        name: "a functor is added up by its number",
        mean: |deck, list, asked| match right(deck, list, asked) {
            Err(18) => changed(deck, list, asked, |world| valued(world, |at| 30_000 + at as u16)),
            found => found,
        },
    },
    Slip {
        name: "a number is added up by its symbol's number",
        mean: |deck, list, asked| {
            over(deck, list, asked, |world| {
                let count = world.symbols.len() as u16;
                world.values = Some((0..count).collect());
                for (word, value) in world.symbols.iter().zip(world.values.iter_mut().flatten()) {
                    *value *= u16::from(*word == crate::deck::NUMBER);
                }
            })
        },
    },
    Slip {
        name: "a functor with arguments counts as 0",
        mean: |deck, list, asked| match mean(deck, list, asked) {
            Err(Refused::Functor) => Ok(Mean::default()),
            found => found.map_err(Refused::number),
        },
    },
    Slip {
        name: "a variable counts as 0",
        mean: |deck, list, asked| match mean(deck, list, asked) {
            Err(Refused::Variable) => Ok(Mean::default()),
            found => found.map_err(Refused::number),
        },
    },
    Slip {
        name: "an entry that is no number is 17",
        mean: |deck, list, asked| right(deck, list, asked).map_err(|number| number.min(17)),
    },
    Slip {
        name: "18 before 17 is decided",
        mean: |deck, list, asked| {
            let early = (1..asked.count.min(70_000)).find_map(|count| match right(deck, list, Column { count, ..asked }) {
                Err(18) => Some(18),
                Err(_) => Some(17),
                Ok(_) => None,
            });
            match early {
                Some(18) => Err(18),
                _ => right(deck, list, asked),
            }
        },
    },
    Slip {
        name: "format 1 is refused with 1",
        mean: |deck, list, asked| match right(deck, list, asked) {
            Err(17 | 18) if deck[0] == 1 => Err(1),
            found => found,
        },
    },
    Slip {
        name: "17 before 5",
        mean: |deck, list, asked| match right(deck, list, asked) {
            Err(5) if asked.count == 0 || asked.column >= asked.terms => Err(17),
            found => found,
        },
    },
    Slip {
        name: "no answers have the mean 0",
        mean: |deck, list, asked| match mean(deck, list, asked) {
            Err(Refused::None) if asked.column < asked.terms => Ok(Mean::default()),
            found => found.map_err(Refused::number),
        },
    },
    Slip {
        name: "65,536 answers are let through",
        mean: |deck, list, asked| match mean(deck, list, asked) {
            Err(Refused::Many) if asked.count == 65_536 => right(deck, list, Column { count: 65_535, ..asked }),
            found => found.map_err(Refused::number),
        },
    },
    Slip {
        name: "65,535 answers are too many",
        mean: |deck, list, asked| match asked.count {
            65_535 => right(deck, list, asked).and(Err(17)),
            _ => right(deck, list, asked),
        },
    },
    Slip {
        name: "the count is cut to 32 bits",
        mean: |deck, list, asked| right(deck, list, Column { count: asked.count & 0xffff_ffff, ..asked }),
    },
    Slip {
        name: "the column is cut to 32 bits",
        mean: |deck, list, asked| right(deck, list, Column { column: asked.column & 0xffff_ffff, ..asked }),
    },
    Slip {
        name: "the column after the last is the last",
        mean: |deck, list, asked| match asked.column == asked.terms && asked.terms > 0 {
            true => right(deck, list, Column { column: asked.terms - 1, ..asked }),
            false => right(deck, list, asked),
        },
    },
    Slip {
        name: "an answer with literals is taken",
        mean: |deck, list, asked| match fault(deck, list, asked) {
            Some(Fault::Literals) => Ok(Mean::default()),
            _ => right(deck, list, asked),
        },
    },
    Slip {
        name: "an answer's mark is not looked at",
        mean: |deck, list, asked| match fault(deck, list, asked) {
            Some(Fault::PendingMark) => right(deck, &unmarked(list), asked),
            _ => right(deck, list, asked),
        },
    },
    Slip {
        name: "variables are not checked for their numbers",
        mean: |deck, list, asked| match fault(deck, list, asked) {
            Some(Fault::Numbering) => Ok(Mean::default()),
            _ => right(deck, list, asked),
        },
    },
    Slip {
        name: "variables are refused",
        mean: |deck, list, asked| {
            let found = right(deck, list, asked)?;
            let ground = list.iter().all(|cell| *cell < 32_768);
            Some(found).filter(|_| ground).ok_or(17)
        },
    },
    Slip {
        name: "a list that is longer than its answers is refused",
        mean: |deck, list, asked| {
            let found = right(deck, list, asked)?;
            let longer = right(deck, &list[..list.len() - 1], asked).is_ok();
            Some(found).filter(|_| !longer).ok_or(17)
        },
    },
];
