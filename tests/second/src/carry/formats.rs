//! What cases over decks of format 2 (request U10) come to.

use super::CarryCase;
use crate::deck::{self, NUMBER};
use crate::evaluation::Outcome;
use crate::world::World;

/// What some case must come to.
pub const WANTED: [&str; 24] = [
    "format 2: finished",
    "format 2: budget",
    "format 2: answers",
    "format 2: store",
    "format 2: 1",
    "format 2: 2",
    "format 2: 3",
    "format 2: 4",
    "format 2: 5",
    "format 2: 8",
    "format 2: 9",
    "format 2: 12",
    "format 2: 13",
    "format 2: 15",
    "format 2: 16",
    "2, the first word",
    "2, the second word",
    "2, equal values",
    "2, equal values apart",
    "15, a number",
    "15, two words a symbol",
    "a number in an answer",
    "a number in a goal left",
    "rows by numbers",
];

pub fn refused(case: &CarryCase, number: u32) -> Vec<&'static str> {
    if case.deck.first() != Some(&2) {
        return Vec::new();
    }
    let name = format!("format 2: {number}");
    let mut labels: Vec<&str> = WANTED.into_iter().filter(|label| *label == name).collect();
    let world = World::take_apart(&case.deck, &[]);
    match (number, world) {
        (2, Some(world)) => labels.extend(symbols(&world)),
        (15, Some(world)) => labels.extend(list(&world, &case.bars)),
        _ => {}
    }
    labels
}

/// What is wrong with the symbols' words, by the first of these that is.
fn symbols(world: &World) -> Option<&'static str> {
    let values = world.values.as_ref()?;
    let pairs = || world.symbols.iter().zip(values);
    let right = |word: u16| word == NUMBER || (word & !256) < 16;
    let equal = |from: usize, to: usize| (from..to).any(|at| world.symbols[at] == NUMBER && values[at] == values[to]);
    let mut places = (0..values.len()).filter(|at| world.symbols[*at] == NUMBER);
    Some(match () {
        _ if pairs().any(|(word, _)| !right(*word)) => "2, the first word",
        _ if pairs().any(|(word, value)| *word != NUMBER && *value > 0) => "2, the second word",
        _ if places.any(|at| equal(at.saturating_sub(1), at)) => "2, equal values",
        _ => "2, equal values apart",
    })
}

fn list(world: &World, bars: &[u16]) -> Option<&'static str> {
    let symbols = &world.symbols;
    let number = bars.iter().zip(symbols).any(|(bar, word)| *bar == 1 && *word == NUMBER);
    match bars.len() {
        length if length == symbols.len() && number => Some("15, a number"),
        length if length == 2 * symbols.len() => Some("15, two words a symbol"),
        _ => None,
    }
}

pub fn ran(case: &CarryCase, outcome: &Outcome) -> Vec<&'static str> {
    let Ok(deck) = deck::open(&case.deck) else {
        return Vec::new();
    };
    if deck.format != 2 {
        return Vec::new();
    }
    let number = |cell: &u16| deck.symbols.get(*cell as usize).is_some_and(|symbol| symbol.value.is_some());
    let in_goals = |goals: &[Vec<u16>]| goals.iter().any(|goal| goal[2..].iter().any(number));
    let more = [
        (in_goals(&outcome.answers), "a number in an answer"),
        (in_goals(&outcome.pending), "a number in a goal left"),
        (outcome.watch.rows.get() > 0 && deck.symbols.iter().any(|symbol| symbol.value.is_some()), "rows by numbers"),
    ];
    let so = more.iter().filter(|(so, _)| *so).map(|(_, label)| *label);
    std::iter::once(WANTED[outcome.stop as usize]).chain(so).collect()
}
