//! Random decks for levels, fixed by their seeds: about half of them have a circle.

use super::dice::Dice;
use super::formats;
use super::texts::{damaged, small_world};
use crate::deck::NUMBER;
use crate::levels::{LevelCase, NUMBERS};
use crate::terms::NEGATED;
use crate::world::World;

/// The deck of a seed, and a list to write its levels into; the same for ever.
pub fn level_case(seed: u64) -> LevelCase {
    let mut dice = Dice::new(seed);
    let (kind, mut world) = match dice.weighted(&[6, 30, 20, 16, 20, 10, 4]) {
        0 => ("world", small_world(&mut dice)),
        1 => ("rules", rules(&mut dice)),
        2 => ("layers", layers(&mut dice)),
        3 => ("chain", chain(&mut dice)),
        4 => ("rings", rings(&mut dice)),
        5 => ("damaged", small_world(&mut dice)),
        _ => ("positive", positive(&mut dice)),
    };
    formats::some(seed, &mut world);
    if dice.chance(1, 25) {
        formats::spoil(&mut dice, &mut world);
    }
    let deck = match kind {
        "damaged" => damaged(&mut dice, world),
        _ => world.deck(),
    };
    let room = match dice.below(4) {
        0 => *dice.pick(&[0, 1, 2, 7, 30, 4_095, 4_097, 5_000]),
        _ => NUMBERS,
    };
    let name = format!("{kind}-{seed}");
    LevelCase { name, deck, room }
}

/// A deck under construction: predicates without arguments, in any places among the symbols.
struct Draft {
    world: World,
    predicates: Vec<u16>,
}

impl Draft {
    fn new(dice: &mut Dice, count: usize) -> Draft {
        let mut symbols = Vec::new();
        let mut predicates = Vec::new();
        while predicates.len() < count {
            let functor = dice.chance(1, 8);
            if !functor {
                predicates.push(symbols.len() as u16);
            }
            symbols.push(if functor { 0 } else { 256 });
        }
        shuffle(dice, &mut predicates);
        let world = World { symbols, ..World::default() };
        Draft { world, predicates }
    }

    /// A clause: the predicate, and literals as predicates and whether they are negated.
    fn rule(&mut self, head: usize, body: &[(usize, bool)]) {
        let literal = |(at, negated): &(usize, bool)| self.predicates[*at] + NEGATED * *negated as u16;
        let mut cells = vec![self.predicates[head]];
        cells.extend(body.iter().map(literal));
        self.world.clauses.push(cells);
    }

    fn mixed(mut self, dice: &mut Dice) -> World {
        shuffle(dice, &mut self.world.clauses);
        self.world
    }
}

fn shuffle<T>(dice: &mut Dice, list: &mut [T]) {
    for at in (1..list.len()).rev() {
        list.swap(at, dice.below(at + 1));
    }
}

/// Any rules, with few or many "nots".
fn rules(dice: &mut Dice) -> World {
    let count = *dice.pick(&[1, 2, 3, 4, 5, 6, 8, 12, 30, 120]);
    let mut draft = Draft::new(dice, count);
    let tenths = *dice.pick(&[1, 2, 3, 5, 9]);
    let most = *dice.pick(&[1, 2, 3]);
    for _ in 0..dice.range(count / 2, count * most) {
        let head = dice.below(count);
        let body: Vec<_> = (0..dice.range(0, 3)).map(|_| (dice.below(count), dice.chance(tenths, 10))).collect();
        draft.rule(head, &body);
    }
    draft.mixed(dice)
}

/// Rules that keep to layers, so that there are levels; then, at times, some that may lead back.
fn layers(dice: &mut Dice) -> World {
    let count = dice.range(2, 60);
    let mut draft = Draft::new(dice, count);
    let deep = dice.range(1, 12);
    let layer: Vec<usize> = (0..count).map(|_| dice.below(deep)).collect();
    for _ in 0..dice.range(1, 3 * count) {
        let (head, at) = (dice.below(count), dice.below(count));
        if layer[at] <= layer[head] {
            let negated = layer[at] < layer[head] && dice.chance(1, 2);
            draft.rule(head, &[(at, negated)]);
        }
    }
    for _ in 0..*dice.pick(&[0, 1, 3, 5]) {
        let back = (dice.below(count), dice.chance(2, 3));
        draft.rule(dice.below(count), &[back]);
    }
    draft.mixed(dice)
}

/// One long chain, with every "not" or some; closed at times, at its end or in its middle.
fn chain(dice: &mut Dice) -> World {
    let count = *dice.pick(&[2, 3, 10, 100, 400]);
    let mut draft = Draft::new(dice, count);
    let tenths = *dice.pick(&[0, 1, 5, 10]);
    for at in 1..count {
        let negated = dice.chance(tenths, 10);
        draft.rule(at - 1, &[(at, negated)]);
    }
    if dice.chance(3, 4) {
        let back = (dice.below(count), dice.chance(1, 3));
        draft.rule(count - 1, &[back]);
    }
    draft.mixed(dice)
}

/// Several rings, some of positive literals only, with steps between them in one direction; what leads to a circle is on none.
fn rings(dice: &mut Dice) -> World {
    let sizes: Vec<usize> = (0..dice.range(1, 6)).map(|_| dice.range(1, 6)).collect();
    let count = sizes.iter().sum();
    let mut draft = Draft::new(dice, count);
    let nots = dice.range(1, 3);
    let mut start = 0;
    for size in sizes {
        for at in 0..size {
            let negated = dice.chance(nots, 10);
            draft.rule(start + at, &[(start + (at + 1) % size, negated)]);
        }
        if start > 0 && dice.chance(2, 3) {
            let negated = dice.chance(1, 2);
            let body = [(dice.below(start), negated), (start, false)];
            draft.rule(start + dice.below(size), &body);
        }
        start += size;
    }
    draft.mixed(dice)
}

/// Circles of positive literals only.
fn positive(dice: &mut Dice) -> World {
    let count = dice.range(1, 20);
    let mut draft = Draft::new(dice, count);
    for _ in 0..dice.range(1, 3 * count) {
        let body = [(dice.below(count), false)];
        draft.rule(dice.below(count), &body);
    }
    draft.mixed(dice)
}

/// The largest decks that take long: a shape by its number, `SHAPES` of them.
pub const SHAPES: usize = 11;

pub fn largest(shape: usize) -> (String, Vec<u16>) {
    if shape >= 8 {
        return [twice, numbers_beside, in_format_2][shape - 8]();
    }
    let not = |predicate: usize| NEGATED + predicate as u16;
    let all = 4_092;
    let step = |from: usize, to: usize| vec![from as u16, to as u16];
    let negated = |from: usize, to: usize| vec![from as u16, not(to)];
    let (name, clauses): (&str, Vec<Vec<u16>>) = match shape {
        0 => ("a chain of nots, first to last", (1..all).map(|at| negated(at - 1, at)).collect()),
        1 => ("a chain of nots, last to first", (1..all).rev().map(|at| negated(at - 1, at)).collect()),
        2 => ("a chain to a circle at its end", (1..all).map(|at| step(at - 1, at)).chain([negated(all - 1, all - 1)]).collect()),
        3 => ("a chain of nots to a circle at its end", (1..all).map(|at| negated(at - 1, at)).chain([negated(all - 1, all - 1)]).collect()),
        4 => ("a ring of positive literals, and a circle behind it", {
            (0..4_000).map(|at| step(at, (at + 1) % 4_000)).chain([step(0, 4_090), negated(4_090, 4_090)]).collect()
        }),
        5 => ("rules of 255 literals, and a circle at the end", {
            let body = |head: usize| std::iter::once(head as u16).chain((0..254).map(|at| (head + at + 1) as u16 % 4_091)).collect();
            (0..45).map(body).chain([negated(4_091, 4_091)]).collect()
        }),
        6 => ("a ring with one not", (0..all).map(|at| if at == 0 { negated(0, 1) } else { step(at, (at + 1) % all) }).collect()),
        _ => ("two rings that lead on, and a circle behind them", {
            let ring = |from: usize| (0..2_000).map(move |at| step(from + at, from + (at + 1) % 2_000));
            ring(0).chain(ring(2_000)).chain([step(0, 2_000), step(2_000, 4_090), negated(4_090, 4_090)]).collect()
        }),
    };
    let world = World { symbols: vec![256; all], clauses, ..World::default() };
    (name.to_string(), world.deck())
}

/// A ring of positive literals that leads to long rules, with and without a "not", so that a search follows them twice from each of its predicates; and a circle at the end.
fn twice() -> (String, Vec<u16>) {
    let ring: u16 = 2_700;
    let (long, last, circle) = (ring, ring + 1, ring + 2);
    let mut clauses = vec![vec![0, long, NEGATED + long, 1]];
    clauses.extend((1..ring).map(|at| vec![at, (at + 1) % ring]));
    clauses.extend((0..21).map(|_| std::iter::once(long).chain([last; 255]).collect()));
    clauses.push(vec![circle, NEGATED + circle]);
    let world = World { symbols: vec![256; ring as usize + 3], clauses, ..World::default() };
    ("a ring before long rules".to_string(), world.deck())
}

/// In format 2, where a symbol takes two words: a chain of nots, with the circle at its end.
fn in_format_2() -> (String, Vec<u16>) {
    let all: u16 = 3_275;
    let chain = (1..all).map(|at| vec![at - 1, NEGATED + at]);
    let world = World {
        symbols: vec![256; all as usize],
        values: Some(Vec::new()),
        clauses: chain.chain([vec![all - 1, NEGATED + all - 1]]).collect(),
        ..World::default()
    };
    ("a chain of nots in format 2".to_string(), world.deck())
}

/// In format 2, 4,096 symbols: numbers, and a chain of nots between every second of them.
fn numbers_beside() -> (String, Vec<u16>) {
    let all: u16 = 4_096;
    let steps = (3..all).step_by(2).map(|at| vec![at - 2, NEGATED + at]);
    let world = World {
        symbols: [NUMBER, 256].repeat(all as usize / 2),
        values: Some((0..all).map(|at| if at % 2 == 0 { at } else { 0 }).collect()),
        clauses: steps.collect(),
        ..World::default()
    };
    ("numbers and a chain of nots".to_string(), world.deck())
}
