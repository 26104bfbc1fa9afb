//! Damage to stores: at one place, and at every place.

use super::super::damage as deck_damage;
use super::super::dice::Dice;
use crate::carry::CarryCase;
use crate::case::Case;
use crate::terms::{NEGATED, VARIABLE};
use crate::world::World;

/// Counts near these, and far away.
fn counts(count: u64) -> Vec<u64> {
    let mut list = vec![
        0, 1, 2, 3, 14, 15, 16, 511, 512, 1_022, 1_023, 1_024, 65_535, 65_536,
    ];
    let near = |by| count.saturating_add(by);
    list.extend([near(1), count.saturating_sub(1), near(2)]);
    for bits in [8, 16, 31, 32, 33, 48, 62, 63] {
        let far = 1u64 << bits;
        list.extend([far - 1, far, far + 1, far.saturating_add(count)]);
    }
    list.extend([
        u64::MAX,
        u64::MAX - 1,
        u64::MAX - count,
        (!count).wrapping_add(1),
    ]);
    list
}

/// Each word of the member's list otherwise, alone and beside another; and lists of other lengths.
pub fn lists(case: &CarryCase) -> Vec<CarryCase> {
    let with = |bars: Vec<u16>| CarryCase {
        name: format!("{}, a list {bars:?}", case.name),
        bars,
        ..case.clone()
    };
    let all = case.bars.len();
    let mut cases = Vec::new();
    for at in 0..all {
        for word in [1, 2, 256, 257, 65_535] {
            let mut bars = case.bars.clone();
            bars[at] = word;
            cases.push(with(bars));
        }
        for other in 0..all {
            let mut bars = case.bars.clone();
            (bars[at], bars[other]) = (1, 1);
            cases.push(with(bars));
        }
    }
    let lengths = [0, 1, all - 1, all + 1, 2 * all];
    cases.extend(lengths.map(|length| with(vec![0; length])));
    cases.extend(lengths.map(|length| with(vec![1; length])));
    cases
}

/// Each of the three numbers otherwise, and both counts together.
pub fn numbers(case: &CarryCase) -> Vec<CarryCase> {
    let given = case.given;
    let mut cases = Vec::new();
    let mut push = |pending, parked, terms| {
        let mut next = case.clone();
        next.given.pending = pending;
        next.given.parked = parked;
        next.given.terms = terms;
        next.name = format!("{}, given {pending} {parked} {terms}", case.name);
        cases.push(next);
    };
    for pending in counts(given.pending) {
        push(pending, given.parked, given.terms);
        push(pending, given.pending.wrapping_sub(pending), given.terms);
        push(pending, given.parked.wrapping_sub(pending), given.terms);
    }
    for parked in counts(given.parked) {
        push(given.pending, parked, given.terms);
    }
    for terms in counts(given.terms) {
        push(given.pending, given.parked, terms);
        push(0, 0, terms);
    }
    push(given.parked, given.pending, given.terms);
    let all = given.pending.saturating_add(given.parked);
    for pending in 0..=all.min(12) {
        push(pending, all - pending, given.terms);
    }
    push(given.pending, 0, given.terms);
    push(0, given.parked, given.terms);
    push(u64::MAX, 1, given.terms);
    push(1, u64::MAX, given.terms);
    push(u64::MAX, u64::MAX, u64::MAX);
    push(1 << 63, 1 << 63, given.terms);
    cases
}

/// Every word of the goals, and the one after them, in every way.
pub fn everywhere(case: &CarryCase, symbols: u16) -> Vec<CarryCase> {
    let mut cases = Vec::new();
    let words = case.words();
    for at in 0..=words.min(case.store.len() - 1) {
        let mut push = |what: String, change: &dyn Fn(&mut Vec<u16>)| {
            let mut next = case.clone();
            change(&mut next.store);
            next.store.resize(case.store.len(), 0);
            next.name = format!("{}, word {at} {what}", case.name);
            cases.push(next);
        };
        for word in values(case.store[at], symbols) {
            push(format!("is {word}"), &|store| store[at] = word);
        }
        push("left out".to_string(), &|store| {
            store.remove(at);
        });
        push("twice".to_string(), &|store| store.insert(at, store[at]));
        if at > 0 {
            push("exchanged".to_string(), &|store| store.swap(at - 1, at));
        }
    }
    cases
}

/// Every bit changed, one more and less, every mark, every cell of the deck and near it.
fn values(word: u16, symbols: u16) -> Vec<u16> {
    let mut list: Vec<u16> = (0..16).map(|bit| word ^ (1 << bit)).collect();
    list.extend([word.wrapping_add(1), word.wrapping_sub(1), 0, 65_535]);
    list.extend((0..16).map(|mark| 4_096 * mark + word % 4_096));
    list.extend((0..16).map(|mark| 4_096 * mark + word.wrapping_add(1) % 4_096));
    for symbol in 0..=symbols {
        list.extend([symbol, NEGATED + symbol]);
    }
    list.extend([0, 1, 2, 3, 4, 14, 15, 16, 1_022, 1_023, 1_024].map(|number| VARIABLE + number));
    list.extend([1_023, 1_024, 1_025, 1_026, 2_048, 4_095]);
    list.sort();
    list.dedup();
    list
}

/// One thing, anywhere.
pub fn damage(dice: &mut Dice, world: &World, case: &mut CarryCase) {
    match dice.weighted(&[10, 5, 3, 2, 2]) {
        0 => damage_word(dice, case),
        1 => {
            let cases = numbers(case);
            case.given = dice.pick(&cases).given;
        }
        2 => {
            let words = case.words().max(1);
            case.store.truncate(dice.range(0, words));
            let length = *dice.pick(&[1_024, 1_024, 1_100, 16_384]);
            case.store.resize(length, dice.word());
        }
        3 => match dice.below(6) {
            0 => case.scratch_words = *dice.pick(&[0, 1, 8_191]),
            1 => case.store.truncate(dice.below(1_024)),
            2 => case.store.resize(1_023, 0),
            3 => case.store.resize(65_536 + dice.below(2) * 70, 0),
            _ => case.scratch_words = 8_191,
        },
        _ => damage_deck(dice, world, case),
    }
}

fn damage_word(dice: &mut Dice, case: &mut CarryCase) {
    let lengths = case.lengths();
    let (words, length) = (case.words(), case.store.len());
    if words == 0 || words >= length {
        return;
    }
    let starts: Vec<usize> = (0..lengths.len())
        .map(|at| lengths[..at].iter().sum())
        .collect();
    let at = match dice.below(4) {
        0 => *dice.pick(&starts),
        1 => *dice.pick(&starts) + 1,
        _ => dice.range(0, words - 1),
    };
    match dice.below(8) {
        0 => {
            case.store.remove(at);
        }
        1 => case.store.insert(at, dice.word() % 8),
        2 => case.store.swap(at, (at + 1) % length),
        3 => case.store[at] = dice.word(),
        _ => case.store[at] = *dice.pick(&values(case.store[at], 10)),
    }
    case.store.resize(length, 0);
}

fn damage_deck(dice: &mut Dice, world: &World, case: &mut CarryCase) {
    let mut other = Case {
        name: String::new(),
        deck: case.deck.clone(),
        query: Vec::new(),
        bars: Vec::new(),
        budget: 0,
        answer_words: 0,
        store_words: 0,
        scratch_words: 0,
    };
    deck_damage::damage(dice, world.clone(), &mut other);
    case.deck = other.deck;
}
