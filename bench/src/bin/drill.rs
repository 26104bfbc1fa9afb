//! `drill`: drill terms a second, through the static library, on a deck of 10 functors and on some of 4,000.

use second::drill::case::bare;
use std::time::{Duration, Instant};

/// Goes through the list, so many words a call, and from its start again at its end, for half a second.
fn show(name: &str, symbols: &[u16], words: usize) {
    let deck = bare(symbols);
    let mut list = vec![0; words];
    let (mut after, mut terms, mut calls) = (Vec::new(), 0, 0);
    let start = Instant::now();
    while start.elapsed() < Duration::from_millis(500) {
        let mut count = 0;
        assert_eq!(compare::drill(&deck, 8, &after, &mut list, &mut count), 0, "the deck is accepted");
        calls += 1;
        terms += count;
        after = last(symbols, &list, count);
    }
    let seconds = start.elapsed().as_secs_f64();
    println!("{name:24} lists of {words:6} words {terms:9} terms {calls:7} calls {:9.3} M terms/s", terms as f64 / seconds / 1e6);
}

/// The last of so many terms; empty where there is none.
fn last(symbols: &[u16], list: &[u16], count: u64) -> Vec<u16> {
    let (mut from, mut at) = (0, 0);
    for _ in 0..count {
        from = at;
        let mut open = 1;
        while open > 0 {
            open = open - 1 + symbols[list[at] as usize];
            at += 1;
        }
    }
    list[from..at].to_vec()
}

fn main() {
    let ten = [0, 0, 0, 1, 1, 1, 2, 2, 3, 4];
    let constants = vec![0; 4_000];
    let mixed: Vec<u16> = (0..4_000).map(|number| [0, 1, 2, 3][number % 4]).collect();
    // The last constant is the only one that a term can end with.
    let far: Vec<u16> = (0..4_000).map(|number| if number == 3_999 { 0 } else { 9 + number % 7 }).collect();
    // A constant and a unary functor, and between them functors that no term begins with: each term is found past all of them.
    let between = [vec![0], vec![9; 3_998], vec![1]].concat();
    for words in [8, 8_192] {
        show("10 functors", &ten, words);
        show("4,000 constants", &constants, words);
        show("4,000 of arity 0 to 3", &mixed, words);
        show("4,000, one to be used", &far, words);
        show("4,000, the ends used", &between, words);
    }
}
