//! `bench`: steps, cost and clauses tried per second. Buffers are cleared once, before the first run of a deck.
//! `bench deck NAME FILE`: writes the words of the deck `leads`, `chain` or `largest` to a file; `bench text NAME FILE`: its text.
//! `bench read FILE`: the time of reading a text, in nanoseconds.

use second::judge::{Lent, Report};
use second::levels::NUMBERS;
use second::preview::judge::Asked;
use second::random::levels::{largest as worst, SHAPES};
use std::time::{Duration, Instant};

const VARIABLE: u16 = 32768;
const NOT: u16 = 16384;

/// A deck's words from its symbol words and the cells of its clauses.
fn deck(symbols: Vec<u16>, clauses: &[Vec<u16>]) -> Vec<u16> {
    let cells: usize = clauses.iter().map(Vec::len).sum();
    let (s, c, t) = (symbols.len() as u16, clauses.len() as u16, cells as u16);
    let mut words = vec![1, s, 8, c, 8 + s, t, 8 + s + c, 8 + s + c + t];
    words.extend(symbols);
    let mut start = 0;
    for clause in clauses {
        words.push(start);
        start += clause.len() as u16;
    }
    words.extend(clauses.iter().flatten());
    words
}

/// Ends c0 .. , three quarters of them drawn; x is a lead if x is an end and not drawn.
fn leads(ends: u16) -> (Vec<u16>, Vec<u16>) {
    let (end, drawn, lead) = (ends, ends + 1, ends + 2);
    let mut symbols = vec![0; ends as usize];
    symbols.extend([257; 3]);
    let mut clauses: Vec<Vec<u16>> = (0..ends).map(|c| vec![end, c]).collect();
    clauses.extend((0..ends / 4 * 3).map(|c| vec![drawn, c]));
    clauses.push(vec![lead, VARIABLE, end, VARIABLE, NOT + drawn, VARIABLE]);
    (deck(symbols, &clauses), vec![lead, VARIABLE])
}

/// Links c0 to c1 to .. ; what is reached from c0; x is cut off if it is not reached.
fn chain(stations: u16) -> (Vec<u16>, Vec<u16>) {
    let (link, reach, e, cut) = (stations, stations + 1, stations + 2, stations + 3);
    let (x, y, z) = (VARIABLE, VARIABLE + 1, VARIABLE + 2);
    let mut symbols = vec![0; stations as usize];
    symbols.extend([258, 258, 257, 257]);
    let mut clauses: Vec<Vec<u16>> = (0..stations - 1).map(|c| vec![link, c, c + 1]).collect();
    clauses.push(vec![reach, x, y, link, x, y]);
    clauses.push(vec![reach, x, y, link, x, z, reach, z, y]);
    clauses.extend((0..stations).map(|c| vec![e, c]));
    clauses.push(vec![cut, x, e, x, NOT + reach, 0, x]);
    (deck(symbols, &clauses), vec![cut, VARIABLE])
}

/// p(x1, .., xn) against p(f(y1, y1), .., f(yn, yn)) if e(y1), .., e(yn); e(a). Each term has its variable twice.
fn doubling(n: u16) -> (Vec<u16>, Vec<u16>) {
    let (f, p, e, a) = (0, 1, 2, 3);
    let mut clause = vec![p];
    let mut query = vec![p];
    for i in 0..n {
        query.push(VARIABLE + i);
        clause.extend([f, VARIABLE + i, VARIABLE + i]);
    }
    clause.extend((0..n).flat_map(|i| [e, VARIABLE + i]));
    (deck(vec![2, 256 + n, 257, 0], &[clause, vec![e, a]]), query)
}

/// e(list, list) against e(x, x) if t(x): x0 = f(x1, x1), x1 = f(x2, x2) and on, and x0 = x0, a term doubled n times.
fn vast(n: u16) -> (Vec<u16>, Vec<u16>) {
    let (a, f, g, e, t, x) = (0, 1, 2, 3, 4, VARIABLE);
    let left = (0..n).chain([0]).flat_map(|at| [g, x + at]).chain([a]);
    let right = (0..n).flat_map(|at| [g, f, x + at + 1, x + at + 1]).chain([g, x, a]);
    let query = [e].into_iter().chain(left).chain(right).collect();
    (deck(vec![0, 2, 2, 258, 257], &[vec![e, x, x, t, x]]), query)
}

/// Links between 2,000 stations, what is reached and what is not, in just 16,384 words.
fn largest() -> (Vec<u16>, Vec<u16>) {
    let stations = 2000;
    let (link, reach, end, open, cut) = (stations, stations + 1, stations + 2, stations + 3, stations + 4);
    let (x, y, z) = (VARIABLE, VARIABLE + 1, VARIABLE + 2);
    let mut symbols = vec![0; stations as usize];
    symbols.extend([258, 258, 257, 256, 257]);
    let mut clauses = vec![
        vec![reach, x, y, link, x, y],
        vec![reach, x, y, link, x, z, reach, z, y],
        vec![cut, x, end, x, NOT + reach, 0, x],
        vec![end, 0],
        vec![open],
    ];
    let words = |clauses: &[Vec<u16>]| deck(symbols.clone(), clauses).len();
    for at in (0..stations).cycle() {
        let left = 16_384 - words(&clauses);
        match left {
            0 => break,
            2 | 5 => clauses.push(vec![open]),
            3 => clauses.push(vec![end, at]),
            _ => clauses.push(vec![link, at, (7 * at + 1) % stations]),
        }
    }
    (deck(symbols.clone(), &clauses), vec![cut, VARIABLE])
}

fn by_name(name: &str) -> Vec<u16> {
    match name {
        "chain" => chain(100).0,
        "largest" => largest().0,
        _ => leads(2000).0,
    }
}

/// The time of one reading, the least of ten stretches.
fn reading(text: &[u8]) -> Duration {
    let mut lent = vec![0; 16_384];
    let (mut words, mut place) = (0, 0);
    let mut stretch = || {
        let start = Instant::now();
        let mut times = 0;
        while times < 3 || start.elapsed() < Duration::from_millis(50) {
            let refused = compare::read_text(text, &mut lent, &mut words, &mut place);
            assert_eq!(refused, 0, "the text is read");
            times += 1;
        }
        start.elapsed() / times
    };
    (0..10).map(|_| stretch()).min().expect("ten")
}

/// Enough for all decks but the last ones to finish.
const BUDGET: u32 = 100_000_000;
/// The program's own.
const PROGRAM: u32 = 100_000;

/// A list of zeros, a word for each symbol.
fn nothing_barred(deck: &[u16]) -> Vec<u16> {
    vec![0; deck[1] as usize]
}

struct Timed {
    report: Report,
    each: Duration,
}

fn timed(deck: &[u16], query: &[u16], budget: u32) -> Timed {
    let (mut answers, mut store, mut scratch) = (vec![0; 8192], vec![0; 16384], vec![0; 8192]);
    let bars = nothing_barred(deck);
    let mut report = Report::default();
    let mut runs = 0;
    let start = Instant::now();
    while runs < 3 || start.elapsed() < Duration::from_millis(500) {
        let lent = Lent { answers: &mut answers, store: &mut store, scratch: &mut scratch };
        let refused = compare::run(deck, query, &bars, budget, lent, &mut report);
        assert_eq!(refused, 0, "the deck is accepted");
        runs += 1;
    }
    Timed { report, each: start.elapsed() / runs }
}

/// The clauses that a run tries, counted by the second evaluator.
fn tried(deck: &[u16], query: &[u16], budget: u32) -> u64 {
    second::run(deck, query, &nothing_barred(deck), budget, 8192, 16384, 8192).expect("the deck is accepted").watch.tried.get()
}

fn show(name: &str, (deck, query): &(Vec<u16>, Vec<u16>), budget: u32) {
    let t = timed(deck, query, budget);
    let tried = tried(deck, query, budget);
    let seconds = t.each.as_secs_f64();
    let per = |n: f64| n / seconds / 1e6;
    println!(
        "{name:16} {:6} words {:6} steps {:8} cost {:5} answers {:9.1?} a run {:7.2} M steps/s {:8.2} M cost/s {:8.2} M clauses/s",
        deck.len(),
        t.report.steps,
        t.report.cost,
        t.report.answers,
        t.each,
        per(t.report.steps as f64),
        per(t.report.cost as f64),
        per(tried as f64),
    );
}

/// The time of a run, and of a preview with a clause that changes none of its answers, budget 1: what is left is what each does before its first step.
fn tries(name: &str, (deck, query): &(Vec<u16>, Vec<u16>), clause: &[u16]) {
    let (mut answers, mut store, mut scratch) = (vec![0; 8192], vec![0; 16384], vec![0; 8192]);
    let bars = nothing_barred(deck);
    let mut report = Report::default();
    let mut stretch = || {
        let mut calls = 0;
        let start = Instant::now();
        while start.elapsed() < Duration::from_millis(100) {
            let lent = Lent { answers: &mut answers, store: &mut store, scratch: &mut scratch };
            let asked = Asked { deck, clause, query, bars: &bars, budget: 1 };
            assert_eq!(compare::preview(asked, lent, &mut report), 0, "the clause is accepted");
            calls += 1;
        }
        start.elapsed() / calls
    };
    let preview = (0..5).map(|_| stretch()).min().expect("five");
    let run = (0..5).map(|_| timed(deck, query, 1).each).min().expect("five");
    println!("{name:16} {:6} words {preview:9.1?} a preview of one step, {run:9.1?} a run of one", deck.len());
}

/// The time of one call for levels, the least of five.
fn levels(name: &str, deck: &[u16]) {
    let (mut list, mut circular) = (vec![0; NUMBERS], 0);
    let mut once = || {
        let start = Instant::now();
        let refused = compare::levels(deck, &mut list, &mut circular);
        assert_eq!(refused, 0, "the deck opens");
        start.elapsed()
    };
    let least = (0..5).map(|_| once()).min().expect("five");
    let told = if circular > 0 { format!("named {}", circular - 1) } else { format!("highest {}", list.iter().max().expect("4,096")) };
    println!("{name:52} {:6} words {told:12} {least:9.1?} for levels", deck.len());
}

fn main() {
    let arguments: Vec<String> = std::env::args().skip(1).collect();
    let arguments: Vec<&str> = arguments.iter().map(String::as_str).collect();
    let put = |path: &str, bytes: Vec<u8>| std::fs::write(path, bytes).expect("the file is written");
    match arguments[..] {
        ["deck", name, path] => put(path, by_name(name).iter().flat_map(|w| w.to_le_bytes()).collect()),
        ["text", name, path] => put(path, second::text::write(&by_name(name), usize::MAX).expect("a deck")),
        ["read", path] => {
            let text = std::fs::read(path).expect("a text");
            println!("{}", reading(&text).as_nanos());
        }
        _ => runs(),
    }
}

fn runs() {
    for ends in [250, 500, 1000, 2000] {
        show(&format!("leads {ends}"), &leads(ends), BUDGET);
    }
    for stations in [25, 50, 100] {
        show(&format!("chain {stations}"), &chain(stations), BUDGET);
    }
    for n in [5, 10, 15] {
        show(&format!("doubling {n}"), &doubling(n), BUDGET);
    }
    for n in [15, 16, 60] {
        show(&format!("vast {n}"), &vast(n), PROGRAM);
    }
    for ends in [250, 2000] {
        tries(&format!("leads {ends}"), &leads(ends), &[ends + 1, 0]);
    }
    levels("leads 2000", &leads(2000).0);
    levels("chain 100", &chain(100).0);
    for (name, deck) in (0..SHAPES).map(worst) {
        levels(&name, &deck);
    }
}
