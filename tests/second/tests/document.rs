//! The runs that document 01 states, as the requests of document 02 have changed them.

use second::rights::no_bars;
use second::vectors::{result, Expected};
use second::world::World;
use second::{program, Case};

const L: [u16; 29] = [
    1, 5, 8, 4, 13, 12, 17, 29, 0, 0, 257, 257, 257, 0, 2, 4, 6, 2, 0, 2, 1, 3, 0, 4, 32768, 2,
    32768, 16387, 32768,
];
const X: u16 = 32_768;
const Y: u16 = 32_769;

fn case(deck: &[u16], query: &[u16], budget: u32) -> Case {
    Case {
        name: String::new(),
        deck: deck.to_vec(),
        query: query.to_vec(),
        bars: no_bars(deck),
        budget,
        answer_words: 8_192,
        store_words: 16_384,
        scratch_words: 8_192,
    }
}

/// Stop, steps, answers, pending, parked, cost; and the marks of the parked goals.
fn line(deck: &[u16], query: &[u16], budget: u32) -> (String, Vec<u16>) {
    let case = case(deck, query, budget);
    let Expected::Ran(ran) = result(&case) else {
        panic!("refused");
    };
    let [answers, pending, parked] = ran.counts;
    let text = format!(
        "{} {} {answers} {pending} {parked} {}",
        ran.stop, ran.steps, ran.cost
    );
    let outcome = case.run().expect("accepted");
    let marks = outcome.parked.iter().map(|goal| goal[0] / 4_096);
    (text, marks.collect())
}

fn expect(deck: &[u16], query: &[u16], budget: u32, text: &str, marks: &[u16]) {
    let expected = (text.to_string(), marks.to_vec());
    assert_eq!(line(deck, query, budget), expected, "{query:?} {budget}");
}

fn refused(deck: &[u16], query: &[u16], number: u32) {
    let refused = result(&case(deck, query, 100_000));
    assert_eq!(refused, Expected::Refused(number), "{query:?}");
}

fn deck(symbols: &[u16], clauses: &[&[u16]]) -> Vec<u16> {
    let world = World {
        symbols: symbols.to_vec(),
        clauses: clauses.iter().map(|clause| clause.to_vec()).collect(),
        ..World::default()
    };
    world.deck()
}

#[test]
fn leads_by_budget() {
    for budget in [13, 14, 100_000, u32::MAX] {
        expect(&L, &[4, X], budget, "finished 8 1 0 0 13", &[]);
    }
    expect(&L, &[4, X], 12, "budget 7 0 1 0 12", &[]);
    expect(&L, &[4, X], 8, "budget 4 0 2 0 8", &[]);
    expect(&L, &[4, X], 7, "budget 3 0 2 0 6", &[]);
    expect(&L, &[4, X], 4, "budget 1 0 1 0 2", &[]);
    expect(&L, &[4, X], 0, "budget 0 0 1 0 0", &[]);
}

#[test]
fn other_queries_of_deck_l() {
    refused(&L, &[16_387, X], 14);
    expect(&L, &[2, X, 16_387, X], 100_000, "finished 7 1 0 0 11", &[]);
    expect(&L, &[], 100_000, "finished 1 1 0 0 1", &[]);
    expect(&L, &[3, 1], 100_000, "finished 1 0 0 0 2", &[]);
    expect(&L, &[3, 0], 100_000, "finished 2 1 0 0 3", &[]);
}

#[test]
fn p_if_not_p() {
    let deck = deck(&[256], &[&[0, 16_384]]);
    expect(&deck, &[0], 100_000, "finished 66 0 0 1 66", &[2]);
}

#[test]
fn containment() {
    let loose = deck(&[258, 1], &[&[0, X, 1, X]]);
    refused(&loose, &[0, X, X], 13);
    // q(x, f(x)) if e(x); e(a).
    let tight = deck(&[258, 1, 257, 0], &[&[0, X, 1, X, 2, X], &[2, 3]]);
    expect(&tight, &[0, X, X], 100_000, "finished 1 0 0 0 3", &[]);
    expect(&tight, &[0, X, Y], 100_000, "finished 3 1 0 0 6", &[]);
}

#[test]
fn growing_argument() {
    let deck = deck(&[257, 1, 0], &[&[0, X, 0, 1, X]]);
    expect(&deck, &[0, 2], 100_000, "finished 1021 0 0 1 2042", &[3]);
}

#[test]
fn clarks_example() {
    let clauses: [&[u16]; 3] = [&[0, X, 1, Y, 2, Y], &[1, 3, X, 1, X], &[2, 4, X]];
    let deck = deck(&[257, 257, 257, 1, 1, 0], &clauses);
    refused(&deck, &[0, 5], 13);
    refused(&deck, &[], 13);
}

fn bytes(words: &[u16]) -> Vec<u8> {
    words.iter().flat_map(|word| word.to_le_bytes()).collect()
}

fn listed(deck: &[u16], query: &[u16]) -> String {
    let printed = program(Some(&bytes(deck)), &bytes(query));
    String::from_utf8(printed).expect("plain text")
}

#[test]
fn worked_listing() {
    assert_eq!(listed(&L, &[4, X]), "all\nfinished 8 1 0 0 13\ns1\n");
}

#[test]
fn other_listings() {
    assert_eq!(listed(&L, &[]), "all\nfinished 1 1 0 0 1\ntrue\n");
    assert_eq!(listed(&L, &[3, 1]), "no\nfinished 1 0 0 0 2\n");
    assert_eq!(listed(&L, &[16_387, X]), "refused 14\n");
    let loose = deck(&[2, 0, 259], &[&[2, X, 0, 1, 0, Y, X, Y]]);
    assert_eq!(listed(&loose, &[2, X, Y, 32_770]), "refused 13\n");
    let deck = deck(&[2, 0, 259], &[&[2, 1, 0, 1, 0, 1, 1, 1]]);
    let text = "all\nfinished 2 1 0 0 5\ns1 s0(s1,s0(s1,s1)) s1\n";
    assert_eq!(listed(&deck, &[2, X, Y, 32_770]), text);
}

#[test]
fn program_refusals() {
    let query = bytes(&[4, X]);
    let odd = [&bytes(&L)[..], &[0]].concat();
    let long = vec![0; 32_769];
    let refused = |number: u32| format!("refused {number}\n").into_bytes();
    assert_eq!(program(None, &query), refused(1));
    assert_eq!(program(Some(&odd), &query), refused(1));
    assert_eq!(program(Some(&long), &query), refused(1));
    assert_eq!(program(Some(&[]), &query), refused(1));
    let deck = bytes(&L);
    assert_eq!(program(Some(&deck), &vec![0; 1_001]), refused(6));
    assert_eq!(program(Some(&deck), &vec![0; 1_002]), refused(6));
    assert_eq!(program(Some(&deck), &vec![0; 999]), refused(7));
    assert_eq!(program(Some(&deck), &vec![0; 1_000]), refused(7));
    assert_eq!(program(None, &vec![0; 1_001]), refused(1));
}
