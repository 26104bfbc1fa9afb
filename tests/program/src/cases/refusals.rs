//! Refusals 1 to 7, 13 and 14, and the lengths at their borders.

use super::{case, given, Case};
use crate::inputs::{bytes, deck, largest_deck, Inputs, L, NOT, X, Y, Z};

/// By the number of bytes, and the greatest numbers that are accepted.
pub fn by_bytes() -> Vec<Case> {
    let (l, leads) = (bytes(&L), bytes(&[4, X]));
    let largest = bytes(&largest_deck());
    let fact = bytes(&deck(&[256], &[&[0]]));
    let more = |bytes: &[u8], zeros: usize| [bytes, &vec![0; zeros]].concat();
    let missing =
        |name: &str, query: &[u8]| Case { inputs: Inputs::new(name, None, query.to_vec()), start: "refused 1\n" };
    let turned: Vec<u8> = L.iter().flat_map(|word| word.to_be_bytes()).collect();
    let bad_symbol = bytes(&with(8, 16));
    vec![
        missing("no deck file", &leads),
        missing("no deck file, a query of 1,002 bytes", &[0; 1_002]),
        given("an empty deck file", &[], &leads, "refused 1\n"),
        given("a deck of 57 bytes", &l[..57], &leads, "refused 1\n"),
        given("a deck of 59 bytes", &more(&l, 1), &leads, "refused 1\n"),
        given("a deck, high byte first", &turned, &leads, "refused 1\n"),
        given("a deck of 32,768 bytes", &largest, &[], "all\nfinished 1 1 0 0 1\ntrue\n"),
        given("a deck of 32,769 bytes", &more(&largest, 1), &[], "refused 1\n"),
        given("a deck of 32,770 bytes", &more(&largest, 2), &[], "refused 1\n"),
        given("a bad deck, a query of 1,002 bytes", &bad_symbol, &[0; 1_002], "refused 2\n"),
        given("a bad deck, a query of 1 byte", &bad_symbol, &[0], "refused 2\n"),
        given("a query of 1 byte", &fact, &[0], "refused 7\n"),
        given("a query of 999 bytes", &fact, &[0; 999], "refused 7\n"),
        given("a query of 1,000 bytes", &fact, &[0; 1_000], "all\nfinished 501 1 0 0 501\ntrue\n"),
        given("a query of 1,001 bytes", &fact, &[0; 1_001], "refused 6\n"),
        given("a query of 1,002 bytes", &fact, &[0; 1_002], "refused 6\n"),
        given("a query, high byte first", &l, &[0, 4, 128, 0], "refused 7\n"),
    ]
}

/// By the words of the deck, then by those of the query.
pub fn by_words() -> Vec<Case> {
    let bad = |name: &str, at: usize, word: u16, start| case(name, &with(at, word), &[4, X], start);
    let asked = |name: &str, query: &[u16]| case(name, &L, query, "refused 7\n");
    let long_clause = deck(&[256], &[&[0; 257]]);
    let long_and_bad = deck(&[256], &[&[1], &[0; 257]]);
    vec![
        bad("format 2", 0, 2, "refused 1\n"),
        bad("a total of 30 words", 7, 30, "refused 1\n"),
        bad("a symbol of 16 terms", 8, 16, "refused 2\n"),
        bad("the first clause at 1", 13, 1, "refused 3\n"),
        bad("two clauses at one start", 15, 2, "refused 3\n"),
        case("cells and no clause", &[1, 1, 8, 0, 9, 1, 9, 10, 256, 0], &[], "refused 3\n"),
        case("a clause of 257 cells", &long_clause, &[0], "refused 4\n"),
        case("a clause of 257 cells after a bad one", &long_and_bad, &[0], "refused 4\n"),
        bad("a functor as head", 17, 0, "refused 5\n"),
        bad("a negated head", 17, NOT + 2, "refused 5\n"),
        bad("a clause with variable 1 first", 24, Y, "refused 5\n"),
        bad("a predicate as a term", 18, 2, "refused 5\n"),
        asked("a functor as a literal", &[0]),
        asked("a literal without its term", &[4]),
        asked("a term too many", &[4, 0, 0]),
        asked("a query with variable 1 first", &[4, Y]),
        asked("no such symbol", &[5]),
    ]
}

/// Symbols: a, f/1, p/1, q/2, r. The clause stands between r and p(a).
fn clause(cells: &[u16]) -> Vec<u16> {
    deck(&[0, 1, 257, 258, 256], &[&[4], cells, &[2, 0]])
}

/// Loose variables, in a clause and in the query.
pub fn loose() -> Vec<Case> {
    let in_clause = |name: &str, cells: &[u16]| case(name, &clause(cells), &[4], "refused 13\n");
    let held = |name: &str, cells: &[u16]| case(name, &clause(cells), &[4], "all\nfinished 2 1 0 0 2\ntrue\n");
    let asked = |name: &str, query: &[u16], start| case(name, &clause(&[4]), query, start);
    let cyclic = deck(&[258, 1], &[&[0, X, 1, X]]);
    let clark = deck(&[257, 257, 257, 1, 1, 0], &[&[0, X, 1, Y, 2, Y], &[1, 3, X, 1, X], &[2, 4, X]]);
    let last = deck(&[256, 257], &[&[0], &[1, X, 1, X], &[1, X]]);
    vec![
        in_clause("loose in a fact", &[2, X]),
        in_clause("loose inside a term of a head", &[2, 1, 1, X, 4]),
        in_clause("loose in a negated literal", &[4, NOT + 2, X]),
        in_clause("loose in a head and a negated literal", &[2, X, NOT + 2, X]),
        in_clause("loose inside a negated term", &[2, X, 2, X, NOT + 3, X, 1, Y]),
        in_clause("the second of two loose", &[3, X, Y, 2, X]),
        in_clause("the first of two loose", &[3, X, Y, 2, Y]),
        held("held inside a term", &[2, X, 2, 1, 1, X]),
        held("held by the last literal", &[3, X, Y, NOT + 3, Y, Z, 2, Z, 3, Y, X]),
        held("held beside a not of its own", &[2, 0, NOT + 2, X, 2, X]),
        case("loose in the last clause", &last, &[0], "refused 13\n"),
        case("loose, nothing asked", &clause(&[2, X]), &[], "refused 13\n"),
        case("loose in the deck and the query", &clause(&[2, X]), &[NOT + 2, X], "refused 13\n"),
        case("a loose deck, a bad query", &clause(&[2, X]), &[0], "refused 7\n"),
        case("a loose deck, a query of 501 cells", &clause(&[2, X]), &[4; 501], "refused 6\n"),
        case("q of x and f of x", &cyclic, &[0, X, X], "refused 13\n"),
        case("Clark's example", &clark, &[0, 5], "refused 13\n"),
        asked("a query of a not", &[NOT + 2, X], "refused 14\n"),
        asked("the last of three loose", &[3, X, Y, NOT + 2, 1, Z], "refused 14\n"),
        asked("the first of two loose in a query", &[NOT + 3, X, Y, 2, Y], "refused 14\n"),
        asked("a not before what holds it", &[NOT + 2, 1, X, 2, X], "all\nfinished 4 1 0 0 6\ns0\n"),
        asked("held inside a term of the query", &[NOT + 3, X, 0, 2, 1, X], "no\nfinished 1 0 0 0 2\n"),
    ]
}

/// Deck L with a word changed.
fn with(at: usize, word: u16) -> Vec<u16> {
    let mut deck = L.to_vec();
    deck[at] = word;
    deck
}
