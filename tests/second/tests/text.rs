//! Rules as text: what request U1 says, sentence by sentence.

use second::text::{read, write, Fault, Refused};

const L: [u16; 29] = [
    1, 5, 8, 4, 13, 12, 17, 29, 0, 0, 257, 257, 257, 0, 2, 4, 6, 2, 0, 2, 1, 3, 0, 4, 32768, 2,
    32768, 16387, 32768,
];
const L_TEXT: &str =
    "fn s0/0.\nfn s1/0.\npr s2/1.\npr s3/1.\npr s4/1.\ns2(s0).\ns2(s1).\ns3(s0).\n\
    s4(_0) :- s2(_0), ~s3(_0).\n";
const ROOMY: usize = 20_000;

fn words(text: &str) -> Result<Vec<u16>, Refused> {
    read(text.as_bytes(), ROOMY)
}

/// The text is read to just these symbols and cells, as one clause after another.
fn reads(text: &str, symbols: &[u16], clauses: &[&[u16]]) {
    let world = second::world::World {
        symbols: symbols.to_vec(),
        clauses: clauses.iter().map(|clause| clause.to_vec()).collect(),
        ..second::world::World::default()
    };
    assert_eq!(words(text), Ok(world.deck()), "{text}");
}

fn stops(text: &str, fault: Fault, place: usize) {
    assert_eq!(words(text), Err(Refused::Text(fault, place)), "{text}");
}

fn refuses(text: &str, number: u32) {
    let refused = words(text).map_err(Refused::number);
    assert_eq!(refused, Err(number), "{text}");
}

#[test]
fn deck_l_both_ways() {
    assert_eq!(L_TEXT.len(), 96);
    assert_eq!(write(&L, 96), Ok(L_TEXT.into()));
    assert_eq!(write(&L, 95), Err(11));
    assert_eq!(read(L_TEXT.as_bytes(), 29), Ok(L.to_vec()));
    assert_eq!(read(L_TEXT.as_bytes(), 28), Err(Refused::Room));
    let named = "fn a/0. fn b/0. pr end/1. pr drawn/1. pr lead/1. end(a). end(b). drawn(a). \
        lead(_0) :- end(_0), ~drawn(_0).";
    assert_eq!(words(named), Ok(L.to_vec()));
}

#[test]
fn the_writers_spacing() {
    // f/2, a; p/2, q/0: p(f(_0, a), _1). q. q :- p(a, a), ~q.
    let world = second::world::World {
        symbols: vec![2, 0, 258, 256],
        clauses: vec![
            vec![2, 0, 32768, 1, 32769],
            vec![3],
            vec![3, 2, 1, 1, 16387],
        ],
        ..second::world::World::default()
    };
    let text =
        "fn s0/2.\nfn s1/0.\npr s2/2.\npr s3/0.\ns2(s0(_0,s1),_1).\ns3.\ns3 :- s2(s1,s1), ~s3.\n";
    assert_eq!(write(&world.deck(), text.len()), Ok(text.into()));
}

#[test]
fn names() {
    reads("fn fn/0.pr pr/1.pr(fn).", &[0, 257], &[&[1, 0]]);
    reads("fn pr/0.pr fn/1.fn(pr).", &[0, 257], &[&[1, 0]]);
    reads("pr abcdefghijklmnop/0.abcdefghijklmnop.", &[256], &[&[0]]);
    reads("pr a0123456789bcdef/0.", &[256], &[]);
    stops("pr abcdefghijklmnopq/0.", Fault::Token, 19);
    stops("pr abcdefghijklmnop1/0.", Fault::Token, 19);
    stops("fna/0.", Fault::Token, 3);
    stops("fn A/0.", Fault::Token, 3);
    stops("fn 0a/0.", Fault::Token, 3);
    stops("fn a_0/0.", Fault::Token, 4);
    stops("xx a/0.", Fault::Token, 3);
}

#[test]
fn numbers() {
    reads("fn f/15.", &[15], &[]);
    reads("pr p/10.", &[266], &[]);
    stops("fn f/16.", Fault::Token, 5);
    stops("fn f/65536.", Fault::Token, 5);
    stops("fn f/4294967296.", Fault::Token, 5);
    stops("fn f/18446744073709551616.", Fault::Token, 5);
    stops("fn f/00.", Fault::Token, 6);
    stops("fn f/01.", Fault::Token, 6);
    stops("fn f/0x.", Fault::Token, 6);
    refuses("pr p/1.p(_1023).", 5);
    reads("pr p/1.p(_0).", &[257], &[&[0, 32768]]);
    stops("pr p/1.p(_1024).", Fault::Token, 9);
    stops("pr p/1.p(_65536).", Fault::Token, 9);
    stops("pr p/1.p(_18446744073709551616).", Fault::Token, 9);
    stops("pr p/1.p(_00).", Fault::Token, 11);
    stops("pr p/1.p(_).", Fault::Token, 9);
    stops("pr p/1.p(_ 0).", Fault::Token, 9);
    stops("pr p/1.p(_x).", Fault::Token, 9);
}

#[test]
fn spacing() {
    reads(
        " \n fn\na / 0 .\n\n pr p/ 1.p\n(\na ) .\n \n",
        &[0, 257],
        &[&[1, 0]],
    );
    reads(
        "pr p/0.p:-p,~ p.p :-~p.",
        &[256],
        &[&[0, 0, 16384], &[0, 16384]],
    );
    stops("pr p/0.p : -p.", Fault::Token, 9);
    stops("pr p/0.p :", Fault::Token, 9);
    stops("pr p/1.p(_", Fault::Token, 9);
    stops("fn a/0.\tfn b/0.", Fault::Token, 7);
    stops("fn a/0.\r\n", Fault::Token, 7);
    assert_eq!(read(b"fn a/0.\xa0", 9), Err(Refused::Text(Fault::Token, 7)));
    assert_eq!(read(b"fn a/0.\0", 9), Err(Refused::Text(Fault::Token, 7)));
}

#[test]
fn outside_the_grammar() {
    stops("pr p/0.p().", Fault::Token, 9);
    stops("pr p/0.p(,).", Fault::Token, 9);
    stops("pr p/0.p. pr q/0.", Fault::Token, 13);
    stops("pr p/0.~p.", Fault::Token, 7);
    stops("pr p/0.p:-.", Fault::Token, 10);
    stops("pr p/0.p:-p,.", Fault::Token, 12);
    stops("pr p/0.p:-_0.", Fault::Token, 10);
    stops("pr p/0._0.", Fault::Token, 7);
    stops("pr p/0.p:-~~p.", Fault::Token, 11);
    stops("pr p/0.p:-p:-p.", Fault::Token, 11);
    stops("pr p/1.p(~p).", Fault::Token, 9);
    stops("pr p/1.p(_0(_1)).", Fault::Token, 11);
    stops("pr p/1.p(_0)).", Fault::Token, 12);
    stops("pr p/1.p(_0)(_0).", Fault::Token, 12);
    stops("pr p/0.p,p.", Fault::Token, 8);
    stops("pr p/0..", Fault::Token, 7);
    stops(".", Fault::Token, 0);
}

#[test]
fn ends_too_early() {
    for text in [
        "f",
        "fn",
        "fn a",
        "fn a/",
        "fn a/0",
        "pr p/0.p",
        "pr p/0.p:-",
        "pr p/0.p:-p",
    ] {
        stops(text, Fault::End, text.len());
    }
    for text in [
        "pr p/1.p(",
        "pr p/1.p(_0",
        "pr p/1.p(_0,",
        "pr p/1.p(_0)",
        "pr p/0.p:-p,~ \n",
    ] {
        stops(text, Fault::End, text.len());
    }
}

#[test]
fn declared_and_used() {
    stops("fn a/0.fn b/0.fn a/0.", Fault::Twice, 17);
    stops("fn a/0.pr a/0.fn a/0.", Fault::Twice, 10);
    stops("fn a/0.fn b/0.pr b/3.fn a/0.", Fault::Twice, 17);
    stops("pr p/0.q.", Fault::Undeclared, 7);
    stops("pr p/0.p(p).", Fault::Arity, 7);
    stops("pr p/1.p.", Fault::Arity, 7);
    stops("pr p/1.p(_0,_0).", Fault::Arity, 7);
    stops("pr p/2.p(_0).", Fault::Arity, 7);
    stops("pr p/2.p(_0,q(p)).", Fault::Undeclared, 12);
    stops("pr p/1.p(p(q)).p.", Fault::Undeclared, 11);
    stops("fn f/1.pr p/1.p(f(f)).", Fault::Arity, 18);
    stops("fn f/1.pr p/1.p(_0,f).", Fault::Arity, 14);
}

#[test]
fn each_fault_over_the_whole_text_before_the_next() {
    stops("fn a/0.fn a/0.q.p", Fault::End, 17);
    stops("fn a/0.fn a/0.q.p!", Fault::Token, 17);
    stops("q.fn a/0.fn a/0.", Fault::Token, 5);
    stops("fn a/0.fn a/0.q.", Fault::Twice, 10);
    stops("fn a/0.pr p/1.p.q.", Fault::Arity, 14);
    stops("fn a/0.pr p/1.q.p.", Fault::Undeclared, 14);
}

#[test]
fn what_is_left_to_opening() {
    refuses("", 1);
    refuses(" \n", 1);
    assert_eq!(read(b"", 8), Err(Refused::Deck(1)));
    assert_eq!(read(b"", 7), Err(Refused::Room));
    refuses("fn a/0.a.", 5);
    refuses("pr p/1.p(p(_0)).", 5);
    refuses("fn a/0.pr p/0.p:-~a.", 5);
    refuses("pr p/1.p(_1).", 5);
    let cells = |number: usize| format!("pr p/0.p:-{}p.", "p,".repeat(number - 2));
    assert!(words(&cells(256)).is_ok());
    refuses(&cells(257), 4);
    // 4 is looked for in the whole deck before 5.
    refuses(&format!("fn a/0.{}a.", cells(257)), 4);
}

fn declarations(number: usize) -> String {
    (0..number).map(|at| format!("fn a{at}/0.")).collect()
}

#[test]
fn how_much_fits() {
    assert!(words(&declarations(4_096)).is_ok());
    assert_eq!(words(&declarations(4_097)), Err(Refused::Deck(1)));
    assert_eq!(words(&declarations(16_376)), Err(Refused::Deck(1)));
    assert_eq!(words(&declarations(16_377)), Err(Refused::Long));
    let text = declarations(70_000);
    assert_eq!(words(&text), Err(Refused::Long));
    stops(
        &(text.clone() + "fn a69999/0."),
        Fault::Twice,
        text.len() + 3,
    );
    stops(&(text.clone() + "b."), Fault::Undeclared, text.len());
    // 8 + 1 words, and 2 a fact.
    let facts = |number: usize| format!("pr p/0.{}", "p.".repeat(number));
    assert_eq!(words(&facts(8_187)).map(|deck| deck.len()), Ok(16_383));
    assert_eq!(words(&facts(8_188)), Err(Refused::Long));
    let text = facts(8_186) + "p:-p.";
    assert_eq!(
        read(text.as_bytes(), 16_384).map(|deck| deck.len()),
        Ok(16_384)
    );
    assert_eq!(read(text.as_bytes(), 16_383), Err(Refused::Room));
}

#[test]
fn names_alike() {
    for shape in 0..3 {
        let deck = read(&second::random::texts::alike(shape), ROOMY).expect("a deck");
        assert_eq!(deck.len(), 8 + 4_001 + 3 * 4_000);
        assert_eq!(deck[8 + 4_001 + 4_000..][..4], [4_000, 3_999, 4_000, 3_998]);
    }
}

#[test]
fn nesting() {
    for deep in [30_000, 100_000, 1_000_000] {
        let open = format!("fn f/1.fn a/0.pr p/1.p({}", "f(".repeat(deep));
        stops(&open, Fault::End, open.len());
        let closed = format!("{open}a{}", ")".repeat(deep + 1));
        assert_eq!(words(&(closed.clone() + ".")), Err(Refused::Long));
        stops(&(closed + ")"), Fault::Token, open.len() + deep + 2);
        let wrong = format!("{open}a,a{}.", ")".repeat(deep + 1));
        stops(&wrong, Fault::Arity, open.len() - 2);
    }
    refuses(
        &format!(
            "fn f/1.fn a/0.pr p/1.p({}a{}.",
            "f(".repeat(300),
            ")".repeat(301)
        ),
        4,
    );
}

#[test]
fn writing_refuses_as_opening_does() {
    let mut deck = L.to_vec();
    deck[0] = 2;
    assert_eq!(write(&deck, 0), Err(1));
    deck = L.to_vec();
    deck[8] = 16;
    assert_eq!(write(&deck, 0), Err(2));
    deck = L.to_vec();
    deck[13] = 1;
    assert_eq!(write(&deck, 0), Err(3));
    deck = L.to_vec();
    deck[28] = 32770;
    assert_eq!(write(&deck, 0), Err(5));
    assert_eq!(write(&L, 0), Err(11));
}

/// The text is read to just these symbols, of two words each, and cells.
fn reads_numbers(text: &str, symbols: &[(u16, i16)], clauses: &[&[u16]]) {
    let world = second::world::World {
        symbols: symbols.iter().map(|symbol| symbol.0).collect(),
        values: Some(symbols.iter().map(|symbol| symbol.1 as u16).collect()),
        clauses: clauses.iter().map(|clause| clause.to_vec()).collect(),
        ..second::world::World::default()
    };
    assert_eq!(words(text), Ok(world.deck()), "{text}");
}

const N: u16 = 512;

#[test]
fn texts_of_format_2() {
    reads_numbers("v2.fn a/0.", &[(0, 0)], &[]);
    reads_numbers("v2.nu n1-35.", &[(N, -35)], &[]);
    reads_numbers(" v2 .\nnu n 5 .pr p/1.p(n).", &[(N, 5), (257, 0)], &[&[1, 0]]);
    reads_numbers("v2.pr v2/0.nu nu -32768.fn fn/0.v2.", &[(256, 0), (N, i16::MIN), (0, 0)], &[&[0]]);
    reads_numbers("v2.nu abcdefghijklmnop5.", &[(N, 5)], &[]);
    reads_numbers("v2.nu n 32767.nu m 0.", &[(N, i16::MAX), (N, 0)], &[]);
    reads_numbers("v2.nu n 5.pr p/1.p(_0):-p(_0),~p(n).", &[(N, 5), (257, 0)], &[&[1, 32768, 1, 32768, 16385, 0]]);
    assert_eq!(read(b"v2.nu n 5.", 10).map(|deck| deck.len()), Ok(10));
    assert_eq!(read(b"v2.nu n 5.", 9), Err(Refused::Room));
    refuses("v2.", 1);
    assert_eq!(read(b"v2.", 7), Err(Refused::Room));
    refuses("v2.nu n 5.nu m 5.", 2);
    refuses("v2.nu n 5.n.", 5);
    refuses("v2.nu n 5.pr p/0.p:-~n.", 5);
}

#[test]
fn outside_the_grammar_of_format_2() {
    stops("nu n 5.", Fault::Token, 3);
    stops("fn a/0.v2.nu n 5.", Fault::Token, 13);
    stops("fn a/0.v2.", Fault::Undeclared, 7);
    stops("v2.v2.", Fault::Undeclared, 3);
    stops("v2", Fault::End, 2);
    stops("v2,", Fault::Token, 2);
    stops("v2.nu n -0.", Fault::Token, 8);
    stops("v2.nu n 05.", Fault::Token, 9);
    stops("v2.nu n -05.", Fault::Token, 8);
    stops("v2.nu n - 5.", Fault::Token, 8);
    stops("v2.nu n +5.", Fault::Token, 8);
    stops("v2.nu n --5.", Fault::Token, 8);
    stops("v2.nu n 32768.", Fault::Token, 8);
    stops("v2.nu n -32769.", Fault::Token, 8);
    stops("v2.nu n 65541.", Fault::Token, 8);
    stops("v2.nu n -4294967297.", Fault::Token, 8);
    stops("v2.nu n/0.", Fault::Token, 7);
    stops("v2.nu n5.", Fault::Token, 8);
    stops("v2.nu n.", Fault::Token, 7);
    stops("v2.nu n", Fault::End, 7);
    stops("v2.nu n 5", Fault::End, 9);
    stops("v2.fn n 5.", Fault::Token, 8);
    stops("v2.fn n-5.", Fault::Token, 7);
    stops("v2.nu -5.", Fault::Token, 6);
    stops("v2.nu n 5.pr p/1.p(5).", Fault::Token, 19);
    stops("v2.nu n 5.pr p/1.p(-5).", Fault::Token, 19);
    stops("v2.nu n 5.pr p/1.p(n).nu m 6.", Fault::Token, 25);
    stops("v2.nu n 5.nu n 6.", Fault::Twice, 13);
    stops("v2.nu n 5.pr p/1.p(n(_0)).", Fault::Arity, 19);
    // 11 comes before 2, and 1 too.
    assert_eq!(read(b"v2.nu n 5.nu m 5.", 11), Err(Refused::Room));
    let many: String = (0..4_097).map(|at| format!("nu n{at} 5.")).collect();
    refuses(&format!("v2.{many}"), 1);
    let many: String = (0..8_189).map(|at| format!("nu n{at} {at}.")).collect();
    assert_eq!(words(&format!("v2.{many}")), Err(Refused::Long));
}

#[test]
fn decks_of_format_2_as_text() {
    let symbols = [512, 65_501, 0, 0, 257, 0, 512, 32_767, 512, 32_768];
    let deck = [&[2, 5, 8, 2, 18, 4, 20, 24], &symbols[..], &[0, 2], &[2, 0, 2, 3]].concat();
    let text = "v2.\nnu s0 -35.\nfn s1/0.\npr s2/1.\nnu s3 32767.\nnu s4 -32768.\ns2(s0).\ns2(s3).\n";
    assert_eq!(write(&deck, text.len()), Ok(text.into()));
    assert_eq!(write(&deck, text.len() - 1), Err(11));
    assert_eq!(words(text), Ok(deck));
    let bare = [2, 1, 8, 0, 10, 0, 10, 10, 256, 0];
    assert_eq!(write(&bare, 20), Ok("v2.\npr s0/0.\n".into()));
    assert_eq!(words("v2.\npr s0/0.\n"), Ok(bare.to_vec()));
}
