//! Each refusal at its border.

use second::rights::no_bars;
use second::world::World;
use second::{check, open, run};

const X: u16 = 32_768;

/// p (no arguments), q of one argument, a; p. q(a) if p.
fn base() -> World {
    World {
        symbols: vec![256, 257, 0],
        clauses: vec![vec![0], vec![1, 2, 0]],
        query: vec![1, X],
        ..World::default()
    }
}

fn with(change: impl Fn(&mut World)) -> World {
    let mut world = base();
    change(&mut world);
    world
}

fn opened(change: impl Fn(&mut Vec<u16>)) -> u32 {
    let mut deck = base().deck();
    change(&mut deck);
    open(&deck)
}

#[test]
fn header() {
    assert_eq!(opened(|_| ()), 0);
    for at in 0..8 {
        assert_eq!(opened(|deck| deck[at] += 1), 1, "word {at}");
        assert_eq!(opened(|deck| deck[at] -= 1), 1, "word {at}");
        assert_eq!(opened(|deck| deck.truncate(at)), 1, "length {at}");
    }
    assert_eq!(opened(|deck| deck.push(0)), 1);
    assert_eq!(opened(|deck| deck.truncate(16)), 1);
    assert_eq!(open(&[1, 0, 8, 0, 8, 0, 8, 8]), 1);
    assert_eq!(open(&[1, 1, 8, 0, 9, 0, 9, 9, 0]), 0);
}

#[test]
fn header_limits() {
    let symbols = |count: usize| with(|world| world.symbols.resize(count, 0)).deck();
    assert_eq!(open(&symbols(4_096)), 0);
    assert_eq!(open(&symbols(4_097)), 1);
    let words = |count: usize| {
        with(|world| {
            let long = count - base().deck().len();
            for from in (0..long).step_by(257) {
                let cells = (long - from).min(257) - 1;
                world.clauses.push(vec![0; cells.max(1)]);
            }
        })
    };
    assert_eq!(words(16_384).deck().len(), 16_384);
    assert_eq!(open(&words(16_384).deck()), 0);
    assert_eq!(open(&words(16_385).deck()), 1);
}

#[test]
fn symbols() {
    for good in [0, 15, 256, 271] {
        assert_eq!(open(&with(|world| world.symbols.push(good)).deck()), 0);
    }
    for bad in [16, 255, 272, 512, 768, 32_768, u16::MAX] {
        assert_eq!(open(&with(|world| world.symbols.push(bad)).deck()), 2);
    }
}

/// As the base, in format 2: p, q of one argument, the number 7, the number -35.
fn numbers(change: impl Fn(&mut World)) -> u32 {
    let mut world = with(|world| {
        world.symbols = vec![256, 257, 512, 512];
        world.values = Some(vec![0, 0, 7, 65_501]);
        world.clauses.push(vec![1, 3]);
    });
    change(&mut world);
    open(&world.deck())
}

#[test]
fn symbols_of_two_words() {
    let words = |second: u16| [2, 2, 8, 0, 12, 0, 12, 12, 512, 7, 512, second];
    assert_eq!(open(&words(65_501)), 0);
    assert_eq!(open(&words(7)), 2);
    assert_eq!(open(&[2, 1, 8, 0, 10, 0, 10, 10, 512, 0]), 0);
    assert_eq!(open(&[2, 1, 8, 0, 9, 0, 9, 9, 512]), 1);
    assert_eq!(open(&[2, 1, 8, 0, 9, 0, 9, 10, 512, 0]), 1);
    assert_eq!(open(&[1, 1, 8, 0, 10, 0, 10, 10, 512, 0]), 1);
    assert_eq!(open(&[3, 1, 8, 0, 10, 0, 10, 10, 512, 0]), 1);
    assert_eq!(open(&[2, 0, 8, 0, 8, 0, 8, 8]), 1);
    assert_eq!(open(&[1, 1, 8, 0, 9, 0, 9, 9, 512]), 2);
    assert_eq!(numbers(|_| ()), 0);
    for value in [0, 8, 32_767, 32_768, 65_535] {
        assert_eq!(numbers(|world| world.values = Some(vec![0, 0, 7, value])), 0);
    }
    for second in [1, 512, 65_535] {
        assert_eq!(numbers(|world| world.values = Some(vec![second, 0, 7, 8])), 2);
        assert_eq!(numbers(|world| world.values = Some(vec![0, second, 7, 8])), 2);
        let functor = |world: &mut World| {
            world.symbols[3] = 0;
            world.values = Some(vec![0, 0, 7, second]);
        };
        assert_eq!(numbers(functor), 2);
    }
    for word in [16, 255, 272, 511, 513, 527, 768, 1_024, 65_535] {
        assert_eq!(numbers(|world| world.symbols[3] = word), 2, "{word}");
    }
}

#[test]
fn equal_values() {
    let values = |values: &[u16]| {
        let symbols = vec![512; values.len()];
        let values = Some(values.to_vec());
        open(&World { symbols, values, ..World::default() }.deck())
    };
    assert_eq!(values(&[1, 2, 3, 4, 5]), 0);
    assert_eq!(values(&[1, 2, 2, 4, 5]), 2);
    assert_eq!(values(&[5, 2, 3, 4, 5]), 2);
    assert_eq!(values(&[0, 65_535, 32_768, 65_535]), 2);
    assert_eq!(values(&(0..4_096).collect::<Vec<u16>>()), 0);
    assert_eq!(values(&(0..4_096).map(|at| at % 4_095).collect::<Vec<u16>>()), 2);
    assert_eq!(values(&(0..4_097).map(|at| at % 4_095).collect::<Vec<u16>>()), 1);
    // Over everything before the next check: 2 before 3, 4 and 5.
    assert_eq!(numbers(|world| {
        world.values = Some(vec![0, 0, 7, 7]);
        world.clauses.push(vec![9; 300]);
    }), 2);
}

#[test]
fn numbers_are_functors() {
    assert_eq!(numbers(|world| world.clauses.push(vec![3])), 5);
    assert_eq!(numbers(|world| world.clauses.push(vec![0, 16_384 + 3])), 5);
    assert_eq!(numbers(|world| world.clauses.push(vec![1, 3, 1, 2])), 0);
    assert_eq!(numbers(|world| world.clauses.push(vec![1, 3, 3])), 5);
}

#[test]
fn starts() {
    assert_eq!(opened(|deck| deck[11] = 1), 3);
    assert_eq!(opened(|deck| deck[12] = 0), 3);
    assert_eq!(opened(|deck| deck[12] = 4), 3);
    assert_eq!(opened(|deck| deck[12] = 5), 3);
    assert_eq!(open(&[1, 1, 8, 0, 9, 1, 9, 10, 256, 0]), 3);
    assert_eq!(open(&[1, 1, 8, 1, 9, 0, 10, 10, 256, 0]), 3);
}

#[test]
fn clause_length() {
    let clause = |cells: usize| with(|world| world.clauses[0].resize(cells, 0)).deck();
    assert_eq!(open(&clause(256)), 0);
    assert_eq!(open(&clause(257)), 4);
}

#[test]
fn clause_form() {
    let clause = |cells: &[u16]| open(&with(|world| world.clauses.push(cells.to_vec())).deck());
    let good: [&[u16]; 5] = [
        &[0],
        &[1, X],
        &[1, 2, 16_384],
        &[1, X, 16_385, X + 1, 0, 1, X + 2],
        &[0, 16_384, 1, X],
    ];
    for cells in good {
        assert_eq!(clause(cells), 0, "{cells:?}");
    }
    let bad: [&[u16]; 14] = [
        &[16_384],
        &[2],
        &[X],
        &[1],
        &[1, 0],
        &[1, 16_384],
        &[3],
        &[0, 3],
        &[0, 16_386],
        &[0, 16_387],
        &[1, X + 1],
        &[0, 1, X, 1, X + 2],
        &[0, X],
        &[1, X + 1_024],
    ];
    for cells in bad {
        assert_eq!(clause(cells), 5, "{cells:?}");
    }
}

#[test]
fn queries() {
    let deck = base().deck();
    assert_eq!(check(&deck, &[]), 0);
    assert_eq!(check(&deck, &[0; 500]), 0);
    assert_eq!(check(&deck, &[0; 501]), 6);
    assert_eq!(check(&deck, &[9; 501]), 6);
    assert_eq!(check(&deck, &[16_385, X, 1, X + 1, 1, X]), 0);
    let bad: [&[u16]; 5] = [&[1], &[2], &[X], &[1, X + 1], &[0, 0, 16_386]];
    for cells in bad {
        assert_eq!(check(&deck, cells), 7, "{cells:?}");
    }
}

#[test]
fn buffers() {
    let deck = base().deck();
    let refused = |store, scratch| run(&deck, &[0], &no_bars(&deck), 9, 9, store, scratch).err();
    assert_eq!(refused(1_024, 8_192), None);
    assert_eq!(refused(65_535, 8_192), None);
    assert_eq!(refused(1_023, 8_192), Some(8));
    assert_eq!(refused(65_536, 0), Some(8));
    assert_eq!(refused(1_024, 8_191), Some(9));
}

/// A clause between others, and the query p.
fn with_clause(cells: &[u16]) -> World {
    with(|world| world.clauses.insert(1, cells.to_vec()))
}

#[test]
fn loose_in_a_clause() {
    // Symbols: p, q of one argument, a, f of one, r of two.
    let checked = |cells: &[u16]| {
        let mut world = with_clause(cells);
        world.symbols.extend([1, 258]);
        assert_eq!(open(&world.deck()), 0, "{cells:?}");
        let ran = run(&world.deck(), &[0], &no_bars(&world.deck()), 9, 9, 1_024, 8_192).err();
        let number = check(&world.deck(), &[0]);
        assert_eq!(ran, Some(number).filter(|number| *number > 0), "{cells:?}");
        number
    };
    let tight: [&[u16]; 7] = [
        &[0],
        &[1, X, 1, X],
        &[1, X, 1, 3, 3, X],
        &[1, 3, X, 16_385, X, 1, X],
        &[0, 16_385, 2],
        &[4, X, X + 1, 16_388, X + 1, X, 1, X + 1, 1, X],
        &[0, 4, X, X + 1, 16_388, X + 1, X],
    ];
    for cells in tight {
        assert_eq!(checked(cells), 0, "{cells:?}");
    }
    let loose: [&[u16]; 9] = [
        &[1, X],
        &[1, 3, X],
        &[1, X, 0],
        &[1, X, 16_385, X],
        &[0, 16_385, X],
        &[0, 16_385, 3, 3, X],
        &[4, X, X + 1, 1, X],
        &[4, X, X + 1, 1, X + 1],
        &[1, X, 1, X, 16_388, X, X + 1],
    ];
    for cells in loose {
        assert_eq!(checked(cells), 13, "{cells:?}");
    }
}

#[test]
fn loose_in_a_query() {
    let deck = base().deck();
    let tight: [&[u16]; 4] = [
        &[],
        &[1, X],
        &[16_385, X, 1, X],
        &[1, X, 1, X + 1, 16_385, X + 1],
    ];
    for query in tight {
        assert_eq!(check(&deck, query), 0, "{query:?}");
    }
    let loose: [&[u16]; 4] = [
        &[16_385, X],
        &[1, X, 16_385, X + 1],
        &[16_385, X, 1, X + 1],
        &[16_385, X, 16_385, X],
    ];
    for query in loose {
        assert_eq!(check(&deck, query), 14, "{query:?}");
        assert_eq!(
            run(&deck, query, &no_bars(&deck), 9, 9, 1_024, 8_192).err(),
            Some(14),
            "{query:?}"
        );
    }
}

#[test]
fn loose_after_all_others() {
    let deck = with_clause(&[1, X]).deck();
    let refused = |query: &[u16], store, scratch| run(&deck, query, &no_bars(&deck), 9, 9, store, scratch).err();
    assert_eq!(check(&deck, &[9; 501]), 6);
    assert_eq!(check(&deck, &[1]), 7);
    assert_eq!(refused(&[1], 1_024, 8_192), Some(7));
    assert_eq!(refused(&[16_385, X], 1_023, 8_192), Some(8));
    assert_eq!(refused(&[16_385, X], 1_024, 8_191), Some(9));
    assert_eq!(refused(&[16_385, X], 1_024, 8_192), Some(13));
    assert_eq!(refused(&[], 1_024, 8_192), Some(13));
    assert_eq!(
        run(&base().deck(), &[16_385, X], &no_bars(&base().deck()), 9, 9, 1_024, 8_191).err(),
        Some(9)
    );
}

#[test]
fn lower_number_first() {
    let mut world = base();
    world.clauses[1] = vec![2];
    world.clauses[0] = vec![0; 300];
    assert_eq!(open(&world.deck()), 4);
    let mut deck = world.deck();
    deck[12] = 0;
    assert_eq!(open(&deck), 3);
    deck[10] = 16;
    assert_eq!(open(&deck), 2);
    deck[0] = 2;
    assert_eq!(open(&deck), 1);
    assert_eq!(check(&deck, &[9; 501]), 1);
    assert_eq!(run(&deck, &[9; 501], &no_bars(&deck), 0, 0, 0, 0).err(), Some(1));
}
