//! Two decks that a member with the same list can't tell apart: they have the same symbols, and the same clauses in the same order about each predicate
//! that is not barred and that the start names or reaches through predicates that are not barred.

use crate::carry::{self, stored, CarryCase};
use crate::case::Case;
use crate::deck::{self, Deck};
use crate::evaluation::Start;
use crate::judge::{same, Engine, Lent, Report};
use crate::query;
use crate::random::Dice;
use crate::world::World;

/// The symbols that the start's literals name, or the bodies of clauses about one of them that is not barred.
pub(crate) fn named_openly(deck: &Deck, bars: &[u16], start: &Start) -> Vec<bool> {
    let mut named = vec![false; deck.symbols.len()];
    let mut todo: Vec<u16> = start.literals().map(|one| one.atom.symbol).collect();
    while let Some(symbol) = todo.pop() {
        let at = symbol as usize;
        if named[at] {
            continue;
        }
        named[at] = true;
        if bars.get(at) != Some(&1) {
            let clauses = deck.about[at].iter().map(|number| &deck.clauses[*number]);
            let literals = clauses.flat_map(|clause| &clause.body);
            todo.extend(literals.map(|one| one.atom.symbol));
        }
    }
    named
}

/// How two decks differ.
#[derive(Clone, Copy, Debug, PartialEq, Eq)]
pub enum Differ {
    /// Only behind barred predicates, and where the start doesn't lead.
    Behind,
    /// In a clause about a predicate that is reached and not barred.
    InSight,
}

/// The deck of a case with other clauses; nothing where it takes no query, or nothing is to be changed.
pub fn other_deck(dice: &mut Dice, case: &Case, differ: Differ) -> Option<Vec<u16>> {
    let deck = deck::open(&case.deck).ok()?;
    let start = Start::fresh(query::read(&deck, &case.query).ok()?);
    another(dice, &case.deck, &case.bars, &start, differ)
}

/// The same for a run that carries on.
pub fn other_carried(dice: &mut Dice, case: &CarryCase, differ: Differ) -> Option<Vec<u16>> {
    let deck = deck::open(&case.deck).ok()?;
    let start = stored::read(&deck.symbols, &case.store, case.given).ok()?;
    another(dice, &case.deck, &case.bars, &start, differ)
}

fn another(
    dice: &mut Dice,
    words: &[u16],
    bars: &[u16],
    start: &Start,
    differ: Differ,
) -> Option<Vec<u16>> {
    let deck = deck::open(words).ok()?;
    crate::loose::deck(&deck).ok()?;
    let named = named_openly(&deck, bars, start);
    let free =
        |at: &usize| deck.symbols[*at].predicate && (bars.get(*at) == Some(&1) || !named[*at]);
    let free: Vec<u16> = (0..deck.symbols.len())
        .filter(free)
        .map(|at| at as u16)
        .collect();
    let mut world = World::take_apart(words, &[])?;
    let before = world.clauses.clone();
    match differ {
        Differ::Behind => {
            change(dice, &mut world, &free);
            mix(dice, &mut world);
        }
        Differ::InSight => {
            let seen: Vec<usize> = (0..before.len())
                .filter(|at| !free.contains(&before[*at][0]))
                .collect();
            if seen.is_empty() {
                return None;
            }
            world.clauses.remove(*dice.pick(&seen));
        }
    }
    let other = world.deck();
    let takes = deck::open(&other).is_ok_and(|deck| crate::loose::deck(&deck).is_ok());
    (world.clauses != before && takes).then_some(other)
}

/// Clauses about these predicates are left out, said again and put in.
fn change(dice: &mut Dice, world: &mut World, free: &[u16]) {
    if free.is_empty() {
        return;
    }
    let about = |clause: &Vec<u16>| free.contains(&clause[0]);
    let theirs = world.clauses.iter().filter(|clause| about(clause));
    let theirs: Vec<Vec<u16>> = theirs.cloned().collect();
    match dice.below(4) {
        0 => world.clauses.retain(|clause| !about(clause)),
        1 => world
            .clauses
            .retain(|clause| !about(clause) || dice.chance(1, 2)),
        _ => {}
    }
    for _ in 0..dice.below(4) {
        let clause = match dice.below(3) {
            0 if !theirs.is_empty() => Some(dice.pick(&theirs).clone()),
            _ => made(dice, world, free),
        };
        let at = dice.range(0, world.clauses.len());
        world.clauses.splice(at..at, clause);
    }
    // Over 64 clauses about one of them, so that it has rows.
    if dice.chance(1, 12) {
        if let Some(clause) = made(dice, world, free) {
            let at = dice.range(0, world.clauses.len());
            world.clauses.splice(at..at, vec![clause; 70]);
        }
    }
}

/// A clause without variables about one of these predicates; at times with a literal of any predicate.
fn made(dice: &mut Dice, world: &World, free: &[u16]) -> Option<Vec<u16>> {
    let (constants, predicates) = (world.constants(), world.predicates());
    let mut clause = Vec::new();
    for symbol in [*dice.pick(free), *dice.pick(&predicates)] {
        clause.push(symbol);
        for _ in 0..world.arity(symbol) {
            clause.push(*constants.get(dice.below(constants.len().max(1)))?);
        }
        if dice.chance(1, 2) {
            break;
        }
    }
    Some(clause)
}

/// Other places for all clauses, where those about one predicate stay in order.
fn mix(dice: &mut Dice, world: &mut World) {
    if dice.chance(1, 3) {
        let factor = 2 * dice.word() as u32 + 1;
        let key = |clause: &Vec<u16>| (clause[0] as u32).wrapping_mul(factor) % 4_093;
        world.clauses.sort_by_key(key);
    }
}

/// What a member gets: the refusal's number, the report, the answer list and the open goals.
#[derive(Debug, PartialEq, Eq)]
pub struct Got {
    pub number: u32,
    pub report: Report,
    answers: Vec<u16>,
    goals: Vec<u16>,
}

/// Buffers that are lent, and what a call leaves in them.
struct Buffers {
    answers: Vec<u16>,
    store: Vec<u16>,
    scratch: Vec<u16>,
}

impl Buffers {
    fn lend(&mut self) -> Lent<'_> {
        Lent {
            answers: &mut self.answers,
            store: &mut self.store,
            scratch: &mut self.scratch,
        }
    }

    fn got(mut self, number: u32, report: Report) -> Got {
        let mut words = 0;
        for _ in 0..report.pending + report.parked {
            words += (self.store[words] % 4_096) as usize;
        }
        self.store.truncate(words);
        let (answers, goals) = (self.answers, self.store);
        Got {
            number,
            report,
            answers,
            goals,
        }
    }
}

/// From an engine's fresh run.
pub fn run(engine: &dyn Engine, case: &Case) -> Got {
    let mut buffers = Buffers {
        answers: vec![7; case.answer_words],
        store: vec![7; case.store_words],
        scratch: vec![7; case.scratch_words],
    };
    let mut report = Report::default();
    let (deck, query, bars) = (&case.deck, &case.query, &case.bars);
    let number = engine.run(deck, query, bars, case.budget, buffers.lend(), &mut report);
    buffers.got(number, report)
}

/// From an engine's run that carries on.
pub fn carry_on(engine: &dyn carry::judge::Engine, case: &CarryCase) -> Got {
    let mut buffers = Buffers {
        answers: vec![7; case.answer_words],
        store: case.store.clone(),
        scratch: vec![7; case.scratch_words],
    };
    let mut report = Report::default();
    let (deck, given, bars) = (&case.deck, case.given, &case.bars);
    let number = engine.carry_on(deck, given, bars, case.budget, buffers.lend(), &mut report);
    buffers.got(number, report)
}

/// How often both decks were let on, and both refused.
#[derive(Clone, Copy, Debug, Default, PartialEq, Eq)]
pub struct Counts {
    pub ran: usize,
    pub refused: usize,
}

impl Counts {
    fn add(&mut self, got: &Got) {
        match got.number {
            0 => self.ran += 1,
            _ => self.refused += 1,
        }
    }
}

/// The member gets the same from both decks: of a fresh run, and of one that carries on from it, over decks that differ anew.
pub fn judge(engine: &dyn carry::judge::Engine, case: &Case, seed: u64) -> Result<Counts, String> {
    let mut dice = Dice::new(seed ^ 0x9a15);
    let mut counts = Counts::default();
    let Some(deck) = other_deck(&mut dice, case, Differ::Behind) else {
        return Ok(counts);
    };
    let first = run(engine, case);
    let other = Case {
        deck,
        ..case.clone()
    };
    same("over the other deck", &run(engine, &other), &first)?;
    counts.add(&first);
    if let Some(next) = Some(&first).filter(|first| first.number == 0) {
        let next = continued(case, next);
        if let Some(deck) = other_carried(&mut dice, &next, Differ::Behind) {
            let got = carry_on(engine, &next);
            let other = CarryCase { deck, ..next };
            let then = carry_on(engine, &other);
            same("carried on over the other deck", &then, &got)?;
            counts.add(&got);
        }
    }
    Ok(counts)
}

/// From the goals that a fresh run has left.
fn continued(case: &Case, left: &Got) -> CarryCase {
    let terms = deck::open(&case.deck).and_then(|deck| query::read(&deck, &case.query));
    let mut store = left.goals.clone();
    store.resize(case.store_words, 3);
    CarryCase {
        name: format!("{}, continued", case.name),
        deck: case.deck.clone(),
        store,
        given: carry::Given {
            pending: left.report.pending.into(),
            parked: left.report.parked.into(),
            terms: terms.map_or(0, |query| query.variables as u64),
        },
        bars: case.bars.clone(),
        budget: 500,
        answer_words: case.answer_words,
        scratch_words: case.scratch_words,
    }
}
