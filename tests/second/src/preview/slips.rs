//! This evaluator with a slip put in, to see that the comparison finds it.

use super::judge::{sizes, tell, Asked, Engine, Second};
use super::{lengthened, preview, Refused, MOST_WORDS};
use crate::cost::Slip as Cost;
use crate::deck;
use crate::evaluation::{self, Limits, Outcome, Start};
use crate::index;
use crate::judge::{Lent, Report};
use crate::query;
use crate::rights::{self, Rules};
use crate::world::World;

/// A call with the lengths of its buffers; what it comes to.
struct Call<'a> {
    asked: Asked<'a>,
    limits: Limits,
    scratch: usize,
}

type Result_ = Result<Outcome, u32>;

pub struct Slip {
    pub name: &'static str,
    preview: fn(&Call<'_>) -> Result_,
}

impl Engine for Slip {
    fn preview(&self, asked: Asked<'_>, lent: Lent<'_>, report: &mut Report) -> u32 {
        let (limits, scratch) = sizes(&asked, &lent);
        let call = Call { asked, limits, scratch };
        tell((self.preview)(&call), lent, report)
    }
}

/// Another engine's call that touches something with a refusal.
pub struct Touches(pub fn(&mut Lent<'_>, &mut Report));

impl Engine for Touches {
    fn preview(&self, asked: Asked<'_>, mut lent: Lent<'_>, report: &mut Report) -> u32 {
        let again = Lent {
            answers: &mut *lent.answers,
            store: &mut *lent.store,
            scratch: &mut *lent.scratch,
        };
        let number = Second.preview(asked, again, report);
        if number > 5 {
            (self.0)(&mut lent, report);
        }
        number
    }
}

impl Call<'_> {
    /// The preview of another clause.
    fn of(&self, clause: &[u16]) -> Result_ {
        let Asked { deck, query, bars, .. } = self.asked;
        preview(deck, clause, query, bars, self.limits, self.scratch).map_err(Refused::number)
    }

    fn right(&self) -> Result_ {
        self.of(self.asked.clause)
    }

    /// The run over some deck.
    fn run(&self, words: &[u16], rules: Rules) -> Result_ {
        let Asked { query, bars, .. } = self.asked;
        crate::run_with(words, query, bars, self.limits, self.scratch, rules)
    }

    /// The copy that is to be run on, by what the deck's parts are changed to.
    fn changed(&self, change: impl Fn(&mut World, Vec<u16>)) -> Result_ {
        deck::open(self.asked.deck)?;
        let mut world = World::take_apart(self.asked.deck, &[]).expect("a deck that opens hangs together");
        change(&mut world, self.asked.clause.to_vec());
        if world.words() > MOST_WORDS {
            return Err(1);
        }
        self.run(&world.deck(), Rules::RIGHT)
    }

    /// The copy, opened, and the query that is read over it.
    fn opened(&self) -> Result<(Vec<u16>, deck::Deck), u32> {
        deck::open(self.asked.deck)?;
        let copy = lengthened(self.asked.deck, self.asked.clause).ok_or(1u32)?;
        let opened = deck::open(&copy)?;
        Ok((copy, opened))
    }

    /// All of a run's checks, with 13 and 14, and then 15 and 16, asked of other decks than the copy.
    fn checked(&self, tight: &deck::Deck, barred: &deck::Deck) -> Result_ {
        let (_, copy) = self.opened()?;
        let query = query::read(&copy, self.asked.query)?;
        crate::lent(self.limits.store_words, self.scratch)?;
        (Rules::RIGHT.loose)(tight, &query)?;
        let start = Start::fresh(query);
        rights::both(barred, self.asked.bars, &start)?;
        Ok(evaluation::evaluate(&copy, start, self.limits, Cost::None))
    }
}

/// Put right where nothing else is said.
const fn slip(name: &'static str, preview: fn(&Call<'_>) -> Result_) -> Slip {
    Slip { name, preview }
}

pub const SLIPS: [Slip; 18] = [
    slip("the clause is not added", |call| {
        call.right()?;
        call.run(call.asked.deck, Rules::RIGHT)
    }),
    slip("the clause is added at the start", |call| {
        call.changed(|world, clause| world.clauses.insert(0, clause))
    }),
    slip("the clause is added twice", |call| {
        call.changed(|world, clause| world.clauses.extend([clause.clone(), clause]))
    }),
    slip("the clause takes the place of the last one", |call| {
        call.changed(|world, clause| {
            world.clauses.pop();
            world.clauses.push(clause);
        })
    }),
    slip("the deck alone is not checked", |call| {
        let world = World::take_apart(call.asked.deck, &[]);
        let longer = world.map(|world| world.words() + 1 + call.asked.clause.len());
        match longer.is_some_and(|words| words > MOST_WORDS) {
            true => Err(1),
            false => call.right(),
        }
    }),
    slip("an empty clause is let through", |call| match call.asked.clause {
        [] => call.run(call.asked.deck, Rules::RIGHT),
        _ => call.right(),
    }),
    slip("an empty clause is 5", |call| match (call.asked.clause, deck::open(call.asked.deck)) {
        ([], Ok(_)) if call.asked.deck.len() < MOST_WORDS => Err(5),
        _ => call.right(),
    }),
    slip("a copy of 16,385 words is let through", |call| match call.right() {
        Err(1) if call.asked.deck.len() + call.asked.clause.len() == MOST_WORDS && deck::open(call.asked.deck).is_ok() => {
            call.run(call.asked.deck, Rules::RIGHT)
        }
        result => result,
    }),
    slip("a copy of 16,384 words is refused", |call| {
        deck::open(call.asked.deck)?;
        match call.asked.deck.len() + 1 + call.asked.clause.len() >= MOST_WORDS {
            true => Err(1),
            false => call.right(),
        }
    }),
    slip("the copy's length is cut to 16 bits", |call| {
        deck::open(call.asked.deck)?;
        let cells = call.asked.clause.len();
        call.of(&call.asked.clause[..cells % 65_536])
    }),
    slip("an over-long copy is 4", |call| match call.right() {
        Err(1) if deck::open(call.asked.deck).is_ok() => Err(4),
        result => result,
    }),
    slip("257 cells are no clause", |call| match call.right() {
        Err(4) if deck::open(call.asked.deck).is_ok() => Err(5),
        result => result,
    }),
    slip("a clause of 256 cells is refused", |call| match call.right() {
        Ok(_) if call.asked.clause.len() == 256 => Err(4),
        result => result,
    }),
    slip("the query is looked at before the clause", |call| {
        let opened = deck::open(call.asked.deck)?;
        query::read(&opened, call.asked.query)?;
        call.right()
    }),
    slip("13 of the deck alone", |call| {
        let opened = deck::open(call.asked.deck)?;
        let (_, copy) = call.opened()?;
        call.checked(&opened, &copy)
    }),
    slip("16 of the deck alone", |call| {
        let opened = deck::open(call.asked.deck)?;
        let (_, copy) = call.opened()?;
        call.checked(&copy, &opened)
    }),
    slip("the clause is in no row", |call| {
        let (copy, _) = call.opened()?;
        call.run(&copy, Rules { slip: Cost::Tried(index::Slip::LastMissing), ..Rules::RIGHT })
    }),
    slip("rows from 65 clauses without it", |call| {
        let (copy, _) = call.opened()?;
        call.run(&copy, Rules { slip: Cost::Tried(index::Slip::From(66)), ..Rules::RIGHT })
    }),
];
