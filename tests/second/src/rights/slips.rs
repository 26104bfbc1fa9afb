//! This evaluator with a slip put into its checks of a member's rights, to see that the comparison finds it.

use super::{both, leading, list, reach, Checks, Rules};
use crate::carry::{self, Given};
use crate::deck::{self, Deck};
use crate::evaluation::{Limits, Outcome, Start};
use crate::judge::{put, report_of, Engine, Lent, Report};
use crate::loose;
use crate::reader::Symbol;
use crate::terms::Literal;

pub struct Slip {
    pub name: &'static str,
    what: What,
    /// It can't show in a fresh run.
    pub continued_only: bool,
}

enum What {
    /// The two checks are others.
    Checks(Checks),
    /// They are made before 13 and 14.
    Early,
    /// A clause about a barred predicate may have loose variables.
    BarredLoose,
    /// A refusal touches something.
    Touch(fn(Lent<'_>)),
}

/// Only clauses about barred predicates have loose variables.
fn only_barred_loose(words: &[u16], bars: &[u16]) -> bool {
    let tight = |deck: Deck| {
        let mut clauses = deck.clauses.iter();
        let barred = |symbol: u16| bars.get(symbol as usize) == Some(&1);
        clauses.all(|clause| barred(clause.head.symbol) || clause.is_tight())
    };
    deck::open(words).is_ok_and(tight)
}

impl Slip {
    fn rules(&self, deck: &[u16], bars: &[u16]) -> Rules {
        match self.what {
            What::Checks(rights) => Rules {
                rights,
                ..Rules::RIGHT
            },
            What::BarredLoose if only_barred_loose(deck, bars) => Rules {
                loose: |_, query| loose::query(query),
                loose_clauses: |_| Ok(()),
                ..Rules::RIGHT
            },
            _ => Rules::RIGHT,
        }
    }

    /// The result as it is told; `ran` is the evaluation by such rules.
    fn tell(
        &self,
        ran: impl Fn(Rules) -> Result<Outcome, u32>,
        rules: Rules,
        lent: Lent<'_>,
        report: &mut Report,
    ) -> u32 {
        let early = Rules {
            loose: |_, _| Ok(()),
            loose_clauses: |_| Ok(()),
            ..Rules::RIGHT
        };
        if let (What::Early, Err(number @ 15..)) = (&self.what, ran(early)) {
            return number;
        }
        match ran(rules) {
            Ok(outcome) => {
                *report = report_of(&outcome);
                put(lent.answers, &outcome.answer_list());
                put(lent.store, &outcome.store_start());
                0
            }
            Err(number) => {
                if let (What::Touch(touch), 15..) = (&self.what, number) {
                    touch(lent);
                }
                number
            }
        }
    }
}

impl Engine for Slip {
    fn open(&self, deck: &[u16]) -> u32 {
        crate::open(deck)
    }

    fn check(&self, deck: &[u16], query: &[u16]) -> u32 {
        crate::check(deck, query)
    }

    fn run(
        &self,
        deck: &[u16],
        query: &[u16],
        bars: &[u16],
        budget: u32,
        lent: Lent<'_>,
        report: &mut Report,
    ) -> u32 {
        let limits = Limits {
            budget,
            answer_words: lent.answers.len(),
            store_words: lent.store.len(),
        };
        let scratch_words = lent.scratch.len();
        let ran = |rules| crate::run_with(deck, query, bars, limits, scratch_words, rules);
        self.tell(ran, self.rules(deck, bars), lent, report)
    }
}

impl carry::judge::Engine for Slip {
    fn carry_on(
        &self,
        deck: &[u16],
        given: Given,
        bars: &[u16],
        budget: u32,
        lent: Lent<'_>,
        report: &mut Report,
    ) -> u32 {
        let sizes = (lent.answers.len(), lent.scratch.len());
        let store = lent.store.to_vec();
        let ran = |rules| {
            let ran = carry::carry_with(deck, &store, given, bars, budget, sizes, rules);
            ran.map_err(carry::Refused::number)
        };
        self.tell(ran, self.rules(deck, bars), lent, report)
    }
}

const fn of(name: &'static str, what: What) -> Slip {
    let continued_only = false;
    Slip {
        name,
        what,
        continued_only,
    }
}

const fn slip(name: &'static str, checks: Checks) -> Slip {
    of(name, What::Checks(checks))
}

const fn continued(name: &'static str, checks: Checks) -> Slip {
    Slip {
        continued_only: true,
        ..of(name, What::Checks(checks))
    }
}

/// 15 unless this holds, then 16.
fn lists(deck: &Deck, bars: &[u16], start: &Start, right: bool) -> Result<(), u32> {
    right.then_some(()).ok_or(15u32)?;
    reach(deck, bars, start.literals())
}

fn words_fit(deck: &Deck, bars: &[u16]) -> bool {
    let mut words = deck.symbols.iter().zip(bars);
    words.all(|(symbol, bar)| *bar <= u16::from(symbol.predicate))
}

/// The check with this word in place of one of the list.
fn with_0(deck: &Deck, bars: &[u16], start: &Start, at: usize) -> Result<(), u32> {
    let mut bars = bars.to_vec();
    if let Some(word) = bars.get_mut(at) {
        *word = 0;
    }
    both(deck, &bars, start)
}

/// 15, then 16 of the predicates that are named in so many steps, through these clauses and these literals of their bodies.
fn followed(
    deck: &Deck,
    bars: &[u16],
    start: &Start,
    steps: usize,
    clause: impl Fn(usize) -> bool,
    literal: impl Fn(&Literal) -> bool,
) -> Result<(), u32> {
    list(deck, bars)?;
    let mut named = vec![false; deck.symbols.len()];
    let mut now: Vec<u16> = start.literals().map(|one| one.atom.symbol).collect();
    for _ in 0..=steps {
        let mut next = Vec::new();
        for symbol in now {
            if !std::mem::replace(&mut named[symbol as usize], true) {
                let about = deck.about[symbol as usize].iter();
                let bodies = about
                    .filter(|number| clause(**number))
                    .flat_map(|number| &deck.clauses[*number].body);
                let literals = bodies.filter(|one| literal(one));
                next.extend(literals.map(|one| one.atom.symbol));
            }
        }
        now = next;
        if now.is_empty() {
            break;
        }
    }
    let shut = (0..bars.len()).any(|at| named[at] && bars[at] == 1);
    (!shut).then_some(()).ok_or(16)
}

/// More steps than there are predicates.
const FAR: usize = 5_000;

pub const SLIPS: [Slip; 37] = [
    slip("15 and 16 are not given", |_, _, _| Ok(())),
    slip("15 is not given", |deck, bars, start| {
        reach(deck, bars, start.literals())
    }),
    slip("16 is not given", |deck, bars, _| list(deck, bars)),
    slip("16 before 15", |deck, bars, start| {
        reach(deck, bars, start.literals())?;
        list(deck, bars)
    }),
    slip(
        "a list one word too long is let through",
        |deck, bars, start| {
            let right = (0..2).contains(&bars.len().wrapping_sub(deck.symbols.len()));
            lists(deck, bars, start, right && words_fit(deck, bars))
        },
    ),
    slip(
        "a list one word too short is let through",
        |deck, bars, start| {
            let right = (0..2).contains(&deck.symbols.len().wrapping_sub(bars.len()));
            lists(deck, bars, start, right && words_fit(deck, bars))
        },
    ),
    slip(
        "an empty list bars nothing",
        |deck, bars, start| match bars {
            [] => Ok(()),
            _ => both(deck, bars, start),
        },
    ),
    slip("a longer list is cut", |deck, bars, start| {
        let most = bars.len().min(deck.symbols.len());
        both(deck, &bars[..most], start)
    }),
    slip("a 1 at a functor is let through", |deck, bars, start| {
        let right = bars.len() == deck.symbols.len() && bars.iter().all(|bar| *bar <= 1);
        lists(deck, bars, start, right)
    }),
    slip("a 1 at a number is let through", |deck, bars, start| {
        let mut words = deck.symbols.iter().zip(bars);
        let most = |symbol: &Symbol| u16::from(symbol.predicate || symbol.value.is_some());
        let right = words.all(|(symbol, bar)| *bar <= most(symbol));
        lists(deck, bars, start, right && bars.len() == deck.symbols.len())
    }),
    slip("two words a symbol in format 2", |deck, bars, start| {
        let words = deck.format as usize * deck.symbols.len();
        lists(deck, bars, start, bars.len() == words && words_fit(deck, bars))
    }),
    slip("two words a symbol are let through in format 2", |deck, bars, start| {
        let right = deck.format == 2 && bars.len() == 2 * deck.symbols.len();
        let most = bars.len() / if right { 2 } else { 1 };
        both(deck, &bars[..most], start)
    }),
    slip("a 2 is let through", |deck, bars, start| {
        let most = |predicate: bool| if predicate { 2 } else { 0 };
        let mut words = deck.symbols.iter().zip(bars);
        let right = words.all(|(symbol, bar)| *bar <= most(symbol.predicate));
        lists(deck, bars, start, right && bars.len() == deck.symbols.len())
    }),
    slip("each word but 0 bars", |deck, bars, start| {
        let ones: Vec<u16> = bars.iter().map(|bar| (*bar).min(1)).collect();
        both(deck, &ones, start)
    }),
    slip("a word is cut to a byte", |deck, bars, start| {
        let bytes: Vec<u16> = bars.iter().map(|bar| bar % 256).collect();
        both(deck, &bytes, start)
    }),
    slip("the first word is not looked at", |deck, bars, start| {
        with_0(deck, bars, start, 0)
    }),
    slip("the last word is not looked at", |deck, bars, start| {
        with_0(deck, bars, start, bars.len().wrapping_sub(1))
    }),
    slip(
        "15 is not given without literals",
        |deck, bars, start| match start.literals().next() {
            None => Ok(()),
            Some(_) => both(deck, bars, start),
        },
    ),
    slip("a barred predicate anywhere is refused", |deck, bars, _| {
        list(deck, bars)?;
        (!bars.contains(&1)).then_some(()).ok_or(16)
    }),
    slip(
        "reach through positive literals only",
        |deck, bars, start| followed(deck, bars, start, FAR, |_| true, |literal| !literal.negated),
    ),
    slip(
        "reach through negated literals only",
        |deck, bars, start| followed(deck, bars, start, FAR, |_| true, |literal| literal.negated),
    ),
    slip("reach of one step only", |deck, bars, start| {
        followed(deck, bars, start, 1, |_| true, |_| true)
    }),
    slip("reach of two steps only", |deck, bars, start| {
        followed(deck, bars, start, 2, |_| true, |_| true)
    }),
    slip("bodies are not followed", |deck, bars, start| {
        followed(deck, bars, start, 0, |_| true, |_| true)
    }),
    slip(
        "the start's own predicates are not looked at",
        |deck, bars, start| {
            list(deck, bars)?;
            let shut = leading(deck, bars);
            let named = start.literals().map(|one| one.atom.symbol as usize);
            let clauses = named.flat_map(|symbol| &deck.about[symbol]);
            let mut bodies = clauses.flat_map(|number| &deck.clauses[*number].body);
            let right = !bodies.any(|one| shut[one.atom.symbol as usize]);
            right.then_some(()).ok_or(16)
        },
    ),
    slip(
        "negated literals of the start are not looked at",
        |deck, bars, start| {
            list(deck, bars)?;
            reach(deck, bars, start.literals().filter(|one| !one.negated))
        },
    ),
    slip(
        "the last literal of a goal is not looked at",
        |deck, bars, start| {
            list(deck, bars)?;
            let parked = start.parked.iter().map(|(goal, _)| goal);
            let goals = start.pending.iter().chain(parked);
            let front = goals.flat_map(|goal| goal.literals.iter().rev().skip(1));
            reach(deck, bars, front)
        },
    ),
    slip("the last clause is not followed", |deck, bars, start| {
        let last = deck.clauses.len().wrapping_sub(1);
        followed(deck, bars, start, FAR, |number| number != last, |_| true)
    }),
    slip(
        "only the first clause about a predicate is followed",
        |deck, bars, start| {
            let first =
                |number: usize| deck.about[deck.clauses[number].head.symbol as usize][0] == number;
            followed(deck, bars, start, FAR, first, |_| true)
        },
    ),
    slip(
        "the clauses are gone through in deck order once",
        |deck, bars, start| {
            list(deck, bars)?;
            let mut named = vec![false; deck.symbols.len()];
            for one in start.literals() {
                named[one.atom.symbol as usize] = true;
            }
            for clause in &deck.clauses {
                if named[clause.head.symbol as usize] {
                    for one in &clause.body {
                        named[one.atom.symbol as usize] = true;
                    }
                }
            }
            let shut = (0..bars.len()).any(|at| named[at] && bars[at] == 1);
            (!shut).then_some(()).ok_or(16)
        },
    ),
    continued(
        "parked goals' literals are not looked at",
        |deck, bars, start| {
            list(deck, bars)?;
            let pending = start.pending.iter();
            reach(deck, bars, pending.flat_map(|goal| &goal.literals))
        },
    ),
    continued(
        "pending goals' literals are not looked at",
        |deck, bars, start| {
            list(deck, bars)?;
            let parked = start.parked.iter();
            reach(deck, bars, parked.flat_map(|(goal, _)| &goal.literals))
        },
    ),
    continued("only the first goal is looked at", |deck, bars, start| {
        list(deck, bars)?;
        let parked = start.parked.iter().map(|(goal, _)| goal);
        let first = start.pending.iter().chain(parked).take(1);
        reach(deck, bars, first.flat_map(|goal| &goal.literals))
    }),
    of("15 and 16 before 13", What::Early),
    of(
        "a loose clause about a barred predicate is let through",
        What::BarredLoose,
    ),
    of(
        "the scratch is written before 15",
        What::Touch(|lent| lent.scratch[0] ^= 1),
    ),
    of(
        "the store is written before 16",
        What::Touch(|lent| lent.store[0] ^= 1),
    ),
];
