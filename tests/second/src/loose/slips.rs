//! This evaluator with a slip put into its checks of loose variables, to see that the comparison finds it.

use super::{both, deck as deck_check, loose, query as query_check, refused_unless, Checks};
use crate::deck::{Clause, Deck};
use crate::evaluation::Limits;
use crate::judge::{put, report_of, Engine, Lent, Report};
use crate::query::Query;
use crate::rights::Rules;
use crate::terms::{Applied, Literal, Term};

pub struct Slip {
    pub name: &'static str,
    what: What,
}

enum What {
    /// The two checks are others.
    Checks(Checks),
    /// The number that opening gives.
    Open(fn(&Deck) -> Result<(), u32>),
    /// Checking a query makes other checks than a run.
    Check(Checks),
    /// A run makes these checks before 8 and 9.
    Early(Checks),
    /// A refusal touches something.
    Touch(fn(Lent<'_>, &mut Report)),
}

impl Engine for Slip {
    fn open(&self, deck: &[u16]) -> u32 {
        match self.what {
            What::Open(check) => crate::deck::open(deck).and_then(|deck| check(&deck)),
            _ => crate::deck::open(deck).map(|_| ()),
        }
        .err()
        .unwrap_or(0)
    }

    fn check(&self, deck: &[u16], query: &[u16]) -> u32 {
        let checks = match self.what {
            What::Checks(checks) | What::Check(checks) => checks,
            _ => both,
        };
        crate::checked(deck, query, checks).err().unwrap_or(0)
    }

    fn run(
        &self,
        deck: &[u16],
        query: &[u16],
        bars: &[u16],
        budget: u32,
        lent: Lent<'_>,
        report: &mut Report,
    ) -> u32 {
        let checks = match self.what {
            What::Checks(checks) => checks,
            _ => both,
        };
        if let What::Early(early) = self.what {
            if let Err(number) = crate::checked(deck, query, early) {
                return number;
            }
        }
        let limits = Limits {
            budget,
            answer_words: lent.answers.len(),
            store_words: lent.store.len(),
        };
        let rules = Rules {
            loose: checks,
            ..Rules::RIGHT
        };
        let scratch_words = lent.scratch.len();
        let ran = crate::run_with(deck, query, bars, limits, scratch_words, rules);
        match ran {
            Ok(outcome) => {
                *report = report_of(&outcome);
                put(lent.answers, &outcome.answer_list());
                put(lent.store, &outcome.store_start());
                0
            }
            Err(number) => {
                if let (What::Touch(touch), 13..) = (&self.what, number) {
                    touch(lent, report);
                }
                number
            }
        }
    }
}

const fn slip(name: &'static str, checks: Checks) -> Slip {
    let what = What::Checks(checks);
    Slip { name, what }
}

/// Clauses of which this holds are let through.
fn clauses(deck: &Deck, tight: impl Fn(&Clause) -> bool) -> Result<(), u32> {
    refused_unless(deck.clauses.iter().all(tight), 13)
}

/// Bodies and the query are let through if this holds of their variables' number and their literals.
fn parts(deck: &Deck, query: &Query, tight: impl Fn(usize, &[Literal]) -> bool) -> Result<(), u32> {
    clauses(deck, |clause| tight(clause.variables, &clause.body))?;
    refused_unless(tight(query.variables, &query.literals), 14)
}

fn positive(literal: &Literal) -> Literal {
    Literal {
        negated: false,
        atom: literal.atom.clone(),
    }
}

/// Only those arguments that are variables.
fn outermost(literal: &Literal) -> Literal {
    let arguments = literal.atom.arguments.iter();
    let variables = arguments.filter(|term| matches!(term, Term::Variable(_)));
    Literal {
        negated: literal.negated,
        atom: Applied::new(literal.atom.symbol, variables.cloned().collect()),
    }
}

fn changed(
    variables: usize,
    literals: &[Literal],
    change: impl Fn(&Literal) -> Literal,
) -> Vec<usize> {
    let literals: Vec<Literal> = literals.iter().map(change).collect();
    loose(variables, &literals)
}

pub const SLIPS: [Slip; 27] = [
    slip("the head holds a variable", |deck, query| {
        clauses(deck, |clause| {
            let head = Literal {
                negated: false,
                atom: clause.head.clone(),
            };
            loose(clause.variables, clause.body.iter().chain([&head])).is_empty()
        })?;
        query_check(query)
    }),
    slip(
        "a negated literal of a body holds a variable",
        |deck, query| {
            clauses(deck, |clause| {
                changed(clause.variables, &clause.body, positive).is_empty()
            })?;
            query_check(query)
        },
    ),
    slip(
        "a negated literal of the query holds a variable",
        |deck, query| {
            deck_check(deck)?;
            let loose = changed(query.variables, &query.literals, positive);
            refused_unless(loose.is_empty(), 14)
        },
    ),
    slip("a term inside holds nothing", |deck, query| {
        parts(deck, query, |variables, literals| {
            changed(variables, literals, outermost).is_empty()
        })
    }),
    slip("the last variable is not looked at", |deck, query| {
        parts(deck, query, |variables, literals| {
            let loose = loose(variables, literals);
            loose.iter().all(|number| number + 1 == variables)
        })
    }),
    slip("the first variable is not looked at", |deck, query| {
        parts(deck, query, |variables, literals| {
            loose(variables, literals).iter().all(|number| *number == 0)
        })
    }),
    slip("variables from 32 on are not looked at", |deck, query| {
        parts(deck, query, |variables, literals| {
            loose(variables, literals)
                .iter()
                .all(|number| *number >= 32)
        })
    }),
    slip(
        "variables from 64 on count as the one 64 below",
        |deck, query| {
            parts(deck, query, |variables, literals| {
                let loose = loose(variables, literals);
                let held = |number: usize| number < variables && !loose.contains(&number);
                let same = |number: usize| (number % 64..variables).step_by(64).any(held);
                loose.iter().all(|number| same(*number))
            })
        },
    ),
    slip("the last clause is not looked at", |deck, query| {
        let most = deck.clauses.len().saturating_sub(1);
        refused_unless(deck.clauses[..most].iter().all(Clause::is_tight), 13)?;
        query_check(query)
    }),
    slip("the first clause is not looked at", |deck, query| {
        refused_unless(deck.clauses.iter().skip(1).all(Clause::is_tight), 13)?;
        query_check(query)
    }),
    slip("only the first clause is looked at", |deck, query| {
        refused_unless(deck.clauses.iter().take(1).all(Clause::is_tight), 13)?;
        query_check(query)
    }),
    slip("facts are not looked at", |deck, query| {
        clauses(deck, |clause| clause.body.is_empty() || clause.is_tight())?;
        query_check(query)
    }),
    slip(
        "only clauses that the query names are looked at",
        |deck, query| {
            let named = |clause: &Clause| {
                let symbols = query.literals.iter().map(|literal| literal.atom.symbol);
                symbols
                    .into_iter()
                    .any(|symbol| symbol == clause.head.symbol)
            };
            clauses(deck, |clause| !named(clause) || clause.is_tight())?;
            query_check(query)
        },
    ),
    slip("a body's first literal alone holds", |deck, query| {
        clauses(deck, |clause| {
            loose(clause.variables, clause.body.first()).is_empty()
        })?;
        query_check(query)
    }),
    slip("the last literal holds nothing", |deck, query| {
        parts(deck, query, |variables, literals| {
            let most = literals.len().saturating_sub(1);
            loose(variables, &literals[..most]).is_empty()
        })
    }),
    slip("one positive literal holds all", |deck, query| {
        parts(deck, query, |variables, literals| {
            variables == 0 || literals.iter().any(|literal| !literal.negated)
        })
    }),
    slip("the empty query is let through", |deck, query| {
        if query.literals.is_empty() {
            return Ok(());
        }
        both(deck, query)
    }),
    slip("13 is not given", |_, query| query_check(query)),
    slip("14 is not given", |deck, _| deck_check(deck)),
    slip("14 before 13", |deck, query| {
        query_check(query)?;
        deck_check(deck)
    }),
    Slip {
        name: "opening gives 13",
        what: What::Open(deck_check),
    },
    Slip {
        name: "checking a query gives no 13",
        what: What::Check(|_, query| query_check(query)),
    },
    Slip {
        name: "checking a query gives no 14",
        what: What::Check(|deck, _| deck_check(deck)),
    },
    Slip {
        name: "13 before 8",
        what: What::Early(|deck, _| deck_check(deck)),
    },
    Slip {
        name: "14 before 9",
        what: What::Early(|deck, query| match deck_check(deck) {
            Ok(()) => query_check(query),
            Err(_) => Ok(()),
        }),
    },
    Slip {
        name: "the scratch is written before 13",
        what: What::Touch(|lent, _| lent.scratch[0] ^= 1),
    },
    Slip {
        name: "the store is written before 14",
        what: What::Touch(|lent, _| lent.store[0] ^= 1),
    },
];
