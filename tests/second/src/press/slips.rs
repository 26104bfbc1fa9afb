//! This evaluator with a slip put in, to see that the comparison finds it.

use super::judge::{tell, Engine};
use super::{press_with, Record, STEPPED};
use crate::carry::Given;
use crate::judge::{Lent, Report, Second};
use crate::rights::{self, no_bars, Checks, Rules};

/// What goes into a call.
struct Call<'a> {
    deck: &'a [u16],
    terms: u64,
    bars: Vec<u16>,
    budget: u32,
    lent: Lent<'a>,
    outcome: &'a mut u32,
    record: &'a mut Record,
}

pub struct Slip {
    pub name: &'static str,
    press: fn(Call<'_>) -> u32,
}

impl crate::judge::Engine for Slip {
    fn open(&self, deck: &[u16]) -> u32 {
        crate::open(deck)
    }

    fn check(&self, deck: &[u16], query: &[u16]) -> u32 {
        crate::check(deck, query)
    }

    fn run(
        &self,
        deck: &[u16],
        query: &[u16],
        bars: &[u16],
        budget: u32,
        lent: Lent<'_>,
        report: &mut Report,
    ) -> u32 {
        crate::judge::Engine::run(&Second, deck, query, bars, budget, lent, report)
    }
}

impl crate::carry::judge::Engine for Slip {
    fn carry_on(
        &self,
        deck: &[u16],
        given: Given,
        bars: &[u16],
        budget: u32,
        lent: Lent<'_>,
        report: &mut Report,
    ) -> u32 {
        crate::carry::judge::Engine::carry_on(&Second, deck, given, bars, budget, lent, report)
    }
}

impl Engine for Slip {
    fn press(
        &self,
        deck: &[u16],
        terms: u64,
        bars: &[u16],
        budget: u32,
        lent: Lent<'_>,
        outcome: &mut u32,
        record: &mut Record,
    ) -> u32 {
        (self.press)(Call {
            deck,
            terms,
            bars: bars.to_vec(),
            budget,
            lent,
            outcome,
            record,
        })
    }
}

impl Call<'_> {
    /// As it should be.
    fn right(&mut self) -> u32 {
        self.by(rights::both)
    }

    /// With such checks of the member's rights.
    fn by(&mut self, rights: Checks) -> u32 {
        let (answers, scratch) = (self.lent.answers.len(), self.lent.scratch.len());
        let rules = Rules {
            rights,
            ..Rules::RIGHT
        };
        let pressed = press_with(
            self.deck,
            self.lent.store,
            self.record.given(self.terms),
            &self.bars,
            self.budget,
            (answers, scratch),
            rules,
        );
        let lent = Lent {
            answers: &mut *self.lent.answers,
            store: &mut *self.lent.store,
            scratch: &mut *self.lent.scratch,
        };
        tell(pressed, lent, self.outcome, self.record)
    }

    /// With nothing barred.
    fn openly(&mut self) -> u32 {
        self.bars = no_bars(self.deck);
        self.right()
    }

    /// Where it is let through: the record before, and the call after.
    fn after(&mut self, change: impl Fn(&mut Call<'_>, Record)) -> u32 {
        let before = *self.record;
        let number = self.right();
        if number == 0 {
            change(self, before);
        }
        number
    }

    /// The same where the press was cut short.
    fn cut(&mut self, change: impl Fn(&mut Call<'_>, Record)) -> u32 {
        self.after(|call, before| {
            if (1..STEPPED).contains(call.outcome) {
                change(call, before);
            }
        })
    }

    /// The same on a finished query.
    fn finished(&mut self, change: impl Fn(&mut Call<'_>, Record)) -> u32 {
        self.after(|call, before| {
            if *call.outcome == 0 {
                change(call, before);
            }
        })
    }
}

const fn slip(name: &'static str, press: fn(Call<'_>) -> u32) -> Slip {
    Slip { name, press }
}

/// A sum as it should be, but for its greatest value.
fn instead(before: u64, after: u64, other: fn(u64, u64) -> u64) -> u64 {
    if after == u64::MAX {
        other(before, after)
    } else {
        after
    }
}

pub const SLIPS: [Slip; 36] = [
    slip("a press cut short parks the goal", |mut call| {
        call.cut(|call, _| {
            if call.record.pending > 0 {
                call.record.pending -= 1;
                call.record.parked += 1;
            }
        })
    }),
    slip("a press cut short changes the goal", |mut call| {
        call.cut(|call, _| call.lent.store[0] ^= 1)
    }),
    slip("the steps of a press cut short are not added", |mut call| {
        call.cut(|call, before| call.record.steps = before.steps)
    }),
    slip("the cost of a press cut short is not added", |mut call| {
        call.cut(|call, before| call.record.cost = before.cost)
    }),
    slip("a press cut short counts its step", |mut call| {
        call.cut(|call, _| call.record.steps = call.record.steps.saturating_add(1))
    }),
    slip("steps wrap", |mut call| {
        call.after(|call, before| call.record.steps = instead(before.steps, call.record.steps, |before, _| before.wrapping_add(1)))
    }),
    slip("cost wraps", |mut call| {
        call.after(|call, before| call.record.cost = instead(before.cost, call.record.cost, |before, _| before.wrapping_add(1)))
    }),
    slip("answers wrap", |mut call| {
        call.after(|call, before| call.record.answers = instead(before.answers, call.record.answers, |before, _| before.wrapping_add(1)))
    }),
    slip("the greatest value is one less", |mut call| {
        call.after(|call, _| call.record.steps = call.record.steps.min(u64::MAX - 1))
    }),
    slip("counts stay at 32 bits", |mut call| {
        call.after(|call, _| call.record.cost = call.record.cost.min(u32::MAX as u64))
    }),
    slip("an answer goes behind the first words", |mut call| {
        call.after(|call, before| {
            if call.record.answers > before.answers {
                call.lent.answers.rotate_right(1);
            }
        })
    }),
    slip("a word after the answer is cleared", |mut call| {
        call.after(|call, before| {
            if call.record.answers > before.answers {
                let words = (call.lent.answers[0] % 4_096) as usize;
                if let Some(word) = call.lent.answers.get_mut(words) {
                    *word = 0;
                }
            }
        })
    }),
    slip("two steps in one press", |mut call| {
        let number = call.right();
        if number == 0 && *call.outcome == STEPPED && call.record.pending > 0 {
            call.right();
        }
        number
    }),
    slip("the last step says finished", |mut call| {
        call.after(|call, _| {
            if call.record.pending == 0 {
                *call.outcome = 0;
            }
        })
    }),
    slip("a press on a finished query counts a step", |mut call| {
        call.finished(|call, _| call.record.steps = call.record.steps.saturating_add(1))
    }),
    slip("a press on a finished query sets the counts to 0", |mut call| {
        call.finished(|call, _| call.record.steps = 0)
    }),
    slip("a press on a finished query says budget", |mut call| {
        call.finished(|call, _| *call.outcome = (call.budget == 0) as u32)
    }),
    slip("a press on a finished query clears the store's end", |mut call| {
        call.finished(|call, _| {
            if let Some(word) = call.lent.store.last_mut() {
                *word ^= 1;
            }
        })
    }),
    slip("a press on a finished query uses the scratch", |mut call| {
        call.finished(|call, _| call.lent.scratch[0] ^= 1)
    }),
    slip("pending is added", |mut call| {
        call.after(|call, before| call.record.pending = call.record.pending.saturating_add(before.pending))
    }),
    slip("parked is added", |mut call| {
        call.after(|call, before| call.record.parked = call.record.parked.saturating_add(before.parked))
    }),
    slip("the record is cleared by a refusal", |mut call| {
        let number = call.right();
        if number != 0 {
            *call.record = Record::default();
        }
        number
    }),
    slip("a finished query is not checked", |mut call| {
        let number = call.right();
        if number == 12 && call.record.pending == 0 {
            *call.outcome = 0;
            return 0;
        }
        number
    }),
    slip("13 is not given to a finished query", |mut call| {
        let number = call.right();
        if number == 13 && call.record.pending == 0 {
            *call.outcome = 0;
            return 0;
        }
        number
    }),
    slip("the budget is a step", |mut call| {
        call.budget = call.budget.max(1);
        call.right()
    }),
    slip("the pending count is cut to 32 bits", |mut call| {
        call.record.pending &= u32::MAX as u64;
        call.right()
    }),
    slip("a press is given another list, which bars nothing", |mut call| call.openly()),
    slip("a press with a wrong list is let through", |mut call| match call.right() {
        15 => call.openly(),
        number => number,
    }),
    slip("a press that reaches what is barred is let through", |mut call| match call.right() {
        16 => call.openly(),
        number => number,
    }),
    slip("the list of a finished query is not looked at", |mut call| match call.right() {
        15 | 16 if call.record.pending == 0 => call.openly(),
        number => number,
    }),
    slip("of the parked goals a press asks no rights", |mut call| {
        call.by(|deck, bars, start| {
            rights::list(deck, bars)?;
            let literals = start.pending.iter().flat_map(|goal| &goal.literals);
            rights::reach(deck, bars, literals)
        })
    }),
    slip("a press asks rights of the goal it works on alone", |mut call| {
        call.by(|deck, bars, start| {
            rights::list(deck, bars)?;
            let literals = start.pending.iter().take(1).flat_map(|goal| &goal.literals);
            rights::reach(deck, bars, literals)
        })
    }),
    slip("a press refuses a barred predicate that is not reached", |mut call| {
        let barred = call.bars.contains(&1);
        match call.by(|_, _, _| Err(16)) {
            16 if barred => 16,
            _ => call.right(),
        }
    }),
    slip("15 before 13 in a press", |mut call| match call.right() {
        13 if call.bars.len() != no_bars(call.deck).len() => 15,
        number => number,
    }),
    slip("the goals' counts are cleared by 16", |mut call| {
        let number = call.right();
        if number == 16 {
            (call.record.pending, call.record.parked) = (0, 0);
        }
        number
    }),
    slip("the outcome is written by 16", |mut call| {
        let number = call.right();
        if number == 16 {
            *call.outcome = 0;
        }
        number
    }),
];
