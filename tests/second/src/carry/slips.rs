//! This evaluator with a slip put in, to see that the comparison finds it.

use super::judge::Engine;
use super::{CarryCase, Given};
use crate::judge::{Lent, Report, Second};
use crate::world::renumber;

/// What goes into a call.
struct Call<'a> {
    deck: &'a [u16],
    given: Given,
    bars: &'a [u16],
    budget: u32,
    lent: Lent<'a>,
    report: &'a mut Report,
}

pub struct Slip {
    pub name: &'static str,
    carry_on: fn(Call<'_>) -> u32,
}

impl crate::judge::Engine for Slip {
    fn open(&self, deck: &[u16]) -> u32 {
        crate::open(deck)
    }

    fn check(&self, deck: &[u16], query: &[u16]) -> u32 {
        crate::check(deck, query)
    }

    fn run(
        &self,
        deck: &[u16],
        query: &[u16],
        bars: &[u16],
        budget: u32,
        lent: Lent<'_>,
        report: &mut Report,
    ) -> u32 {
        crate::judge::Engine::run(&Second, deck, query, bars, budget, lent, report)
    }
}

impl Engine for Slip {
    fn carry_on(
        &self,
        deck: &[u16],
        given: Given,
        bars: &[u16],
        budget: u32,
        lent: Lent<'_>,
        report: &mut Report,
    ) -> u32 {
        (self.carry_on)(Call {
            deck,
            given,
            bars,
            budget,
            lent,
            report,
        })
    }
}

impl Call<'_> {
    /// As it should be.
    fn right(&mut self) -> u32 {
        let lent = Lent {
            answers: &mut *self.lent.answers,
            store: &mut *self.lent.store,
            scratch: &mut *self.lent.scratch,
        };
        Second.carry_on(
            self.deck,
            self.given,
            self.bars,
            self.budget,
            lent,
            self.report,
        )
    }

    fn case(&self) -> CarryCase {
        CarryCase {
            name: String::new(),
            deck: self.deck.to_vec(),
            store: self.lent.store.to_vec(),
            given: self.given,
            bars: self.bars.to_vec(),
            budget: self.budget,
            answer_words: self.lent.answers.len(),
            scratch_words: self.lent.scratch.len(),
        }
    }

    /// The refusal's number as it should be; nothing is touched.
    fn number(&self) -> u32 {
        self.case()
            .run()
            .err()
            .map_or(0, |refused| refused.number())
    }

    /// The deck opens, and a clause of it has a loose variable.
    fn loose(&self) -> bool {
        let deck = crate::deck::open(self.deck);
        deck.is_ok_and(|deck| crate::loose::deck(&deck).is_err())
    }

    /// Where the goals are refused, those of another store and other numbers are taken instead, if they are right.
    fn instead(&mut self, mend: impl Fn(&mut CarryCase)) -> u32 {
        if self.number() == 12 {
            let mut mended = self.case();
            mend(&mut mended);
            if mended.store.len() == self.lent.store.len() && mended.run().is_ok() {
                self.lent.store.copy_from_slice(&mended.store);
                self.given = mended.given;
            }
        }
        self.right()
    }

    /// The same for each goal: its words and whether it is pending.
    fn goals_instead(&mut self, mend: fn(&mut [u16], bool)) -> u32 {
        self.instead(|case| {
            let mut at = 0;
            for (number, length) in case.lengths().into_iter().enumerate() {
                if let Some(goal) = case.store.get_mut(at..at + length) {
                    mend(goal, (number as u64) < case.given.pending);
                }
                at += length;
            }
        })
    }

    /// Where all is right.
    fn after(&mut self, change: impl Fn(&mut Lent<'_>, &mut Report)) -> u32 {
        let number = self.right();
        if number == 0 {
            change(&mut self.lent, self.report);
        }
        number
    }
}

const fn slip(name: &'static str, carry_on: fn(Call<'_>) -> u32) -> Slip {
    Slip { name, carry_on }
}

/// The goals at the start of a store, each as its words.
fn goals(store: &[u16], number: usize) -> Vec<Vec<u16>> {
    let mut rest = store;
    let mut list = Vec::new();
    for _ in 0..number {
        let (goal, after) = rest.split_at((rest[0] % 4_096) as usize);
        list.push(goal.to_vec());
        rest = after;
    }
    list
}

pub const SLIPS: [Slip; 50] = [
    slip("a parked goal is resumed", |mut call| {
        if call.number() == 0 && call.given.parked > 0 {
            let from: usize = call.case().lengths()[..call.given.pending as usize]
                .iter()
                .sum();
            call.lent.store[from] %= 4_096;
            (call.given.pending, call.given.parked) =
                (call.given.pending + 1, call.given.parked - 1);
        }
        call.right()
    }),
    slip("pending and parked counts are exchanged", |mut call| {
        (call.given.pending, call.given.parked) = (call.given.parked, call.given.pending);
        call.right()
    }),
    slip(
        "pending and parked counts are exchanged in the result",
        |mut call| {
            call.after(|_, report| {
                (report.pending, report.parked) = (report.parked, report.pending);
            })
        },
    ),
    slip("parked goals stand before pending ones", |mut call| {
        call.after(|lent, report| {
            let mut all = goals(lent.store, (report.pending + report.parked) as usize);
            all.rotate_left(report.pending as usize);
            let words = all.concat();
            lent.store[..words.len()].copy_from_slice(&words);
        })
    }),
    slip("pending goals are resumed from the last", |mut call| {
        if call.number() == 0 {
            let mut all = goals(call.lent.store, call.given.pending as usize);
            all.reverse();
            let words = all.concat();
            call.lent.store[..words.len()].copy_from_slice(&words);
        }
        call.right()
    }),
    slip("the pending goals left are mirrored", |mut call| {
        call.after(|lent, report| {
            let mut all = goals(lent.store, report.pending as usize);
            all.reverse();
            let words = all.concat();
            lent.store[..words.len()].copy_from_slice(&words);
        })
    }),
    slip(
        "new parked goals stand before the given ones",
        |mut call| {
            let given = call.given.parked as usize;
            call.after(|lent, report| {
                let (pending, parked) = (report.pending as usize, report.parked as usize);
                let mut all = goals(lent.store, pending + parked);
                all[pending..].rotate_left(given);
                let words = all.concat();
                lent.store[..words.len()].copy_from_slice(&words);
            })
        },
    ),
    slip("given parked goals are dropped", |mut call| {
        if call.number() == 0 {
            call.given.parked = 0;
        }
        call.right()
    }),
    slip("given parked goals are marked anew", |mut call| {
        call.after(|lent, report| {
            let mut at = 0;
            for number in 0..report.pending + report.parked {
                if number >= report.pending {
                    lent.store[at] = lent.store[at] % 4_096 + 4_096;
                }
                at += (lent.store[at] % 4_096) as usize;
            }
        })
    }),
    slip("given parked goals are not held", |mut call| {
        let mut case = call.case();
        let words = case.words();
        let from = case
            .lengths()
            .iter()
            .take(call.given.pending as usize)
            .sum();
        let parked = words - words.min(from);
        case.store
            .resize((case.store.len() + parked).min(65_535), 0);
        match (call.number(), case.run()) {
            (0, Ok(outcome)) if outcome.store_start().len() <= call.lent.store.len() => {
                *call.report = crate::judge::report_of(&outcome);
                crate::judge::put(call.lent.answers, &outcome.answer_list());
                crate::judge::put(call.lent.store, &outcome.store_start());
                0
            }
            _ => call.right(),
        }
    }),
    slip("12 is not given", |mut call| match call.right() {
        12 => 0,
        number => number,
    }),
    slip("a mark of 5 is let through", |mut call| {
        call.goals_instead(|goal, _| {
            if goal[0] / 4_096 == 5 {
                goal[0] -= 4_096;
            }
        })
    }),
    slip("marks over 7 are cut", |mut call| {
        call.goals_instead(|goal, _| goal[0] %= 32_768)
    }),
    slip("a parked goal marked 0 is let through", |mut call| {
        call.goals_instead(|goal, pending| {
            if !pending && goal[0] < 4_096 {
                goal[0] += 4_096;
            }
        })
    }),
    slip(
        "a pending goal that is marked is let through",
        |mut call| {
            call.goals_instead(|goal, pending| {
                if pending {
                    goal[0] %= 4_096;
                }
            })
        },
    ),
    slip("misnumbered goals are let through", |mut call| {
        call.goals_instead(|goal, _| renumber(&mut goal[2..]))
    }),
    slip("misnumbered literals are let through", |mut call| {
        call.goals_instead(|goal, _| {
            let from = (2 + goal[1] as usize).min(goal.len());
            let answer = goal[2..from].to_vec();
            renumber(&mut goal[2..]);
            goal[2..from].copy_from_slice(&answer);
        })
    }),
    slip("parked goals may be misnumbered", |mut call| {
        call.goals_instead(|goal, pending| {
            if !pending {
                renumber(&mut goal[2..]);
            }
        })
    }),
    slip("a goal of 1,025 words is let through", |mut call| {
        call.instead(|case| {
            let lengths = case.lengths();
            if let Some(number) = lengths.iter().position(|length| *length == 1_025) {
                let at: usize = lengths[..number].iter().sum();
                if at + 1_025 <= case.store.len() {
                    case.store[at] -= 1;
                    case.store.remove(at + 1_024);
                    case.store.push(0);
                }
            }
        })
    }),
    slip("a goal of 1,024 words is refused", |mut call| {
        if call.number() == 0 && call.case().lengths().contains(&1_024) {
            return 12;
        }
        call.right()
    }),
    slip("a parked goal of 1,024 words is refused", |mut call| {
        let parked = call
            .case()
            .lengths()
            .into_iter()
            .skip(call.given.pending as usize);
        if call.number() == 0 && parked.into_iter().any(|length| length == 1_024) {
            return 12;
        }
        call.right()
    }),
    slip("goals that fill the store are refused", |mut call| {
        if call.number() == 0 && call.case().words() == call.lent.store.len() {
            return 12;
        }
        call.right()
    }),
    slip("the number of answer terms is not compared", |mut call| {
        let terms = (0..25).find(|terms| {
            let mut case = call.case();
            case.given.terms = *terms;
            case.run().is_ok()
        });
        call.instead(|case| case.given.terms = terms.unwrap_or(case.given.terms))
    }),
    slip(
        "answer terms over 1,023 are 12 without goals too",
        |mut call| {
            if call.number() == 0 && call.given.terms > 1_023 {
                return 12;
            }
            call.right()
        },
    ),
    slip("the answer terms' cells are not compared", |mut call| {
        let (store, given) = (call.lent.store.to_vec(), call.given);
        call.instead(|case| {
            // What word 1 of the first goal should be.
            for cells in 0..40 {
                case.store[1] = cells;
                if case.run().is_ok() {
                    return;
                }
            }
            (case.store, case.given) = (store.clone(), given);
        })
    }),
    slip("12 before 9", |mut call| {
        let mut case = call.case();
        case.scratch_words = 8_192;
        let refused = case.run().err().map_or(0, |refused| refused.number());
        match (call.number(), refused) {
            (9, 12) => 12,
            _ => call.right(),
        }
    }),
    slip("9 before 8", |mut call| {
        if call.number() == 8 && call.lent.scratch.len() < 8_192 {
            return 9;
        }
        call.right()
    }),
    slip("8 before 5", |mut call| {
        if call.number() == 5 && call.lent.store.len() < 1_024 {
            return 8;
        }
        call.right()
    }),
    slip("the last goal is not looked at", |mut call| {
        call.instead(|case| {
            if case.given.parked > 0 {
                case.given.parked -= 1;
            } else {
                case.given.pending = case.given.pending.saturating_sub(1);
            }
        })
    }),
    slip("parked goals are not looked at", |mut call| {
        call.instead(|case| case.given.parked = 0)
    }),
    slip("the pending count is cut to 32 bits", |mut call| {
        call.given.pending &= u32::MAX as u64;
        call.right()
    }),
    slip("the parked count is cut to 16 bits", |mut call| {
        call.given.parked &= u16::MAX as u64;
        call.right()
    }),
    slip(
        "the number of answer terms is cut to 32 bits",
        |mut call| {
            call.given.terms &= u32::MAX as u64;
            call.right()
        },
    ),
    slip("the counts' sum wraps", |mut call| {
        if call.given.pending.checked_add(call.given.parked).is_none() {
            let sum = call.given.pending.wrapping_add(call.given.parked);
            (call.given.pending, call.given.parked) = (sum, 0);
        }
        call.right()
    }),
    slip("a store is written before 12", |mut call| {
        let number = call.right();
        if let (12, [first, ..]) = (number, &mut *call.lent.store) {
            *first ^= 1;
        }
        number
    }),
    slip("the scratch is written before 12", |mut call| {
        let number = call.right();
        if let (12, [.., last]) = (number, &mut *call.lent.scratch) {
            *last ^= 1;
        }
        number
    }),
    slip("the result is written before 12", |mut call| {
        let number = call.right();
        if number == 12 {
            call.report.pending = 0;
        }
        number
    }),
    slip("a word after the answers is cleared", |mut call| {
        call.after(|lent, report| {
            let words: usize = goals(lent.answers, report.answers as usize)
                .iter()
                .map(Vec::len)
                .sum();
            if let Some(word) = lent.answers.get_mut(words) {
                *word = 0;
            }
        })
    }),
    slip("budget 0 takes a step", |mut call| {
        call.budget = call.budget.max(1);
        call.right()
    }),
    slip("a goal marked 1 must have floundered", |mut call| {
        let case = call.case();
        let wrong = |goal: &Vec<u16>| goal[0] / 4_096 == 1 && goal.len() == 2 + goal[1] as usize;
        if call.number() == 0 && goals(&case.store, case.lengths().len()).iter().any(wrong) {
            return 12;
        }
        call.right()
    }),
    slip("no goals is 12", |mut call| {
        if call.number() == 0 && call.given.pending + call.given.parked == 0 {
            return 12;
        }
        call.right()
    }),
    slip("all goals are moved for each, again and again", |mut call| {
        let moves = 32 * call.case().lengths().len();
        for _ in 0..moves {
            call.lent.store.rotate_left(1);
        }
        call.lent
            .store
            .rotate_right(moves % call.lent.store.len().max(1));
        call.right()
    }),
    slip("13 is not given", |mut call| match call.right() {
        13 => 0,
        number => number,
    }),
    slip("13 is given with goals only", |mut call| {
        let goals = call.given.pending.saturating_add(call.given.parked);
        match call.right() {
            13 if goals == 0 => 0,
            number => number,
        }
    }),
    slip("13 before 12", |mut call| match call.right() {
        12 if call.loose() => 13,
        number => number,
    }),
    slip("13 before 9", |mut call| match call.right() {
        9 if call.loose() => 13,
        number => number,
    }),
    slip("13 before 8", |mut call| match call.right() {
        8 if call.loose() => 13,
        number => number,
    }),
    slip("14 for a goal with a loose variable", |mut call| {
        let case = call.case();
        let floundering = |goal: &Vec<u16>| {
            let first = goal.get(2 + goal[1] as usize);
            first.is_some_and(|cell| *cell >= 16_384)
                && goal.last().is_some_and(|cell| *cell >= 32_768)
        };
        let given = goals(&case.store, case.lengths().len());
        if call.number() == 0 && given.iter().any(floundering) {
            return 14;
        }
        call.right()
    }),
    slip("goals marked 1 are no longer taken", |mut call| {
        let case = call.case();
        let given = goals(&case.store, case.lengths().len());
        if call.number() == 0 && given.iter().any(|goal| goal[0] / 4_096 == 1) {
            return 12;
        }
        call.right()
    }),
    slip("the store is written before 13", |mut call| {
        let number = call.right();
        if let (13, [first, ..]) = (number, &mut *call.lent.store) {
            *first ^= 1;
        }
        number
    }),
];
