//! This evaluator with a slip put into its counting or paying, to see that the comparison finds it.

use super::Slip;
use crate::carry::{self, Given};
use crate::evaluation::{Limits, Outcome};
use crate::judge::{put, report_of, Engine, Lent, Report, Second};
use crate::rights::Rules;

pub struct Slipping {
    pub name: &'static str,
    pub slip: Slip,
}

impl Slipping {
    fn rules(&self) -> Rules {
        Rules {
            slip: self.slip,
            ..Rules::RIGHT
        }
    }

    /// The result as it is told.
    fn tell(&self, outcome: &Outcome, lent: Lent<'_>, report: &mut Report) -> u32 {
        *report = report_of(outcome);
        match self.slip {
            Slip::Exchanged => (report.steps, report.cost) = (report.cost, report.steps),
            Slip::Cut => report.cost %= 1 << 16,
            _ => {}
        }
        put(lent.answers, &outcome.answer_list());
        put(lent.store, &outcome.store_start());
        0
    }
}

impl Engine for Slipping {
    fn open(&self, deck: &[u16]) -> u32 {
        crate::open(deck)
    }

    fn check(&self, deck: &[u16], query: &[u16]) -> u32 {
        crate::check(deck, query)
    }

    fn run(
        &self,
        deck: &[u16],
        query: &[u16],
        bars: &[u16],
        budget: u32,
        lent: Lent<'_>,
        report: &mut Report,
    ) -> u32 {
        let limits = Limits {
            budget,
            answer_words: lent.answers.len(),
            store_words: lent.store.len(),
        };
        let scratch_words = lent.scratch.len();
        match crate::run_with(deck, query, bars, limits, scratch_words, self.rules()) {
            Ok(outcome) => self.tell(&outcome, lent, report),
            Err(number) => number,
        }
    }
}

impl carry::judge::Engine for Slipping {
    fn carry_on(
        &self,
        deck: &[u16],
        given: Given,
        bars: &[u16],
        budget: u32,
        lent: Lent<'_>,
        report: &mut Report,
    ) -> u32 {
        let sizes = (lent.answers.len(), lent.scratch.len());
        match carry::carry_with(deck, lent.store, given, bars, budget, sizes, self.rules()) {
            Ok(outcome) => self.tell(&outcome, lent, report),
            Err(refused) => refused.number(),
        }
    }
}

/// Slips when it carries on, and not when it runs.
pub struct Continued<'a>(pub &'a Slipping);

impl Engine for Continued<'_> {
    fn open(&self, deck: &[u16]) -> u32 {
        crate::open(deck)
    }

    fn check(&self, deck: &[u16], query: &[u16]) -> u32 {
        crate::check(deck, query)
    }

    fn run(
        &self,
        deck: &[u16],
        query: &[u16],
        bars: &[u16],
        budget: u32,
        lent: Lent<'_>,
        report: &mut Report,
    ) -> u32 {
        Second.run(deck, query, bars, budget, lent, report)
    }
}

impl carry::judge::Engine for Continued<'_> {
    fn carry_on(
        &self,
        deck: &[u16],
        given: Given,
        bars: &[u16],
        budget: u32,
        lent: Lent<'_>,
        report: &mut Report,
    ) -> u32 {
        self.0.carry_on(deck, given, bars, budget, lent, report)
    }
}

pub(crate) const fn slip(name: &'static str, slip: Slip) -> Slipping {
    Slipping { name, slip }
}

/// To be found in fresh runs and in continued ones.
pub const SLIPS: [Slipping; 23] = [
    slip("the failing equation is not counted", Slip::FailingFree),
    slip("a variable and itself are not counted", Slip::DroppedFree),
    slip("equal terms are not taken apart", Slip::EqualSkipped),
    slip(
        "terms without variables are compared at once",
        Slip::GroundAtOnce,
    ),
    slip("the last arguments are taken first", Slip::LastFirst),
    slip(
        "a step that takes equations costs them alone",
        Slip::StepFree,
    ),
    slip("other steps cost nothing", Slip::OthersFree),
    slip("the end of a level costs 1", Slip::ClosingCosts),
    slip("only the clauses that match are counted", Slip::MatchesOnly),
    slip(
        "clauses after an oversized goal are not counted",
        Slip::OversizedEnds,
    ),
    slip("oversized before budget", Slip::OversizedFirst),
    slip("answers before budget", Slip::AnswersFirst),
    slip("store before budget", Slip::StoreFirst),
    slip("a match is broken off one too early", Slip::Early),
    slip("a match is broken off one too late", Slip::Late),
    slip("a match broken off counts as failed", Slip::BrokenFails),
    slip("a step is paid in part", Slip::Partly),
    slip("a step not taken spends what is left", Slip::SpentNotTaken),
    slip("a step not taken is counted", Slip::CountedNotTaken),
    slip("the cost of inner levels is lost", Slip::InnerLost),
    slip("the budget is of steps", Slip::StepsLeft),
    slip("what is left wraps", Slip::LeftWraps),
    slip("steps and cost are exchanged", Slip::Exchanged),
];

/// To be found at large costs only.
pub const AT_LARGE: [Slipping; 2] = [
    slip("a step's cost wraps", Slip::Wraps),
    slip("the cost is cut to 16 bits", Slip::Cut),
];
