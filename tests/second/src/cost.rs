//! What a step costs, and how it is paid (request U6).

pub mod slips;

use crate::goals::{Matched, Resolvent};

/// A slip in counting equations, in paying for steps, or in the choice of clauses. The evaluation has none.
#[derive(Clone, Copy, Debug, PartialEq, Eq)]
pub enum Slip {
    None,
    /// In the choice of the clauses that are tried.
    Tried(crate::index::Slip),
    /// The failing equation is not counted.
    FailingFree,
    /// A variable and itself are not counted.
    DroppedFree,
    /// Equal terms are not taken apart.
    EqualSkipped,
    /// Terms without variables are compared at once.
    GroundAtOnce,
    /// Of two functors' arguments the last are taken first.
    LastFirst,
    /// A step that takes equations costs them alone.
    StepFree,
    /// Other steps cost nothing.
    OthersFree,
    /// The end of a level costs 1.
    ClosingCosts,
    /// Only the clauses that match are counted.
    MatchesOnly,
    /// Clauses after an oversized derived goal are not counted.
    OversizedEnds,
    /// Oversized comes before budget.
    OversizedFirst,
    /// Answers comes before budget.
    AnswersFirst,
    /// Store comes before budget.
    StoreFirst,
    /// A match is broken off one equation too early.
    Early,
    /// A match is broken off one equation too late.
    Late,
    /// A match that is broken off counts as failed.
    BrokenFails,
    /// A step is taken if there is anything left.
    Partly,
    /// A step not taken spends what is left.
    SpentNotTaken,
    /// A step not taken is counted.
    CountedNotTaken,
    /// What inner levels cost is not told.
    InnerLost,
    /// The budget is of steps.
    StepsLeft,
    /// A step's cost has 32 bits.
    Wraps,
    /// What is left, and one more, has 32 bits.
    LeftWraps,
    /// Steps and cost are exchanged in the result.
    Exchanged,
    /// The cost is cut to 16 bits.
    Cut,
}

/// The equations of a positive step, clause by clause.
pub struct Tally {
    equations: u64,
    /// More equations than these cannot be paid.
    most: u64,
    slip: Slip,
}

impl Tally {
    /// The step itself is paid first.
    pub fn new(left: u64, slip: Slip) -> Option<Tally> {
        let most = match slip {
            Slip::StepFree if left > 0 => left,
            Slip::Early => left.checked_sub(1)?.saturating_sub(1),
            Slip::Wraps if left > 0 => u64::MAX,
            Slip::LeftWraps => ((left + 1) % (1 << 32)).checked_sub(2)?,
            _ => left.checked_sub(1)?,
        };
        let equations = 0;
        Some(Tally {
            equations,
            most,
            slip,
        })
    }

    /// What a match may take.
    pub fn most(&self) -> u64 {
        self.most - self.equations
    }

    /// The resolvent of a clause, if its head matches; None where the step cannot be paid.
    pub fn add<'a>(&mut self, matched: Option<Matched<'a>>) -> Option<Option<Resolvent<'a>>> {
        let Some(matched) = matched else {
            return (self.slip == Slip::BrokenFails).then(|| {
                self.equations = self.most;
                None
            });
        };
        if self.slip != Slip::MatchesOnly || matched.resolvent.is_some() {
            self.equations += matched.equations;
        }
        Some(matched.resolvent)
    }

    pub fn cost(&self) -> u64 {
        match self.slip {
            Slip::StepFree => self.equations.max(1),
            Slip::Wraps => (1 + self.equations) % (1 << 32),
            _ => 1 + self.equations,
        }
    }
}
