//! The evaluation with negation as failure, as a stack of levels.

use crate::cost::{Slip, Tally};
use crate::deck::{Clause, Deck};
use crate::goals::{Goal, Mark, Matched, MOST_GOAL_WORDS};
use crate::index;
use crate::query::Query;
use crate::terms::Applied;
use std::cell::Cell;

#[derive(Clone, Copy, Debug, PartialEq, Eq)]
pub enum Stop {
    Finished = 0,
    Budget = 1,
    Answers = 2,
    Store = 3,
}

/// The limits the caller sets.
#[derive(Clone, Copy, Debug)]
pub struct Limits {
    pub budget: u32,
    pub answer_words: usize,
    pub store_words: usize,
}

/// What an accepted run returns; each goal as its words.
#[derive(Clone, Debug)]
pub struct Outcome {
    pub stop: Stop,
    pub steps: u32,
    pub cost: u32,
    pub answers: Vec<Vec<u16>>,
    pub pending: Vec<Vec<u16>>,
    pub parked: Vec<Vec<u16>>,
    pub watch: Watch,
}

/// Seen on the way; no part of the result.
#[derive(Clone, Debug, Default)]
pub struct Watch {
    /// Most words held after a step.
    pub most_held: usize,
    /// Words that a step not taken for want of store would have held.
    pub refused_held: usize,
    pub deepest: usize,
    /// Inner levels under way when the run stopped.
    pub cut: usize,
    /// Longest goal, in words.
    pub longest: usize,
    /// Goals parked, by mark: at level 0, and deeper.
    pub parked: [u32; 5],
    pub parked_deeper: [u32; 5],
    /// Inner levels closed: succeeded, finished clean, finished with parked.
    pub closed: [u32; 3],
    /// Clauses tried, over all steps.
    pub tried: Cell<u64>,
    /// Steps that tried a row, and of those the ones with no clause to try.
    pub rows: Cell<u64>,
    pub empty_rows: Cell<u64>,
    /// What each step cost.
    pub costs: Vec<u64>,
    /// A step could not be paid: what was left for it.
    pub left: u64,
    /// Oversized goals were derived in a step that could not be paid.
    pub unpaid: Cell<bool>,
}

struct Level {
    /// The first goal stands last.
    pending: Vec<Goal>,
    /// Something was parked here.
    parked: bool,
}

/// What the next step would do.
enum Plan {
    Answer,
    Succeed,
    Park(Mark),
    /// The goals are complete only if their words fit.
    Replace {
        derived: Vec<Goal>,
        words: usize,
    },
    Descend(Goal),
}

/// A plan and its cost.
type Priced = (Plan, u64);

enum Closing {
    Succeeded,
    Clean,
    Undecided,
}

struct Evaluation<'a> {
    deck: &'a Deck,
    limits: Limits,
    levels: Vec<Level>,
    /// Words of level 0's goals and of all pending goals deeper.
    held: usize,
    steps: u32,
    cost: u64,
    /// With a slip: of the cost, what is not told.
    lost: u64,
    answers: Vec<Vec<u16>>,
    answered_words: usize,
    parked: Vec<(Goal, Mark)>,
    watch: Watch,
    slip: Slip,
}

/// The goals that an evaluation starts from.
#[derive(Default)]
pub struct Start {
    pub pending: Vec<Goal>,
    pub parked: Vec<(Goal, Mark)>,
}

impl Start {
    pub fn fresh(query: Query) -> Start {
        Start {
            pending: vec![Goal::first(query)],
            parked: Vec::new(),
        }
    }
}

const DEEPEST: usize = 32;

pub fn evaluate(deck: &Deck, start: Start, limits: Limits, slip: Slip) -> Outcome {
    let mut evaluation = Evaluation::new(deck, start, limits, slip);
    let stop = evaluation.work();
    evaluation.outcome(stop)
}

impl<'a> Evaluation<'a> {
    fn new(deck: &'a Deck, start: Start, limits: Limits, slip: Slip) -> Evaluation<'a> {
        let mut evaluation = Evaluation {
            deck,
            limits,
            levels: Vec::new(),
            held: start.parked.iter().map(|(goal, _)| goal.words).sum(),
            steps: 0,
            cost: 0,
            lost: 0,
            answers: Vec::new(),
            answered_words: 0,
            parked: start.parked,
            watch: Watch::default(),
            slip,
        };
        evaluation.start_level(start.pending);
        evaluation
    }
}

/// One step of level 0, with all of its inner levels to their end, and its closing; or the stop that prevented it.
pub fn press(deck: &Deck, start: Start, limits: Limits, slip: Slip) -> (Option<Stop>, Outcome) {
    let mut evaluation = Evaluation::new(deck, start, limits, slip);
    let stop = evaluation.advance();
    (stop, evaluation.outcome(stop.unwrap_or(Stop::Finished)))
}

impl Evaluation<'_> {
    fn work(&mut self) -> Stop {
        loop {
            if let Err(stop) = self.turn() {
                return stop;
            }
        }
    }

    /// Turns until level 0 is the deepest level again.
    fn advance(&mut self) -> Option<Stop> {
        loop {
            match self.turn() {
                Err(stop) => return Some(stop),
                Ok(()) if self.depth() == 0 => return None,
                Ok(()) => {}
            }
        }
    }

    /// A step of the deepest level, or its closing; or the stop.
    fn turn(&mut self) -> Result<(), Stop> {
        if self.top().pending.is_empty() {
            if self.depth() == 0 {
                return Err(Stop::Finished);
            }
            self.close_finished();
            return Ok(());
        }
        if let Some(stop) = self.early_stop() {
            return Err(stop);
        }
        let Some((plan, cost)) = self.payable() else {
            return Err(self.cannot_pay());
        };
        if matches!(plan, Plan::Answer) && !self.answer_fits() {
            return Err(Stop::Answers);
        }
        let held = self.held_after(&plan);
        if held > self.limits.store_words {
            self.watch.refused_held = held;
            return Err(Stop::Store);
        }
        self.pay(cost);
        self.take(plan);
        debug_assert!(self.held == self.count_held());
        self.watch.most_held = self.watch.most_held.max(held);
        Ok(())
    }

    /// The next step, if its whole cost is left.
    fn payable(&self) -> Option<Priced> {
        let left = self.left();
        self.plan(left).or_else(|| self.beyond(left))
    }

    fn left(&self) -> u64 {
        let spent = match self.slip {
            Slip::StepsLeft => self.steps as u64,
            _ => self.cost,
        };
        (self.limits.budget as u64).saturating_sub(spent)
    }

    /// A step was not taken.
    fn cannot_pay(&mut self) -> Stop {
        self.watch.left = self.left();
        match self.slip {
            Slip::SpentNotTaken => self.cost += self.left(),
            Slip::CountedNotTaken => self.steps += 1,
            _ => {}
        }
        Stop::Budget
    }

    fn pay(&mut self, cost: u64) {
        self.steps += 1;
        self.cost += cost;
        self.watch.costs.push(cost);
        if self.slip == Slip::InnerLost && self.depth() > 0 {
            self.lost += cost;
        }
    }

    /// With a slip: a step that is taken though it cannot be paid.
    fn beyond(&self, left: u64) -> Option<Priced> {
        let (plan, cost) = match self.slip {
            Slip::Partly | Slip::OversizedFirst if left > 0 => self.plan(u64::MAX)?,
            Slip::StepsLeft if left > 0 => self.plan(u64::MAX)?,
            Slip::Late if left > 0 => self.plan(left + 1)?,
            _ => return None,
        };
        match self.slip {
            Slip::OversizedFirst if !matches!(plan, Plan::Park(Mark::Oversized)) => None,
            Slip::Partly | Slip::OversizedFirst => Some((plan, cost.min(left))),
            _ => Some((plan, cost)),
        }
    }

    /// With a slip: a stop that comes before "budget".
    fn early_stop(&self) -> Option<Stop> {
        let (plan, _) = match self.slip {
            Slip::AnswersFirst | Slip::StoreFirst => self.plan(u64::MAX)?,
            _ => return None,
        };
        let store = self.held_after(&plan) > self.limits.store_words;
        match self.slip {
            Slip::StoreFirst => store.then_some(Stop::Store),
            _ => (matches!(plan, Plan::Answer) && !self.answer_fits()).then_some(Stop::Answers),
        }
    }

    fn depth(&self) -> usize {
        self.levels.len() - 1
    }

    fn top(&self) -> &Level {
        self.levels.last().expect("a level is under way")
    }

    fn top_mut(&mut self) -> &mut Level {
        self.levels.last_mut().expect("a level is under way")
    }

    fn first(&self) -> &Goal {
        self.top().pending.last().expect("a goal is pending")
    }

    /// What the next step does and costs, if that is at most what is left.
    fn plan(&self, left: u64) -> Option<Priced> {
        let goal = self.first();
        let level = self.depth();
        let positive = |at: &usize| !goal.literals[*at].negated;
        if let Some(at) = goal.select().filter(positive) {
            return self.resolve(goal, at, left);
        }
        let plan = match goal.select() {
            None if goal.literals.is_empty() && level == 0 => Plan::Answer,
            None if goal.literals.is_empty() => Plan::Succeed,
            None => Plan::Park(Mark::Floundered),
            Some(_) if level == DEEPEST => Plan::Park(Mark::Deep),
            Some(at) => Plan::Descend(Goal::inner(&goal.literals[at].atom)),
        };
        let cost = (self.slip != Slip::OthersFree) as u64;
        (cost <= left).then_some((plan, cost))
    }

    /// All resolvents of the selected literal; one too long parks the goal. Every clause tried is counted.
    fn resolve(&self, goal: &Goal, at: usize, left: u64) -> Option<Priced> {
        let room = self.limits.store_words + goal.words - self.held;
        let mut derived = Vec::new();
        let (mut words, mut oversized) = (0, false);
        let mut tally = Tally::new(left, self.slip)?;
        for clause in self.tried(&goal.literals[at].atom) {
            self.watch.tried.set(self.watch.tried.get() + 1);
            self.watch.unpaid.set(oversized);
            let matched = Matched::new(goal, at, clause, tally.most(), self.slip);
            let Some(resolvent) = tally.add(matched)? else {
                continue;
            };
            let length = resolvent.words();
            oversized |= length > MOST_GOAL_WORDS;
            if oversized && self.slip == Slip::OversizedEnds {
                break;
            }
            words += length.min(MOST_GOAL_WORDS);
            if !oversized && words <= room {
                derived.push(resolvent.write_out());
            }
        }
        self.watch.unpaid.set(false);
        let plan = match oversized {
            true => Plan::Park(Mark::Oversized),
            false => Plan::Replace { derived, words },
        };
        (tally.cost() <= left).then_some((plan, tally.cost()))
    }

    /// The clauses that the selected literal tries.
    fn tried(&self, atom: &Applied) -> Vec<&Clause> {
        let clauses = match self.slip {
            Slip::Tried(slip) => index::slips::tried(self.deck, atom, slip),
            _ => index::tried(self.deck, atom),
        };
        if clauses.len() < self.deck.about[atom.symbol as usize].len() {
            self.watch.rows.set(self.watch.rows.get() + 1);
            let empty = self.watch.empty_rows.get() + clauses.is_empty() as u64;
            self.watch.empty_rows.set(empty);
        }
        clauses
    }

    fn answer_fits(&self) -> bool {
        self.answered_words + self.first().words <= self.limits.answer_words
    }

    fn held_after(&self, plan: &Plan) -> usize {
        let goal = self.first().words;
        match plan {
            Plan::Answer | Plan::Succeed => self.held - goal,
            Plan::Park(_) if self.depth() == 0 => self.held,
            Plan::Park(_) => self.held - goal,
            Plan::Replace { words, .. } => self.held - goal + words,
            Plan::Descend(inner) => self.held + inner.words,
        }
    }

    fn take(&mut self, plan: Plan) {
        match plan {
            Plan::Answer => self.answer(),
            Plan::Succeed => self.close(Closing::Succeeded),
            Plan::Park(mark) => self.park(mark),
            Plan::Replace { derived, .. } => self.replace(derived),
            Plan::Descend(inner) => self.start_level(vec![inner]),
        }
    }

    fn start_level(&mut self, goals: Vec<Goal>) {
        for goal in &goals {
            self.held += goal.words;
            self.watch.longest = self.watch.longest.max(goal.words);
        }
        self.levels.push(Level {
            pending: goals.into_iter().rev().collect(),
            parked: false,
        });
        self.watch.deepest = self.watch.deepest.max(self.depth());
    }

    /// Takes the first goal off the pending list.
    fn remove_first(&mut self) -> Goal {
        let goal = self.top_mut().pending.pop().expect("a goal is pending");
        self.held -= goal.words;
        goal
    }

    fn answer(&mut self) {
        let goal = self.remove_first();
        self.answered_words += goal.words;
        self.answers.push(goal.to_words(Mark::Pending));
    }

    fn park(&mut self, mark: Mark) {
        let goal = self.remove_first();
        self.top_mut().parked = true;
        if self.depth() == 0 {
            self.watch.parked[mark as usize] += 1;
            self.held += goal.words;
            self.parked.push((goal, mark));
        } else {
            self.watch.parked_deeper[mark as usize] += 1;
        }
    }

    fn replace(&mut self, derived: Vec<Goal>) {
        self.remove_first();
        for goal in derived.into_iter().rev() {
            self.held += goal.words;
            self.watch.longest = self.watch.longest.max(goal.words);
            self.top_mut().pending.push(goal);
        }
    }

    fn close_finished(&mut self) {
        if self.top().parked {
            self.close(Closing::Undecided);
        } else {
            self.close(Closing::Clean);
        }
    }

    /// Ends the deepest level and settles the literal that began it.
    fn close(&mut self, closing: Closing) {
        self.cost += (self.slip == Slip::ClosingCosts) as u64;
        let level = self.levels.pop().expect("a level is under way");
        self.held -= level.pending.iter().map(|goal| goal.words).sum::<usize>();
        self.watch.closed[match closing {
            Closing::Succeeded => 0,
            Closing::Clean => 1,
            Closing::Undecided => 2,
        }] += 1;
        match closing {
            Closing::Succeeded => drop(self.remove_first()),
            Closing::Undecided => self.park(Mark::Undecided),
            Closing::Clean => {
                let mut goal = self.remove_first();
                goal.drop_selected();
                self.held += goal.words;
                self.top_mut().pending.push(goal);
            }
        }
    }

    /// Words held, counted afresh.
    fn count_held(&self) -> usize {
        let pending = self.levels.iter().flat_map(|level| &level.pending);
        let parked = self.parked.iter().map(|(goal, _)| goal);
        pending.chain(parked).map(|goal| goal.words).sum()
    }

    fn outcome(mut self, stop: Stop) -> Outcome {
        self.watch.cut = self.depth();
        let pending = self.levels[0].pending.iter().rev();
        let parked = self.parked.iter();
        Outcome {
            stop,
            steps: self.steps,
            cost: (self.cost - self.lost) as u32,
            pending: pending.map(|goal| goal.to_words(Mark::Pending)).collect(),
            parked: parked.map(|(goal, mark)| goal.to_words(*mark)).collect(),
            answers: self.answers,
            watch: self.watch,
        }
    }
}

impl Outcome {
    /// The words at the start of the answer list.
    pub fn answer_list(&self) -> Vec<u16> {
        self.answers.concat()
    }

    /// The words at the start of the store.
    pub fn store_start(&self) -> Vec<u16> {
        let mut words = self.pending.concat();
        words.extend(self.parked.concat());
        words
    }
}
