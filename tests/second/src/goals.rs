//! Goals: answer terms, then literals.

use crate::cost::Slip;
use crate::deck::Clause;
use crate::query::Query;
use crate::terms::{Applied, Literal, Term};
use crate::unify::{unify, Rewriter, Unifier};
use std::rc::Rc;

#[derive(Clone, Copy, Debug, PartialEq, Eq)]
pub enum Mark {
    Pending = 0,
    Floundered = 1,
    Undecided = 2,
    Oversized = 3,
    Deep = 4,
}

#[derive(Debug)]
pub struct Goal {
    answer: Vec<Term>,
    pub literals: Vec<Literal>,
    variables: usize,
    pub words: usize,
}

/// A derived goal longer than this parks its parent.
pub const MOST_GOAL_WORDS: usize = 1_024;
pub const GOAL_HEADER: usize = 2;
pub const MARK_WEIGHT: u16 = 4_096;

impl Goal {
    pub fn new(answer: Vec<Term>, literals: Vec<Literal>, variables: usize) -> Goal {
        let terms = answer.iter().map(Term::words).sum::<usize>();
        let atoms = literals.iter().map(|one| one.atom.words).sum::<usize>();
        Goal {
            answer,
            literals,
            variables,
            words: GOAL_HEADER + terms + atoms,
        }
    }

    pub fn answer(&self) -> &[Term] {
        &self.answer
    }

    /// The query's variables in order, then the query.
    pub fn first(query: Query) -> Goal {
        let answer = (0..query.variables).map(Term::Variable).collect();
        Goal::new(answer, query.literals, query.variables)
    }

    /// The goal of a new level: an atom without variables.
    pub fn inner(atom: &Rc<Applied>) -> Goal {
        let literal = Literal {
            negated: false,
            atom: atom.clone(),
        };
        Goal::new(Vec::new(), vec![literal], 0)
    }

    /// The leftmost literal that is positive, or negative without variables.
    pub fn select(&self) -> Option<usize> {
        self.literals.iter().position(Literal::selectable)
    }

    /// Takes out the selected literal, which has no variables.
    pub fn drop_selected(&mut self) {
        if let Some(at) = self.select() {
            let literal = self.literals.remove(at);
            self.words -= literal.atom.words;
        }
    }

    pub fn write(&self, mark: Mark, out: &mut Vec<u16>) {
        let terms = self.answer.iter().map(Term::words).sum::<usize>();
        out.push(self.words as u16 + MARK_WEIGHT * mark as u16);
        out.push(terms as u16);
        for term in &self.answer {
            term.write(out);
        }
        for literal in &self.literals {
            literal.write(out);
        }
    }

    pub fn to_words(&self, mark: Mark) -> Vec<u16> {
        let mut out = Vec::with_capacity(self.words);
        self.write(mark, &mut out);
        out
    }
}

/// A resolvent not yet written out: the goal, the place, the clause.
pub struct Resolvent<'a> {
    goal: &'a Goal,
    at: usize,
    clause: &'a Clause,
    unifier: Unifier,
}

/// A goal's literal matched with a clause's head.
pub struct Matched<'a> {
    /// The equations taken, the failing one included.
    pub equations: u64,
    pub resolvent: Option<Resolvent<'a>>,
}

impl<'a> Matched<'a> {
    /// None where over `most` equations would be taken.
    pub fn new(
        goal: &'a Goal,
        at: usize,
        clause: &'a Clause,
        most: u64,
        slip: Slip,
    ) -> Option<Matched<'a>> {
        let atom = &goal.literals[at].atom;
        let (head, variables) = (&clause.head, clause.variables);
        let counted = unify(atom, goal.variables, head, variables, most, slip)?;
        let resolvent = counted.unifier.map(|unifier| Resolvent {
            goal,
            at,
            clause,
            unifier,
        });
        Some(Matched {
            equations: counted.equations,
            resolvent,
        })
    }
}

impl<'a> Resolvent<'a> {
    /// The literals in order, the clause's body after the remaining ones (U3), each with its variables' shift.
    fn literals(&self) -> impl Iterator<Item = (&'a Literal, usize)> {
        let (goal, at, shift) = (self.goal, self.at, self.goal.variables);
        let before = goal.literals[..at].iter().map(|one| (one, 0));
        let after = goal.literals[at + 1..].iter().map(|one| (one, 0));
        let body = self.clause.body.iter().map(move |one| (one, shift));
        before.chain(after).chain(body)
    }

    /// Words when written out; past the limit only that it is past.
    pub fn words(&self) -> usize {
        let terms = self.goal.answer.iter();
        let terms = terms.map(|term| self.unifier.term_words(term, 0));
        let atoms = self.literals();
        let atoms = atoms.map(|(one, shift)| self.unifier.applied_words(&one.atom, shift));
        GOAL_HEADER + terms.sum::<usize>() + atoms.sum::<usize>()
    }

    pub fn write_out(&self) -> Goal {
        let mut rewriter = Rewriter::new(&self.unifier);
        let terms = self.goal.answer.iter();
        let answer = terms.map(|term| rewriter.term(term, 0)).collect();
        let literals = self
            .literals()
            .map(|(one, shift)| rewriter.literal(one, shift))
            .collect();
        Goal::new(answer, literals, rewriter.variables())
    }
}
