//! Terms as trees. Parts without variables are shared between goals.

use std::rc::Rc;

#[derive(Clone, Debug)]
pub enum Term {
    Variable(usize),
    Applied(Rc<Applied>),
}

/// A symbol with its arguments: a functor's term or a predicate's atom.
#[derive(Debug)]
pub struct Applied {
    pub symbol: u16,
    pub arguments: Vec<Term>,
    /// Number of cells when written out.
    pub words: usize,
    /// No variable inside.
    pub ground: bool,
}

#[derive(Clone, Debug)]
pub struct Literal {
    pub negated: bool,
    pub atom: Rc<Applied>,
}

pub const NEGATED: u16 = 16_384;
pub const VARIABLE: u16 = 32_768;

impl Term {
    pub fn words(&self) -> usize {
        match self {
            Term::Variable(_) => 1,
            Term::Applied(applied) => applied.words,
        }
    }

    pub fn ground(&self) -> bool {
        match self {
            Term::Variable(_) => false,
            Term::Applied(applied) => applied.ground,
        }
    }

    pub fn write(&self, out: &mut Vec<u16>) {
        match self {
            Term::Variable(number) => out.push(VARIABLE + *number as u16),
            Term::Applied(applied) => applied.write(0, out),
        }
    }
}

impl Applied {
    pub fn new(symbol: u16, arguments: Vec<Term>) -> Rc<Applied> {
        let words = 1 + arguments.iter().map(Term::words).sum::<usize>();
        let ground = arguments.iter().all(Term::ground);
        Rc::new(Applied {
            symbol,
            arguments,
            words,
            ground,
        })
    }

    fn write(&self, sign: u16, out: &mut Vec<u16>) {
        out.push(sign + self.symbol);
        for argument in &self.arguments {
            argument.write(out);
        }
    }
}

impl Literal {
    pub fn selectable(&self) -> bool {
        !self.negated || self.atom.ground
    }

    pub fn write(&self, out: &mut Vec<u16>) {
        let sign = if self.negated { NEGATED } else { 0 };
        self.atom.write(sign, out);
    }
}
