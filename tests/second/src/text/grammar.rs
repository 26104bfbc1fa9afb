//! From tokens to declarations and clauses. Open brackets are a list, so a text may nest as deep as it likes.

use super::tokens::{tokens, Kind, Token};
use super::{Fault, Refused};

pub struct Rules<'a> {
    /// The text begins with `v2.` (request U10).
    pub second_format: bool,
    pub declared: Vec<Declared<'a>>,
    pub clauses: Vec<Vec<Part<'a>>>,
}

pub struct Declared<'a> {
    pub place: usize,
    pub name: &'a [u8],
    pub kind: Declares,
}

/// A functor or a predicate with its arity, or a number with its value.
#[derive(Clone, Copy)]
pub enum Declares {
    Functor(u16),
    Predicate(u16),
    Number(i16),
}

/// What a cell is made from, in the order of the text.
pub enum Part<'a> {
    Variable(u32),
    Used(Used<'a>),
}

pub struct Used<'a> {
    pub place: usize,
    pub name: &'a [u8],
    pub negated: bool,
    pub arguments: usize,
}

const MOST_ARITY: u32 = 15;
const LAST_VARIABLE: u32 = 1_023;
const LARGEST: u32 = 32_767;
const MOST_BELOW_0: u32 = 32_768;

pub fn rules(text: &[u8]) -> Result<Rules<'_>, Refused> {
    let tokens = tokens(text);
    let mut parser = Parser {
        tokens: &tokens,
        at: 0,
        second_format: false,
    };
    parser.second_format = parser.takes_both(Kind::Name(b"v2"), Kind::Mark(b'.'));
    let mut rules = Rules {
        second_format: parser.second_format,
        declared: Vec::new(),
        clauses: Vec::new(),
    };
    while parser.at_declaration() {
        rules.declared.push(parser.declaration()?);
    }
    while parser.kind(0) != Kind::End {
        rules.clauses.push(parser.clause()?);
    }
    Ok(rules)
}

struct Parser<'a, 't> {
    tokens: &'t [Token<'a>],
    at: usize,
    second_format: bool,
}

impl<'a> Parser<'a, '_> {
    fn kind(&self, ahead: usize) -> Kind<'a> {
        let token = self.tokens.get(self.at + ahead);
        token.map_or(Kind::End, |token| token.kind)
    }

    /// A declaration's second token is a name; a clause's never is.
    fn at_declaration(&self) -> bool {
        let first = match self.kind(0) {
            Kind::Name(b"fn" | b"pr") => true,
            Kind::Name(b"nu") => self.second_format,
            _ => false,
        };
        first && matches!(self.kind(1), Kind::Name(_))
    }

    fn stuck<T>(&self) -> Result<T, Refused> {
        let fault = match self.kind(0) {
            Kind::End => Fault::End,
            _ => Fault::Token,
        };
        Err(Refused::Text(fault, self.tokens[self.at].place))
    }

    fn takes(&mut self, kind: Kind) -> bool {
        let there = self.kind(0) == kind;
        self.at += there as usize;
        there
    }

    fn takes_both(&mut self, first: Kind, second: Kind) -> bool {
        let there = (self.kind(0), self.kind(1)) == (first, second);
        self.at += 2 * there as usize;
        there
    }

    fn mark(&mut self, byte: u8) -> Result<(), Refused> {
        if self.takes(Kind::Mark(byte)) {
            return Ok(());
        }
        self.stuck()
    }

    fn name(&mut self) -> Result<(usize, &'a [u8]), Refused> {
        let Kind::Name(name) = self.kind(0) else {
            return self.stuck();
        };
        self.at += 1;
        Ok((self.tokens[self.at - 1].place, name))
    }

    fn declaration(&mut self) -> Result<Declared<'a>, Refused> {
        let keyword = self.name()?.1;
        let (place, name) = self.name()?;
        let kind = match keyword {
            b"fn" => Declares::Functor(self.arity()?),
            b"pr" => Declares::Predicate(self.arity()?),
            _ => Declares::Number(self.value()?),
        };
        self.mark(b'.')?;
        Ok(Declared { place, name, kind })
    }

    fn arity(&mut self) -> Result<u16, Refused> {
        self.mark(b'/')?;
        let Kind::Number(arity @ 0..=MOST_ARITY) = self.kind(0) else {
            return self.stuck();
        };
        self.at += 1;
        Ok(arity as u16)
    }

    /// A number's value; there is no `-0`.
    fn value(&mut self) -> Result<i16, Refused> {
        let value = match self.kind(0) {
            Kind::Number(number @ 0..=LARGEST) => number as i32,
            Kind::Negative(number @ 1..=MOST_BELOW_0) => -(number as i32),
            _ => return self.stuck(),
        };
        self.at += 1;
        Ok(value as i16)
    }

    fn clause(&mut self) -> Result<Vec<Part<'a>>, Refused> {
        let mut parts = Vec::new();
        self.atom(false, &mut parts)?;
        if self.takes(Kind::If) {
            self.literal(&mut parts)?;
            while self.takes(Kind::Mark(b',')) {
                self.literal(&mut parts)?;
            }
        }
        self.mark(b'.')?;
        Ok(parts)
    }

    fn literal(&mut self, parts: &mut Vec<Part<'a>>) -> Result<(), Refused> {
        let negated = self.takes(Kind::Mark(b'~'));
        self.atom(negated, parts)
    }

    /// A name, and the terms in its brackets.
    fn atom(&mut self, negated: bool, parts: &mut Vec<Part<'a>>) -> Result<(), Refused> {
        let mut open: Vec<usize> = Vec::new();
        self.used(negated, parts)?;
        loop {
            let name = matches!(parts.last(), Some(Part::Used(_)));
            if name && self.takes(Kind::Mark(b'(')) {
                open.push(parts.len() - 1);
            } else {
                // A term has ended here, and so may those around it.
                while !open.is_empty() && !self.takes(Kind::Mark(b',')) {
                    self.mark(b')')?;
                    open.pop();
                }
            }
            let Some(around) = open.last() else {
                return Ok(());
            };
            if let Part::Used(used) = &mut parts[*around] {
                used.arguments += 1;
            }
            self.term(parts)?;
        }
    }

    fn used(&mut self, negated: bool, parts: &mut Vec<Part<'a>>) -> Result<(), Refused> {
        let (place, name) = self.name()?;
        parts.push(Part::Used(Used {
            place,
            name,
            negated,
            arguments: 0,
        }));
        Ok(())
    }

    /// A variable, or the name that a term begins with.
    fn term(&mut self, parts: &mut Vec<Part<'a>>) -> Result<(), Refused> {
        let Kind::Variable(number) = self.kind(0) else {
            return self.used(false, parts);
        };
        if number > LAST_VARIABLE {
            return self.stuck();
        }
        self.at += 1;
        parts.push(Part::Variable(number));
        Ok(())
    }
}
