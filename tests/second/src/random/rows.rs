//! Long lists of clauses under rules with several nots (request U7).

use super::dice::Dice;
use super::families::world;
use super::signature::{not, variable, Signature};
use crate::world::World;

/// Clauses about a predicate: at the edges of rows and of their words, or in between.
const COUNTS: [usize; 17] = [
    63, 64, 64, 65, 65, 65, 66, 127, 128, 128, 129, 129, 130, 191, 192, 193, 257,
];

/// The symbols of a world with long lists.
struct Lists {
    signature: Signature,
    /// What the facts are about; few of all functors.
    names: Vec<u16>,
    /// Of so many places of a fact one has a functor with arguments.
    plain: usize,
    /// A predicate with a fact for some of the names.
    node: u16,
    long: Vec<(u16, usize)>,
    lead: u16,
    far: u16,
}

/// One to three long lists, and rules over them.
pub fn rows(dice: &mut Dice) -> World {
    let lists = Lists::new(dice);
    let mut parts: Vec<Vec<Vec<u16>>> = Vec::new();
    for (predicate, arity) in &lists.long {
        parts.push(lists.long_list(dice, *predicate, *arity));
    }
    parts.push(lists.nodes(dice));
    parts.push(lists.rules(dice));
    let query = lists.query(dice);
    let clauses = if dice.chance(1, 2) {
        parts.concat()
    } else {
        merged(dice, parts)
    };
    world(lists.signature, clauses, query)
}

impl Lists {
    fn new(dice: &mut Dice) -> Lists {
        let mut signature = Signature::default();
        let count = dice.range(1, 3);
        let functors = *dice.pick(&[3, 12, 17, 33, 50, 80]);
        let mut long = Vec::new();
        for at in 0..functors {
            // Predicates between, so that a number is not a place among functors.
            if dice.chance(1, 12) && long.len() < count {
                let arity = *dice.pick(&[1, 1, 1, 2, 2, 3]);
                long.push((signature.predicate(arity), arity));
            }
            let arity = *dice.pick(&[0, 0, 0, 0, 0, 0, 0, 1, 2]);
            signature.functor(if at < 2 { 0 } else { arity });
        }
        while long.len() < count {
            let arity = *dice.pick(&[1, 1, 2, 2]);
            long.push((signature.predicate(arity), arity));
        }
        let names = names(dice, &signature);
        let [node, lead, far] = [1, 1, 1].map(|arity| signature.predicate(arity));
        Lists {
            signature,
            names,
            plain: *dice.pick(&[4, 4, 20, 1_000]),
            node,
            long,
            lead,
            far,
        }
    }

    /// A name, or a functor with names or variables in it.
    fn term(&self, dice: &mut Dice, open: bool) -> Vec<u16> {
        let functors = &self.signature.functors;
        if functors.is_empty() || !dice.chance(1, self.plain) {
            return vec![*dice.pick(&self.names)];
        }
        let (functor, arity) = *dice.pick(functors);
        let mut term = vec![functor];
        for _ in 0..arity {
            term.push(match open {
                true => variable(0),
                false => *dice.pick(&self.names),
            });
        }
        term
    }

    fn long_list(&self, dice: &mut Dice, predicate: u16, arity: usize) -> Vec<Vec<u16>> {
        let count = match dice.chance(3, 4) {
            true => *dice.pick(&COUNTS),
            false => dice.range(60, 300),
        };
        let mut clauses: Vec<Vec<u16>> = (0..count)
            .map(|_| self.fact(dice, predicate, arity))
            .collect();
        // Heads that start with a variable, at edges or anywhere.
        for _ in 0..*dice.pick(&[0, 0, 0, 1, 1, 2, 3, 10]) {
            let any = dice.below(count);
            let at = *dice.pick(&[0, 63, 64, count - 1, 128, any, any]);
            if at < count {
                clauses[at] = self.rule_of(dice, predicate, arity);
            }
        }
        clauses
    }

    fn fact(&self, dice: &mut Dice, predicate: u16, arity: usize) -> Vec<u16> {
        let mut clause = vec![predicate];
        for _ in 0..arity {
            clause.extend(self.term(dice, false));
        }
        clause
    }

    /// A head of variables that a body literal holds, with a not at times.
    fn rule_of(&self, dice: &mut Dice, predicate: u16, arity: usize) -> Vec<u16> {
        let x = variable(0);
        let mut clause = vec![predicate];
        match dice.chance(1, 6) {
            true => clause.extend(self.term(dice, true)),
            false => clause.push(x),
        }
        for _ in 1..arity {
            clause.push(match dice.chance(1, 2) {
                true => x,
                false => *dice.pick(&self.names),
            });
        }
        clause.extend([self.node, x]);
        if dice.chance(1, 3) {
            clause.extend(self.not_in(dice, &[x]));
        }
        clause
    }

    /// Of the names, or of all constants.
    fn nodes(&self, dice: &mut Dice) -> Vec<Vec<u16>> {
        let names = match dice.chance(1, 2) {
            true => &self.names,
            false => &self.signature.constants,
        };
        let count = dice.range(1, 24).min(names.len());
        let first = dice.below(names.len());
        let names = names.iter().cycle().skip(first).take(count);
        names.map(|name| vec![self.node, *name]).collect()
    }

    /// A negated literal about a long list, over these terms.
    fn not_in(&self, dice: &mut Dice, terms: &[u16]) -> Vec<u16> {
        let (predicate, arity) = *dice.pick(&self.long);
        let mut literal = vec![not(predicate)];
        for at in 0..arity {
            let named = at > 0 && dice.chance(2, 3);
            literal.push(*dice.pick(if named { &self.names } else { terms }));
        }
        literal
    }

    fn rules(&self, dice: &mut Dice) -> Vec<Vec<u16>> {
        let (x, lead, far, node) = (variable(0), self.lead, self.far, self.node);
        let mut rules = Vec::new();
        for _ in 0..dice.range(1, 2) {
            let mut clause = vec![lead, x, node, x];
            for _ in 0..dice.range(1, 3) {
                clause.extend(self.not_in(dice, &[x]));
            }
            rules.push(clause);
        }
        let mut clause = vec![far, x, node, x, not(lead), x];
        for _ in 0..dice.range(0, 2) {
            clause.extend(self.not_in(dice, &[x]));
        }
        rules.push(clause);
        if dice.chance(1, 3) {
            let mut clause = vec![far, x];
            clause.extend(self.listed(dice, x));
            clause.extend(self.not_in(dice, &[x]));
            rules.push(clause);
        }
        rules
    }

    /// A literal about a long list, with this as its first argument and all others.
    fn listed(&self, dice: &mut Dice, term: u16) -> Vec<u16> {
        let (predicate, arity) = *dice.pick(&self.long);
        [vec![predicate], vec![term; arity]].concat()
    }

    fn query(&self, dice: &mut Dice) -> Vec<u16> {
        let (x, y) = (variable(0), variable(1));
        let mut query = Vec::new();
        for _ in 0..dice.range(1, 2) {
            let name = *dice.pick(&self.signature.constants);
            let (predicate, arity) = *dice.pick(&self.long);
            let literal = match dice.below(9) {
                0 | 1 => vec![self.lead, x],
                2 => vec![self.far, x],
                3 => vec![not(self.far), name],
                4 => [vec![predicate, name], vec![y; arity - 1]].concat(),
                5 => self.listed(dice, x),
                6 => self.not_in(dice, &[name]),
                7 => vec![self.node, x, self.lead, x, not(self.far), x],
                _ => {
                    let mut literal = vec![predicate];
                    literal.extend(self.term(dice, false));
                    literal.extend(vec![x; arity - 1]);
                    literal
                }
            };
            query.extend(literal);
        }
        query
    }
}

/// All constants, those of one remainder or of two, or any few.
fn names(dice: &mut Dice, signature: &Signature) -> Vec<u16> {
    let all = &signature.constants;
    let first = *dice.pick(all);
    let rows = match dice.below(4) {
        0 => 1,
        1 => 2,
        2 => dice.range(3, 15) as u16,
        _ => 16,
    };
    let near = |name: &&u16| (**name + 16 - first % 16) % 16 < rows;
    let names: Vec<u16> = all.iter().filter(near).copied().collect();
    let few = dice.range(1, names.len());
    names[names.len() - few..].to_vec()
}

/// Clauses about different predicates mixed; each list keeps its order.
fn merged(dice: &mut Dice, parts: Vec<Vec<Vec<u16>>>) -> Vec<Vec<u16>> {
    let mut parts: Vec<_> = parts.into_iter().map(Vec::into_iter).collect();
    let mut clauses = Vec::new();
    while !parts.is_empty() {
        let at = dice.below(parts.len());
        match parts[at].next() {
            Some(clause) => clauses.push(clause),
            None => drop(parts.swap_remove(at)),
        }
    }
    clauses
}

/// As many rows as a deck can need: 83 lists of 65 facts; or one list, or a proposition without rows, as long as the deck allows.
pub fn full(dice: &mut Dice) -> World {
    let mut signature = Signature::default();
    let functors = *dice.pick(&[1, 17, 40]);
    let names: Vec<u16> = (0..functors).map(|_| signature.functor(0)).collect();
    let node = signature.predicate(1);
    let (lists, count, arity) = *dice.pick(&[
        (83, 65, 1),
        (83, 64, 1),
        (1, 5_350, 1),
        (2, 2_600, 1),
        (1, 2_000, 0),
    ]);
    let long: Vec<u16> = (0..lists).map(|_| signature.predicate(arity)).collect();
    let x = variable(0);
    let mut clauses: Vec<Vec<u16>> = Vec::new();
    for list in &long {
        clauses.extend(
            (0..count).map(|at| [vec![*list], vec![names[at % names.len()]; arity]].concat()),
        );
    }
    let [one, other] = [(); 2].map(|_| *dice.pick(&long));
    let mut query = vec![node, x];
    query.extend([vec![not(one)], vec![x; arity]].concat());
    query.extend([vec![other], vec![*dice.pick(&names); arity]].concat());
    clauses.extend(
        names
            .iter()
            .take(dice.range(1, 17))
            .map(|name| vec![node, *name]),
    );
    if dice.chance(1, 3) {
        query = [vec![one], vec![x; arity]].concat();
    }
    world(signature, clauses, query)
}
