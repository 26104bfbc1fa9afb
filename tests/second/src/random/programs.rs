//! Known programs over lists and numbers, with random questions.

use super::dice::Dice;
use super::families::world;
use super::signature::{not, variable, Signature};
use crate::terms::NEGATED;
use crate::world::World;

/// What an argument may be.
#[derive(Clone, Copy)]
enum Kind {
    Item,
    List,
    Number,
}

/// The functors of lists and numbers.
struct Functors {
    end: u16,
    cons: u16,
    zero: u16,
    next: u16,
    items: [u16; 3],
}

impl Functors {
    fn new(signature: &mut Signature) -> Functors {
        let items = [0, 0, 0].map(|arity| signature.functor(arity));
        Functors {
            end: signature.functor(0),
            cons: signature.functor(2),
            zero: signature.functor(0),
            next: signature.functor(1),
            items,
        }
    }

    fn argument(&self, dice: &mut Dice, kind: Kind, open: usize, out: &mut Vec<u16>) {
        if dice.chance(open, 10) {
            out.push(variable(dice.below(4)));
            return;
        }
        match kind {
            Kind::Item => out.push(*dice.pick(&self.items)),
            Kind::Number => {
                out.extend(vec![self.next; dice.below(7)]);
                out.push(if dice.chance(1, 8) {
                    variable(0)
                } else {
                    self.zero
                });
            }
            Kind::List => {
                for _ in 0..dice.below(6) {
                    out.push(self.cons);
                    self.argument(dice, Kind::Item, 1, out);
                }
                out.push(if dice.chance(1, 8) {
                    variable(1)
                } else {
                    self.end
                });
            }
        }
    }

    /// One or two literals over these predicates.
    fn question(&self, dice: &mut Dice, among: &[(u16, &[Kind])]) -> Vec<u16> {
        let mut query = Vec::new();
        for _ in 0..dice.range(1, 2) {
            let (predicate, kinds) = *dice.pick(among);
            let negated = dice.chance(1, 4);
            let open = if negated { 1 } else { dice.range(0, 5) };
            query.push(if negated {
                NEGATED + predicate
            } else {
                predicate
            });
            for kind in kinds {
                self.argument(dice, *kind, open, &mut query);
            }
        }
        query
    }
}

/// Append, member, reverse, and negation over them.
pub fn lists(dice: &mut Dice) -> World {
    let mut signature = Signature::default();
    let f = Functors::new(&mut signature);
    let [append, turn] = [3, 3].map(|arity| signature.predicate(arity));
    let [member, missing, within, beyond] = [2, 2, 2, 2].map(|arity| signature.predicate(arity));
    let [x, y, z, w] = [0, 1, 2, 3].map(variable);
    let (cons, end) = (f.cons, f.end);
    let mut clauses = vec![
        vec![append, end, x, x],
        vec![append, cons, x, y, z, cons, x, w, append, y, z, w],
        vec![turn, end, x, x],
        vec![turn, cons, x, y, z, w, turn, y, cons, x, z, w],
        vec![member, x, cons, x, y],
        vec![member, x, cons, y, z, member, x, z],
        vec![missing, x, y, not(member), x, y],
        vec![within, x, y, not(beyond), x, y],
        vec![beyond, x, y, member, z, x, not(member), z, y],
    ];
    upset(dice, &mut clauses);
    let (item, list) = (Kind::Item, Kind::List);
    let among: [(u16, &[Kind]); 6] = [
        (append, &[list, list, list]),
        (turn, &[list, list, list]),
        (member, &[item, list]),
        (missing, &[item, list]),
        (within, &[list, list]),
        (beyond, &[list, list]),
    ];
    let query = f.question(dice, &among);
    world(signature, clauses, query)
}

/// Sums, order and the greatest number, with negation.
pub fn numbers(dice: &mut Dice) -> World {
    let mut signature = Signature::default();
    let f = Functors::new(&mut signature);
    let plus = signature.predicate(3);
    let [less, notless, double] = [2, 2, 2].map(|arity| signature.predicate(arity));
    let [known, greatest] = [1, 1].map(|arity| signature.predicate(arity));
    let beaten = signature.predicate(1);
    let [x, y, z] = [0, 1, 2].map(variable);
    let (zero, next) = (f.zero, f.next);
    let mut clauses = vec![
        vec![plus, zero, x, x],
        vec![plus, next, x, y, next, z, plus, x, y, z],
        vec![less, zero, next, x],
        vec![less, next, x, next, y, less, x, y],
        vec![notless, x, y, not(less), x, y],
        vec![double, x, y, plus, x, x, y],
        vec![greatest, x, known, x, not(beaten), x],
        vec![beaten, x, known, y, less, x, y],
    ];
    for _ in 0..dice.range(1, 4) {
        let mut fact = vec![known];
        fact.extend(vec![next; dice.below(5)]);
        fact.push(zero);
        clauses.push(fact);
    }
    upset(dice, &mut clauses);
    let number = Kind::Number;
    let among: [(u16, &[Kind]); 7] = [
        (plus, &[number, number, number]),
        (less, &[number, number]),
        (notless, &[number, number]),
        (double, &[number, number]),
        (greatest, &[number]),
        (known, &[number]),
        (beaten, &[number]),
    ];
    let query = f.question(dice, &among);
    world(signature, clauses, query)
}

/// At times two clauses trade places, or one is lost.
fn upset(dice: &mut Dice, clauses: &mut Vec<Vec<u16>>) {
    let (from, to) = (dice.below(clauses.len()), dice.below(clauses.len()));
    match dice.below(6) {
        0 | 1 => clauses.swap(from, to),
        2 => drop(clauses.remove(from)),
        _ => {}
    }
}
