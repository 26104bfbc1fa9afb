//! Unification by classes of equal nodes, on a graph of shared terms, with its equations counted.
//!
//! Nothing is substituted while equations are worked off: nodes found equal are
//! put into one class. An equation between two nodes of one class would be
//! taken apart down to its leaves; their number is the term's size, which is
//! worked out on the graph. So the cost follows the cells read, even where the
//! terms written out, and the equations, would be exponential.

use crate::cost::Slip;
use crate::terms::{Applied, Literal, Term};
use std::rc::Rc;

/// Sizes and numbers of equations are counted up to this; it is over every budget.
const MOST: u64 = 1 << 40;

/// A term at a place: clause variables are shifted past the goal's.
#[derive(Clone)]
struct Placed {
    applied: Rc<Applied>,
    shift: usize,
    /// First of the children in `Unifier::children`, once laid out.
    children: Option<usize>,
}

/// Nodes are numbered: all variables first, then the placed terms met.
pub struct Unifier {
    variables: usize,
    placed: Vec<Placed>,
    parent: Vec<usize>,
    children: Vec<usize>,
    /// By class, 0 where it is not known; true of the classes as they are.
    sizes: Vec<u64>,
    sized: bool,
    /// The walk in which a class was last met.
    seen: Vec<u32>,
    walk: u32,
}

/// A match that came to its end.
pub struct Counted {
    /// The equations taken, the failing one included.
    pub equations: u64,
    /// The most general unifier, if there is one.
    pub unifier: Option<Unifier>,
}

enum Work {
    Equation(usize, usize),
    /// All their arguments have been found equal.
    Join(usize, usize),
}

/// A goal's atom and the head of a clause about its predicate; None where over `most` equations would be taken.
pub fn unify(
    atom: &Applied,
    goal_variables: usize,
    head: &Applied,
    clause_variables: usize,
    most: u64,
    slip: Slip,
) -> Option<Counted> {
    let mut unifier = Unifier::new(goal_variables + clause_variables);
    let mut list = Vec::new();
    for (left, right) in atom.arguments.iter().zip(&head.arguments) {
        let left = unifier.node(left, 0);
        let right = unifier.node(right, goal_variables);
        list.push(Work::Equation(left, right));
    }
    list.reverse();
    let mut equations = 0;
    while let Some(work) = list.pop() {
        let (number, equal) = unifier.work_off(work, &mut list, slip);
        equations = (equations + number).min(MOST);
        if equations > most {
            return None;
        }
        if !equal {
            let unifier = None;
            return Some(Counted { equations, unifier });
        }
    }
    unifier.measure();
    let unifier = Some(unifier);
    Some(Counted { equations, unifier })
}

impl Unifier {
    fn new(variables: usize) -> Unifier {
        Unifier {
            variables,
            placed: Vec::new(),
            parent: (0..variables).collect(),
            children: Vec::new(),
            sizes: vec![0; variables],
            sized: false,
            seen: vec![0; variables],
            walk: 0,
        }
    }

    fn node(&mut self, term: &Term, shift: usize) -> usize {
        match term {
            Term::Variable(number) => number + shift,
            Term::Applied(applied) => {
                let node = self.parent.len();
                self.parent.push(node);
                self.sizes.push(0);
                self.seen.push(0);
                self.placed.push(Placed {
                    applied: applied.clone(),
                    shift,
                    children: None,
                });
                node
            }
        }
    }

    /// The class of a node, named by one node; a placed term if it has any.
    fn class(&self, node: usize) -> usize {
        let mut node = node;
        while self.parent[node] != node {
            node = self.parent[node];
        }
        node
    }

    /// The same, with the way there made shorter.
    fn class_of(&mut self, node: usize) -> usize {
        let class = self.class(node);
        let mut node = node;
        while self.parent[node] != class {
            let next = self.parent[node];
            self.parent[node] = class;
            node = next;
        }
        class
    }

    fn placed(&self, class: usize) -> Option<&Placed> {
        class.checked_sub(self.variables).map(|at| &self.placed[at])
    }

    /// The equations that are taken without more being said of them, and whether they hold. What is left of them is put on the list.
    fn work_off(&mut self, work: Work, list: &mut Vec<Work>, slip: Slip) -> (u64, bool) {
        let (left, right) = match work {
            Work::Equation(left, right) => (self.class_of(left), self.class_of(right)),
            Work::Join(left, right) => {
                let (left, right) = (self.class_of(left), self.class_of(right));
                self.parent[left] = right;
                return (0, true);
            }
        };
        if left == right {
            return (self.equal_terms(left, slip), true);
        }
        let failing = (slip != Slip::FailingFree) as u64;
        let (Some(a), Some(b)) = (self.placed(left), self.placed(right)) else {
            let equal = self.eliminate(left, right);
            return (if equal { 1 } else { failing }, equal);
        };
        let (a, b) = (a.applied.clone(), b.applied.clone());
        if a.symbol != b.symbol {
            return (failing, false);
        }
        if a.ground && b.ground {
            return self.ground_terms(left, right, failing, slip);
        }
        self.take_apart(left, right, list, slip);
        (1, true)
    }

    /// A term and itself.
    fn equal_terms(&mut self, class: usize, slip: Slip) -> u64 {
        match slip {
            Slip::EqualSkipped => 1,
            Slip::DroppedFree if class < self.variables => 0,
            _ => self.size(class),
        }
    }

    /// Terms without variables.
    fn ground_terms(&mut self, left: usize, right: usize, failing: u64, slip: Slip) -> (u64, bool) {
        let [a, b] = [left, right].map(|node| self.placed[node - self.variables].applied.clone());
        let (number, equal) = ground_equations(&a, &b);
        if equal {
            self.parent[left] = right;
        }
        let number = if equal { number } else { number - 1 + failing };
        match slip {
            Slip::GroundAtOnce => (number.min(1), equal),
            _ => (number, equal),
        }
    }

    /// A variable and another term: they get one class, unless the term contains the variable.
    fn eliminate(&mut self, left: usize, right: usize) -> bool {
        let (variable, term) = if left < self.variables {
            (left, right)
        } else {
            (right, left)
        };
        self.walk += 1;
        if self.contains(term, variable) {
            return false;
        }
        self.parent[variable] = term;
        if self.sized {
            self.sizes.fill(0);
            self.sized = false;
        }
        true
    }

    /// Two functors that are the same: their arguments are paired, in order.
    fn take_apart(&mut self, left: usize, right: usize, list: &mut Vec<Work>, slip: Slip) {
        list.push(Work::Join(left, right));
        let (from, to) = (self.lay_out(left), self.lay_out(right));
        let arguments = self.placed[left - self.variables].applied.arguments.len();
        let first = list.len();
        for at in (0..arguments).rev() {
            list.push(Work::Equation(
                self.children[from + at],
                self.children[to + at],
            ));
        }
        if slip == Slip::LastFirst {
            list[first..].reverse();
        }
    }

    /// The children of a placed term as nodes, made once.
    fn lay_out(&mut self, class: usize) -> usize {
        let at = class - self.variables;
        if let Some(first) = self.placed[at].children {
            return first;
        }
        let Placed { applied, shift, .. } = self.placed[at].clone();
        let nodes: Vec<usize> = applied
            .arguments
            .iter()
            .map(|argument| self.node(argument, shift))
            .collect();
        let first = self.children.len();
        self.children.extend(nodes);
        self.placed[at].children = Some(first);
        first
    }

    /// Whether the variable is in the node's term. Each class is looked at once in a walk.
    fn contains(&mut self, node: usize, variable: usize) -> bool {
        let class = self.class_of(node);
        if class == variable {
            return true;
        }
        if self.seen[class] == self.walk {
            return false;
        }
        self.seen[class] = self.walk;
        let Some(placed) = self.placed(class).cloned() else {
            return false;
        };
        match placed.children {
            None => self.plain_contains(&placed.applied, placed.shift, variable),
            Some(first) => {
                let mut children = first..first + placed.applied.arguments.len();
                children.any(|at| self.contains(self.children[at], variable))
            }
        }
    }

    /// Children that were never laid out are walked as plain terms.
    fn plain_contains(&mut self, applied: &Applied, shift: usize, variable: usize) -> bool {
        let mut arguments = applied.arguments.iter();
        !applied.ground
            && arguments.any(|argument| match argument {
                Term::Variable(number) => self.contains(number + shift, variable),
                Term::Applied(inner) => self.plain_contains(inner, shift, variable),
            })
    }

    /// The sizes of all variables' terms.
    fn measure(&mut self) {
        for variable in 0..self.variables {
            self.size(variable);
        }
    }

    /// Cells of the node's term written out, as the classes are. No class lies inside itself.
    fn size(&mut self, node: usize) -> u64 {
        let class = self.class_of(node);
        if self.sizes[class] > 0 {
            return self.sizes[class];
        }
        let size = match self.placed(class).cloned() {
            None => 1,
            Some(placed) => self.placed_size(&placed).min(MOST),
        };
        self.sizes[class] = size;
        self.sized = true;
        size
    }

    fn placed_size(&mut self, placed: &Placed) -> u64 {
        let Some(first) = placed.children else {
            return self.plain_size(&placed.applied, placed.shift);
        };
        let children = first..first + placed.applied.arguments.len();
        1 + children.map(|at| self.size(self.children[at])).sum::<u64>()
    }

    fn plain_size(&mut self, applied: &Applied, shift: usize) -> u64 {
        if applied.ground {
            return applied.words as u64;
        }
        let arguments = applied.arguments.iter();
        1 + arguments
            .map(|argument| match argument {
                Term::Variable(number) => self.size(number + shift),
                Term::Applied(inner) => self.plain_size(inner, shift),
            })
            .sum::<u64>()
    }

    /// Words of a term of the goal or clause under the unifier.
    pub fn term_words(&self, term: &Term, shift: usize) -> usize {
        match term {
            Term::Applied(applied) => self.applied_words(applied, shift),
            Term::Variable(number) => self.sizes[self.class(number + shift)] as usize,
        }
    }

    pub fn applied_words(&self, applied: &Applied, shift: usize) -> usize {
        if applied.ground {
            return applied.words;
        }
        let arguments = applied.arguments.iter();
        1 + arguments
            .map(|term| self.term_words(term, shift))
            .sum::<usize>()
    }
}

/// The equations taken between two terms without variables, and whether they are equal.
fn ground_equations(a: &Rc<Applied>, b: &Rc<Applied>) -> (u64, bool) {
    if Rc::ptr_eq(a, b) {
        return (a.words as u64, true);
    }
    let mut equations = 1;
    if a.symbol != b.symbol {
        return (equations, false);
    }
    for pair in a.arguments.iter().zip(&b.arguments) {
        let (Term::Applied(a), Term::Applied(b)) = pair else {
            unreachable!("terms without variables");
        };
        let (inside, equal) = ground_equations(a, b);
        equations += inside;
        if !equal {
            return (equations, false);
        }
    }
    (equations, true)
}

/// Writes terms under a unifier, variables renumbered by first appearance.
pub struct Rewriter<'a> {
    unifier: &'a Unifier,
    numbers: Vec<Option<usize>>,
    next: usize,
}

impl<'a> Rewriter<'a> {
    pub fn new(unifier: &'a Unifier) -> Rewriter<'a> {
        Rewriter {
            unifier,
            numbers: vec![None; unifier.variables],
            next: 0,
        }
    }

    /// Number of variables written so far.
    pub fn variables(&self) -> usize {
        self.next
    }

    pub fn term(&mut self, term: &Term, shift: usize) -> Term {
        let number = match term {
            Term::Applied(applied) => return Term::Applied(self.applied(applied, shift)),
            Term::Variable(number) => *number,
        };
        let unifier = self.unifier;
        let class = unifier.class(number + shift);
        match unifier.placed(class) {
            Some(placed) => Term::Applied(self.applied(&placed.applied, placed.shift)),
            None => Term::Variable(self.renumber(class)),
        }
    }

    pub fn literal(&mut self, literal: &Literal, shift: usize) -> Literal {
        Literal {
            negated: literal.negated,
            atom: self.applied(&literal.atom, shift),
        }
    }

    fn applied(&mut self, applied: &Rc<Applied>, shift: usize) -> Rc<Applied> {
        if applied.ground {
            return applied.clone();
        }
        let arguments = applied.arguments.iter();
        let arguments = arguments.map(|term| self.term(term, shift)).collect();
        Applied::new(applied.symbol, arguments)
    }

    fn renumber(&mut self, class: usize) -> usize {
        if let Some(number) = self.numbers[class] {
            return number;
        }
        let number = self.next;
        self.numbers[class] = Some(number);
        self.next += 1;
        number
    }
}
