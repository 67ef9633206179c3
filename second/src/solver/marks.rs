//! The solver's third phase. Bounds and nonzero marks stay and marks only grow, so a step that marks a target keeps doing so until the target is marked.

use std::collections::BTreeSet;

use super::{occurrences, Linear};
use crate::reader::{Circuit, Constraint};
use crate::rules::{are_digits, divisor, Standing, Step, DIGITS, PRODUCT, QUOTIENT, ZERO};

/// Marks signals until no step marks one.
pub fn mark_all(circuit: &Circuit, linear: &[Linear], standing: &mut Standing) -> Vec<Step> {
    let mut marking = Marking::new(circuit, linear, standing);
    let mut steps = Vec::new();
    while let Some(target) = marking.ready.pop_first() {
        steps.push(marking.step_for(target, standing));
        standing.mark(target);
        marking.note_mark(target, standing);
    }
    steps
}

/// What is known of every constraint under the present marks.
struct Marking<'a> {
    counted: Vec<Counted>,
    digits: Vec<Digits<'a>>,
    in_counted: Vec<Vec<(usize, usize)>>,
    in_digits: Vec<Vec<(usize, usize)>>,
    /// The unmarked signals that some step marks.
    ready: BTreeSet<u16>,
}

impl<'a> Marking<'a> {
    fn new(circuit: &'a Circuit, linear: &'a [Linear], standing: &Standing) -> Marking<'a> {
        let nonlinear = (1..).zip(&circuit.constraints).filter(|(_, constraint)| !constraint.is_linear());
        let counted: Vec<Counted> = nonlinear.map(|(number, constraint)| Counted::new(number, constraint, standing)).collect();
        let mut digits: Vec<Digits> = linear.iter().map(|linear| Digits::new(linear, circuit, standing)).collect();
        let mut ready: BTreeSet<u16> = circuit.all_signals().filter(|&s| !standing.is_marked(s) && standing.bound(s) == 0).collect();
        ready.extend(counted.iter().filter_map(|counted| counted.step(standing)).map(|step| step.target));
        for digits in &mut digits {
            if digits.search(standing) {
                ready.extend(digits.unmarked(standing));
            }
        }
        let in_counted = occurrences(circuit, counted.iter().map(|counted| &counted.signals[..]));
        let in_digits = occurrences(circuit, linear.iter().map(|linear| &linear.reduced.terms[..]));
        Marking { counted, digits, in_counted, in_digits, ready }
    }

    /// The step that marks a ready target: lowest kind, constraint, reference.
    fn step_for(&self, target: u16, standing: &Standing) -> Step {
        if standing.bound(target) == 0 {
            return Step::new(ZERO, target, 0, 0);
        }
        let counted = self.in_counted[usize::from(target)].iter().filter_map(|&(list, _)| self.counted[list].step(standing));
        let first = |kind: u8| counted.clone().find(|step| step.kind == kind);
        let mut digits = self.in_digits[usize::from(target)].iter().map(|&(list, _)| &self.digits[list]);
        let mut first_digits = || digits.find_map(|digits| Some(Step::new(DIGITS, target, digits.linear.number, digits.reference()?)));
        first(PRODUCT).or_else(&mut first_digits).or_else(|| first(QUOTIENT)).expect("a ready target has a step")
    }

    /// Takes note of a new mark and of the targets that it makes ready.
    fn note_mark(&mut self, signal: u16, standing: &Standing) {
        for &(list, _) in &self.in_counted[usize::from(signal)] {
            self.counted[list].open -= 1;
            self.ready.extend(self.counted[list].step(standing).map(|step| step.target));
        }
        for &(list, position) in &self.in_digits[usize::from(signal)] {
            let digits = &mut self.digits[list];
            digits.leave_out(position, standing);
            let known = digits.reference().is_some();
            if digits.search(standing) && !known {
                self.ready.extend(digits.unmarked(standing));
            }
        }
    }
}

/// How a constraint marks a signal once it is the only unmarked one there: kind and reference.
type Way = Option<(u8, u16)>;

/// A constraint that isn't linear. A linear one has no product and, as A and B both name a signal in those, no quotient.
struct Counted {
    number: u16,
    /// The signals of A, B and C.
    signals: Vec<(u16, Way)>,
    /// How many of them are unmarked.
    open: usize,
}

impl Counted {
    fn new(number: u16, constraint: &Constraint, standing: &Standing) -> Counted {
        let Constraint { a, b, c } = constraint;
        let named: BTreeSet<u16> = [a, b, c].iter().flat_map(|form| form.signals()).map(|&(signal, _)| signal).collect();
        let open = named.iter().filter(|&&signal| !standing.is_marked(signal)).count();
        let way = |signal: u16| match a.names(signal) || b.names(signal) {
            false => Some((PRODUCT, 0)),
            true => divisor(constraint, signal).filter(|&reference| standing.is_nonzero(reference)).map(|reference| (QUOTIENT, reference)),
        };
        Counted { number, signals: named.into_iter().map(|signal| (signal, way(signal))).collect(), open }
    }

    /// The step that marks the only unmarked signal, if there is one. Its reference is another one, and so marked.
    fn step(&self, standing: &Standing) -> Option<Step> {
        if self.open != 1 {
            return None;
        }
        let &(target, way) = self.signals.iter().find(|&&(signal, _)| !standing.is_marked(signal))?;
        way.map(|(kind, reference)| Step::new(kind, target, self.number, reference))
    }
}

/// A linear constraint and the lowest reference by which its unmarked signals are digits.
struct Digits<'a> {
    linear: &'a Linear,
    circuit: &'a Circuit,
    /// The references that differ: where each coefficient stands first. One that stands there again scales alike and is never the lowest.
    references: Vec<Reference>,
    /// How many of them are still in question; the next one, if any, is the lowest that meets the rule.
    below: usize,
}

/// A reference and the weights that it gives.
struct Reference {
    position: usize,
    /// The sum of weight times bound over the unmarked signals.
    sum: u128,
    /// The signals by rising weight, listed when first needed.
    order: Vec<(u64, u16)>,
}

impl<'a> Digits<'a> {
    fn new(linear: &'a Linear, circuit: &'a Circuit, standing: &Standing) -> Digits<'a> {
        let mut digits = Digits { linear, circuit, references: Vec::new(), below: 0 };
        let terms = &linear.reduced.terms;
        let mut seen = BTreeSet::new();
        for position in (0..terms.len()).filter(|&position| seen.insert(terms[position].1)) {
            let unmarked = terms.iter().filter(|&&(signal, _)| !standing.is_marked(signal));
            let products = unmarked.map(|&(signal, c)| u128::from(digits.weight(position, c)) * u128::from(standing.bound(signal)));
            let sum = products.sum();
            digits.references.push(Reference { position, sum, order: Vec::new() });
        }
        digits.below = digits.references.len();
        digits
    }

    /// The weight of a coefficient after scaling by the reference at a position.
    fn weight(&self, position: usize, coefficient: u64) -> u64 {
        self.circuit.field.mul(coefficient, self.linear.inverses[position])
    }

    /// The lowest reference that meets the rule.
    fn reference(&self) -> Option<u16> {
        self.references.get(self.below).map(|reference| self.linear.reduced.terms[reference.position].0)
    }

    fn unmarked<'s>(&'s self, standing: &'s Standing) -> impl Iterator<Item = u16> + 's {
        self.linear.reduced.terms.iter().map(|&(signal, _)| signal).filter(|&signal| !standing.is_marked(signal))
    }

    /// Takes the signal at a position, now marked, out of the sums and lists.
    fn leave_out(&mut self, position: usize, standing: &Standing) {
        let (signal, coefficient) = self.linear.reduced.terms[position];
        let bound = u128::from(standing.bound(signal));
        for index in 0..self.below {
            let weight = self.weight(self.references[index].position, coefficient);
            let reference = &mut self.references[index];
            reference.sum -= u128::from(weight) * bound;
            reference.order.retain(|&(_, other)| other != signal);
        }
    }

    /// Looks for a lower reference that meets the rule; true if there is one.
    fn search(&mut self, standing: &Standing) -> bool {
        let found = (0..self.below).find(|&index| self.is_met(index, standing));
        self.below = found.unwrap_or(self.below);
        found.is_some()
    }

    fn is_met(&mut self, index: usize, standing: &Standing) -> bool {
        let Reference { position, sum, ref order } = self.references[index];
        if sum >= u128::from(self.circuit.field.prime()) {
            return false;
        }
        if order.is_empty() {
            let unmarked = self.linear.reduced.terms.iter().filter(|&&(signal, _)| !standing.is_marked(signal));
            let mut order: Vec<(u64, u16)> = unmarked.map(|&(signal, c)| (self.weight(position, c), signal)).collect();
            order.sort_unstable();
            self.references[index].order = order;
        }
        let order = self.references[index].order.iter();
        are_digits(order.map(|&(weight, signal)| (weight, standing.bound(signal))), self.circuit.field)
    }
}
