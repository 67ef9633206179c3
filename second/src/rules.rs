//! The standing and its seven rules.

use std::collections::BTreeSet;

use crate::field::Field;
use crate::reader::{Circuit, Constraint, Form};
use crate::sheet::Tag;

pub const ROOT: u8 = 1;
pub const SUM: u8 = 2;
pub const ZERO: u8 = 3;
pub const PRODUCT: u8 = 4;
pub const DIGITS: u8 = 5;
pub const NONZERO: u8 = 6;
pub const QUOTIENT: u8 = 7;

/// All kinds of steps.
pub const STEPS: std::ops::RangeInclusive<u8> = ROOT..=QUOTIENT;

/// One step of a derivation, its fields as they stand in the file.
#[derive(Clone, Copy, Debug, PartialEq, Eq, PartialOrd, Ord)]
pub struct Step {
    pub kind: u8,
    pub target: u16,
    pub constraint: u16,
    pub reference: u16,
}

impl Step {
    pub fn new(kind: u8, target: u16, constraint: u16, reference: u16) -> Step {
        Step { kind, target, constraint, reference }
    }
}

/// A bound for each signal, the set of marked signals, and the set of those with a nonzero mark.
#[derive(Clone, Debug, PartialEq, Eq)]
pub struct Standing {
    bounds: Vec<u64>,
    marked: BTreeSet<u16>,
    nonzero: BTreeSet<u16>,
}

impl Standing {
    /// Every bound is p - 1, that of an input no more than the tags on it allow, exactly the inputs are marked, and there are no nonzero marks.
    pub fn start(circuit: &Circuit, tags: &[Tag]) -> Standing {
        let bounds = vec![circuit.field.prime() - 1; usize::from(circuit.signals)];
        let mut start = Standing { bounds, marked: (1..=circuit.inputs).collect(), nonzero: BTreeSet::new() };
        for tag in tags.iter().filter(|tag| tag.signal <= circuit.inputs) {
            start.lower(tag.signal, tag.limit());
        }
        start
    }

    pub fn bound(&self, signal: u16) -> u64 {
        self.bounds[usize::from(signal) - 1]
    }

    pub fn is_marked(&self, signal: u16) -> bool {
        self.marked.contains(&signal)
    }

    pub fn is_nonzero(&self, signal: u16) -> bool {
        self.nonzero.contains(&signal)
    }

    /// How many signals are marked.
    pub fn count(&self) -> usize {
        self.marked.len()
    }

    /// Whether every output is marked.
    pub fn is_fixed(&self, circuit: &Circuit) -> bool {
        (circuit.inputs + 1..=circuit.inputs + circuit.outputs).all(|output| self.is_marked(output))
    }

    /// Lowers the signal's bound to this one. False if it is as low already.
    pub(crate) fn lower(&mut self, signal: u16, bound: u64) -> bool {
        let old = &mut self.bounds[usize::from(signal) - 1];
        let lowers = bound < *old;
        *old = bound.min(*old);
        lowers
    }

    /// Marks the signal. False if it is marked already.
    pub(crate) fn mark(&mut self, signal: u16) -> bool {
        self.marked.insert(signal)
    }

    /// Gives the signal a nonzero mark. False if it has one already.
    pub(crate) fn mark_nonzero(&mut self, signal: u16) -> bool {
        self.nonzero.insert(signal)
    }
}

/// The reduced form of a linear constraint: a constant and the signals whose coefficient isn't 0, rising.
#[derive(Clone, Debug, PartialEq, Eq)]
pub struct Reduced {
    pub constant: u64,
    pub terms: Vec<(u16, u64)>,
}

impl Reduced {
    /// a0·B + b0·A - a0·b0 - C, if the constraint is linear.
    pub fn of(constraint: &Constraint, field: Field) -> Option<Reduced> {
        if !constraint.is_linear() {
            return None;
        }
        let (a0, b0) = (constraint.a.constant(), constraint.b.constant());
        let mut all = vec![(0, field.negate(field.mul(a0, b0)))];
        let mut append = |form: &Form, factor: u64| all.extend(form.terms.iter().map(|&(signal, c)| (signal, field.mul(factor, c))));
        append(&constraint.b, a0);
        append(&constraint.a, b0);
        append(&constraint.c, field.negate(1));
        all.sort_unstable();
        let mut terms: Vec<(u16, u64)> = Vec::with_capacity(all.len());
        for (signal, c) in all {
            match terms.last_mut() {
                Some((last, sum)) if *last == signal => *sum = field.add(*sum, c),
                _ => terms.push((signal, c)),
            }
        }
        let constant = terms[0].1;
        terms.retain(|&(signal, c)| signal > 0 && c > 0);
        Some(Reduced { constant, terms })
    }

    /// Where the signal stands among the terms.
    pub fn position(&self, signal: u16) -> Option<usize> {
        self.terms.binary_search_by_key(&signal, |&(signal, _)| signal).ok()
    }

    pub fn coefficient(&self, signal: u16) -> Option<u64> {
        self.position(signal).map(|position| self.terms[position].1)
    }
}

/// The larger of the two roots of a constraint that fits the root rule.
pub fn larger_root(constraint: &Constraint, target: u16, field: Field) -> Option<u64> {
    let root = |form: &Form| match form.signals() {
        &[(signal, c)] if signal == target => Some(field.mul(field.negate(form.constant()), field.inverse(c))),
        _ => None,
    };
    if !constraint.c.terms.is_empty() {
        return None;
    }
    Some(root(&constraint.a)?.max(root(&constraint.b)?))
}

/// The signals to which a constraint gives a nonzero mark: where C is a constant other than 0, those that are A or B but for a factor.
pub fn nonzero_signals(constraint: &Constraint) -> impl Iterator<Item = u16> + '_ {
    let is_constant = matches!(constraint.c.terms[..], [(0, _)]);
    [&constraint.a, &constraint.b].into_iter().filter(move |_| is_constant).filter_map(Form::single)
}

/// The reference by which the quotient rule may mark a target: A or B but for a factor, where the target is in the other form and not in C.
pub fn divisor(constraint: &Constraint, target: u16) -> Option<u16> {
    let Constraint { a, b, c } = constraint;
    let by = |divisor: &Form, other: &Form| divisor.single().filter(|&reference| reference != target && other.names(target) && !c.names(target));
    by(a, b).or_else(|| by(b, a))
}

/// A circuit with its reduced forms, ready to take steps.
pub struct Rules<'a> {
    pub circuit: &'a Circuit,
    reduced: Vec<Option<Reduced>>,
}

impl Rules<'_> {
    pub fn new(circuit: &Circuit) -> Rules<'_> {
        let reduced = circuit.constraints.iter().map(|constraint| Reduced::of(constraint, circuit.field)).collect();
        Rules { circuit, reduced }
    }

    /// Whether the fields are in range for the kind, and 0 where they must be.
    pub fn in_range(&self, step: Step) -> bool {
        let target = (1..=self.circuit.signals).contains(&step.target);
        let constraint = (1..=self.circuit.constraints.len()).contains(&usize::from(step.constraint));
        match step.kind {
            ROOT | SUM | PRODUCT | NONZERO => target && constraint && step.reference == 0,
            ZERO => target && step.constraint == 0 && step.reference == 0,
            _ => target && constraint && (1..=self.circuit.signals).contains(&step.reference),
        }
    }

    /// Takes a step whose fields are in range. False, and the standing as it was, if its rule isn't met.
    pub fn take(&self, standing: &mut Standing, step: Step) -> bool {
        self.progress(standing, step).is_some()
    }

    /// Takes a step whose fields are in range: whether it lowers a bound or adds a mark of either sort, and none if its rule isn't met. One that is met and
    /// does neither is idle.
    pub fn progress(&self, standing: &mut Standing, step: Step) -> Option<bool> {
        let Step { kind, target, constraint, reference } = step;
        let marks = match kind {
            ROOT => return larger_root(self.constraint(constraint), target, self.circuit.field).map(|bound| standing.lower(target, bound)),
            SUM => return self.sum(standing, target, constraint).map(|bound| standing.lower(target, bound)),
            NONZERO => return self.nonzero(target, constraint).then(|| standing.mark_nonzero(target)),
            ZERO => standing.bound(target) == 0,
            PRODUCT => self.product(standing, target, constraint),
            QUOTIENT => self.quotient(standing, target, constraint, reference),
            _ => self.digits(standing, target, constraint, reference),
        };
        marks.then(|| standing.mark(target))
    }

    fn constraint(&self, number: u16) -> &Constraint {
        &self.circuit.constraints[usize::from(number) - 1]
    }

    fn reduced(&self, number: u16) -> Option<&Reduced> {
        self.reduced[usize::from(number) - 1].as_ref()
    }

    /// The bound that the sum rule gives the target.
    fn sum(&self, standing: &Standing, target: u16, constraint: u16) -> Option<u64> {
        let field = self.circuit.field;
        let reduced = self.reduced(constraint)?;
        let scale = field.negate(field.inverse(reduced.coefficient(target)?));
        let mut sum = u128::from(field.mul(reduced.constant, scale));
        for &(signal, c) in reduced.terms.iter().filter(|&&(signal, _)| signal != target) {
            sum += u128::from(field.mul(c, scale)) * u128::from(standing.bound(signal));
        }
        (sum < u128::from(field.prime())).then_some(sum as u64)
    }

    fn product(&self, standing: &Standing, target: u16, constraint: u16) -> bool {
        let Constraint { a, b, c } = self.constraint(constraint);
        !self.constraint(constraint).is_linear()
            && c.names(target)
            && !a.names(target)
            && !b.names(target)
            && self.others_are_marked(standing, target, constraint)
    }

    fn nonzero(&self, target: u16, constraint: u16) -> bool {
        nonzero_signals(self.constraint(constraint)).any(|signal| signal == target)
    }

    fn quotient(&self, standing: &Standing, target: u16, constraint: u16, reference: u16) -> bool {
        standing.is_marked(reference)
            && standing.is_nonzero(reference)
            && divisor(self.constraint(constraint), target) == Some(reference)
            && self.others_are_marked(standing, target, constraint)
    }

    /// Whether all signals of a constraint but the target are marked.
    fn others_are_marked(&self, standing: &Standing, target: u16, constraint: u16) -> bool {
        let Constraint { a, b, c } = self.constraint(constraint);
        let mut others = [a, b, c].into_iter().flat_map(|form| form.signals()).filter(|&&(signal, _)| signal != target);
        others.all(|&(signal, _)| standing.is_marked(signal))
    }

    fn digits(&self, standing: &Standing, target: u16, constraint: u16, reference: u16) -> bool {
        let field = self.circuit.field;
        let Some(reduced) = self.reduced(constraint) else {
            return false;
        };
        let (Some(_), Some(coefficient)) = (reduced.coefficient(target), reduced.coefficient(reference)) else {
            return false;
        };
        let scale = field.inverse(coefficient);
        let unmarked = reduced.terms.iter().filter(|&&(signal, _)| !standing.is_marked(signal));
        let mut weights: Vec<(u64, u64)> = unmarked.map(|&(signal, c)| (field.mul(c, scale), standing.bound(signal))).collect();
        weights.sort_unstable();
        are_digits(weights.into_iter(), field)
    }
}

/// Whether weights with bounds, given by rising weight, differ, each exceeds the sum of weight times bound before it, and the whole sum is below p.
pub fn are_digits(weights: impl Iterator<Item = (u64, u64)>, field: Field) -> bool {
    let (mut last, mut sum) = (0, 0u128);
    for (weight, bound) in weights {
        if weight == last || u128::from(weight) <= sum {
            return false;
        }
        last = weight;
        sum += u128::from(weight) * u128::from(bound);
    }
    sum < u128::from(field.prime())
}
