//! The rules and the solver in the words of document 01, with no thought of speed: maps for everything, inverses by Euclid, searches over all steps.

// Each test uses a part of this.
#![allow(dead_code)]

pub mod calls;

use std::collections::{BTreeMap, BTreeSet};

use second::reader::{Circuit, Form};
use second::rules::{Step, DIGITS, NONZERO, PRODUCT, QUOTIENT, ROOT, STEPS, SUM, ZERO};
use second::sheet::Tag;

/// Coefficients by signal number, the constant at 0; those that are 0 aren't listed.
type Coefficients = BTreeMap<u16, i128>;

pub struct Literal<'a> {
    circuit: &'a Circuit,
    p: i128,
    reduced: Vec<Option<Coefficients>>,
    tags: &'a [Tag],
    tagging: Tagging,
    dividing: Dividing,
}

#[derive(Clone, Debug, PartialEq, Eq)]
pub struct Standing {
    pub bounds: BTreeMap<u16, i128>,
    pub marked: BTreeSet<u16>,
    pub nonzero: BTreeSet<u16>,
}

/// What the solver's orders compare, least first.
pub type Key = [i128; 4];

/// A phase of the solver.
#[derive(Clone, Copy)]
pub enum Phase {
    Bounds,
    Nonzero,
    Marks,
    /// Marks of both sorts as one.
    Both,
}

/// The solver's orders, each by what the right one compares: in bounds new bound, target, kind, constraint; in marks of both sorts target, kind, constraint,
/// reference; and its phases.
pub struct Orders {
    pub bounds: fn(Key) -> Key,
    pub nonzero: fn(Key) -> Key,
    pub marks: fn(Key) -> Key,
    pub phases: &'static [Phase],
}

impl Orders {
    pub const RIGHT: Orders =
        Orders { bounds: |key| key, nonzero: |key| key, marks: |key| key, phases: &[Phase::Bounds, Phase::Nonzero, Phase::Marks] };
}

/// An entry of a sheet at a standing.
pub struct Entry {
    pub number: u32,
    pub signal: u16,
    pub is_input: bool,
    pub bound: i128,
    pub limit: i128,
}

/// The limit that a kind and a number give.
pub type Limit = fn(u8, u32) -> i128;

/// The first bound of a signal: from p - 1 and the limits of the tags on it, in the sheet's order, and whether it is an input.
pub type First = fn(i128, &[i128], bool) -> i128;

/// What is answered of the entries: how many are shown, and the first that isn't.
pub type Shown = fn(&[Entry]) -> (u32, u32);

/// How tags are read, rightly or not.
#[derive(Clone, Copy)]
pub struct Tagging {
    pub limit: Limit,
    pub first: First,
    pub shown: Shown,
}

impl Tagging {
    pub const RIGHT: Tagging = Tagging {
        limit: |kind, number| match kind {
            1 => 1,
            2 => 2i128.pow(number) - 1,
            _ => i128::from(number),
        },
        first: |most, limits, is_input| if is_input { limits.iter().copied().fold(most, i128::min) } else { most },
        shown: |entries| {
            let told: Vec<&Entry> = entries.iter().filter(|entry| !entry.is_input).collect();
            let open = told.iter().find(|entry| entry.bound > entry.limit);
            (told.iter().filter(|entry| entry.bound <= entry.limit).count() as u32, open.map_or(0, |entry| entry.number))
        },
    };
}

/// A constraint's forms by the numbers in them, 0 for the constant; the step's target and reference, the latter 0 where there is none; and the marks.
pub struct Division<'a> {
    pub forms: [BTreeSet<u16>; 3],
    pub target: u16,
    pub reference: u16,
    pub standing: &'a Standing,
}

impl Division<'_> {
    /// Whether the form is a multiple of the signal, or a constant other than 0.
    pub fn alone(&self, form: usize, signal: u16) -> bool {
        self.forms[form] == BTreeSet::from([signal])
    }

    /// Whether A or B, for which the other is named second, passes.
    pub fn either(&self, test: impl Fn(usize, usize) -> bool) -> bool {
        test(0, 1) || test(1, 0)
    }

    /// Whether all signals of a form but the target are marked.
    pub fn others_marked(&self, form: usize) -> bool {
        self.forms[form].iter().all(|&signal| signal == 0 || signal == self.target || self.standing.marked.contains(&signal))
    }
}

/// How the quotient rule is read, part by part; it is met if all of them hold.
#[derive(Clone, Copy)]
pub struct Quotient {
    /// Of the form that divides.
    pub divisor: fn(&Division, usize) -> bool,
    /// Of the target and C.
    pub product: fn(&Division) -> bool,
    /// Of the reference and the target.
    pub other: fn(&Division) -> bool,
    /// Of the reference's mark.
    pub marked: fn(&Division) -> bool,
    /// Of the reference's nonzero mark.
    pub nonzero: fn(&Division) -> bool,
    /// Of all other signals' marks.
    pub others: fn(&Division) -> bool,
    /// Anything more.
    pub more: fn(&Division) -> bool,
}

impl Quotient {
    /// A multiple of the reference, which has both marks, times a form with the target, another signal, is a form without it, and all other signals are marked.
    pub const RIGHT: Quotient = Quotient {
        divisor: |at, form| at.alone(form, at.reference),
        product: |at| !at.forms[2].contains(&at.target),
        other: |at| at.reference != at.target,
        marked: |at| at.standing.marked.contains(&at.reference),
        nonzero: |at| at.standing.nonzero.contains(&at.reference),
        others: |at| (0..3).all(|form| at.others_marked(form)),
        more: |_| true,
    };

    fn is_met(&self, at: &Division) -> bool {
        let Quotient { divisor, product, other, marked, nonzero, others, more } = self;
        at.either(|one, two| divisor(at, one) && at.forms[two].contains(&at.target))
            && [product, other, marked, nonzero, others, more].into_iter().all(|part| part(at))
    }
}

/// How the division rules are read, rightly or not.
#[derive(Clone, Copy)]
pub struct Dividing {
    pub nonzero: fn(&Division) -> bool,
    pub quotient: Quotient,
}

impl Dividing {
    /// Nonzero: C is a constant other than 0, and A or B is a multiple of the target.
    pub const RIGHT: Dividing = Dividing { nonzero: |at| at.alone(2, 0) && at.either(|one, _| at.alone(one, at.target)), quotient: Quotient::RIGHT };
}

fn coefficients(form: &Form) -> Coefficients {
    form.terms.iter().map(|&(signal, c)| (signal, i128::from(c))).collect()
}

fn names_no_signal(form: &Form) -> bool {
    coefficients(form).keys().all(|&signal| signal == 0)
}

/// 1/a modulo p by Euclid.
fn inverse(a: i128, p: i128) -> i128 {
    let (mut r0, mut r1, mut t0, mut t1) = (p, a.rem_euclid(p), 0, 1);
    while r1 != 0 {
        let q = r0 / r1;
        (r0, r1, t0, t1) = (r1, r0 - q * r1, t1, t0 - q * t1);
    }
    t0.rem_euclid(p)
}

impl<'a> Literal<'a> {
    pub fn new(circuit: &'a Circuit, tags: &'a [Tag]) -> Literal<'a> {
        Literal::with(circuit, tags, Tagging::RIGHT)
    }

    pub fn with(circuit: &'a Circuit, tags: &'a [Tag], tagging: Tagging) -> Literal<'a> {
        let p = i128::from(circuit.field.prime());
        let reduced = circuit.constraints.iter().map(|constraint| {
            if !names_no_signal(&constraint.a) && !names_no_signal(&constraint.b) {
                return None;
            }
            let [a, b, c] = [&constraint.a, &constraint.b, &constraint.c].map(coefficients);
            let at = |form: &Coefficients, signal: u16| form.get(&signal).copied().unwrap_or(0);
            let (a0, b0) = (at(&a, 0), at(&b, 0));
            let all = (0..=circuit.signals).map(|s| {
                let less = if s == 0 { a0 * b0 } else { 0 };
                (s, (a0 * at(&b, s) + b0 * at(&a, s) - less - at(&c, s)).rem_euclid(p))
            });
            Some(all.filter(|&(_, c)| c != 0).collect())
        });
        Literal { circuit, p, reduced: reduced.collect(), tags, tagging, dividing: Dividing::RIGHT }
    }

    /// The same with the division rules read in some way.
    pub fn dividing(self, dividing: Dividing) -> Literal<'a> {
        Literal { dividing, ..self }
    }

    pub fn start(&self) -> Standing {
        let bound = |signal: u16| {
            let on_signal = self.tags.iter().filter(|tag| tag.signal == signal);
            let limits: Vec<i128> = on_signal.map(|tag| (self.tagging.limit)(tag.kind, tag.number)).collect();
            (self.tagging.first)(self.p - 1, &limits, signal <= self.circuit.inputs)
        };
        let bounds = self.circuit.all_signals().map(|s| (s, bound(s))).collect();
        Standing { bounds, marked: (1..=self.circuit.inputs).collect(), nonzero: BTreeSet::new() }
    }

    /// What is answered of a standing: marked count, 1 if every output is marked, shown count, first not shown.
    pub fn judge(&self, standing: &Standing) -> [u32; 4] {
        let Circuit { inputs, outputs, .. } = *self.circuit;
        let fixed = (inputs + 1..=inputs + outputs).all(|output| standing.marked.contains(&output));
        let entries = (1..).zip(self.tags).map(|(number, &Tag { signal, kind, number: v })| Entry {
            number,
            signal,
            is_input: signal <= inputs,
            bound: standing.bounds[&signal],
            limit: (self.tagging.limit)(kind, v),
        });
        let (shown, unshown) = (self.tagging.shown)(&entries.collect::<Vec<Entry>>());
        [standing.marked.len() as u32, u32::from(fixed), shown, unshown]
    }

    /// The standing after a step, none if its rule isn't met.
    pub fn take(&self, standing: &Standing, step: Step) -> Option<Standing> {
        let mut next = standing.clone();
        match step.kind {
            ROOT | SUM => {
                let bound = if step.kind == ROOT { self.root(step)? } else { self.sum(standing, step)? };
                next.bounds.insert(step.target, bound.min(standing.bounds[&step.target]));
            }
            NONZERO => {
                if !(self.dividing.nonzero)(&self.division(standing, step)) {
                    return None;
                }
                next.nonzero.insert(step.target);
            }
            _ => {
                let met = match step.kind {
                    ZERO => standing.bounds[&step.target] == 0,
                    PRODUCT => self.product(standing, step),
                    DIGITS => self.digits(standing, step),
                    _ => self.dividing.quotient.is_met(&self.division(standing, step)),
                };
                if !met {
                    return None;
                }
                next.marked.insert(step.target);
            }
        }
        Some(next)
    }

    fn root(&self, step: Step) -> Option<i128> {
        let constraint = &self.circuit.constraints[usize::from(step.constraint) - 1];
        let mut roots = Vec::new();
        for form in [&constraint.a, &constraint.b] {
            let form = coefficients(form);
            if form.keys().filter(|&&signal| signal != 0).collect::<Vec<_>>() != [&step.target] {
                return None;
            }
            roots.push((-form.get(&0).copied().unwrap_or(0) * inverse(form[&step.target], self.p)).rem_euclid(self.p));
        }
        constraint.c.terms.is_empty().then(|| roots[0].max(roots[1]))
    }

    fn sum(&self, standing: &Standing, step: Step) -> Option<i128> {
        let reduced = self.reduced[usize::from(step.constraint) - 1].as_ref()?;
        let factor = -inverse(*reduced.get(&step.target)?, self.p);
        let mut sum = 0;
        for (signal, c) in reduced.iter().filter(|&(&signal, _)| signal != step.target) {
            sum += (c * factor).rem_euclid(self.p) * if *signal == 0 { 1 } else { standing.bounds[signal] };
        }
        (sum < self.p).then_some(sum)
    }

    fn product(&self, standing: &Standing, step: Step) -> bool {
        let constraint = &self.circuit.constraints[usize::from(step.constraint) - 1];
        let [a, b, c] =
            [&constraint.a, &constraint.b, &constraint.c].map(|form| coefficients(form).into_keys().filter(|&s| s != 0).collect::<BTreeSet<u16>>());
        let all: BTreeSet<u16> = a.iter().chain(&b).chain(&c).copied().collect();
        let linear = a.is_empty() || b.is_empty();
        let others_marked = all.iter().all(|signal| *signal == step.target || standing.marked.contains(signal));
        !linear && c.contains(&step.target) && !a.contains(&step.target) && !b.contains(&step.target) && others_marked
    }

    fn division<'s>(&self, standing: &'s Standing, step: Step) -> Division<'s> {
        let constraint = &self.circuit.constraints[usize::from(step.constraint) - 1];
        let forms = [&constraint.a, &constraint.b, &constraint.c].map(|form| coefficients(form).into_keys().collect());
        Division { forms, target: step.target, reference: step.reference, standing }
    }

    fn digits(&self, standing: &Standing, step: Step) -> bool {
        let Some(reduced) = &self.reduced[usize::from(step.constraint) - 1] else { return false };
        if !reduced.contains_key(&step.target) || !reduced.contains_key(&step.reference) {
            return false;
        }
        let factor = inverse(reduced[&step.reference], self.p);
        let weights: Vec<(i128, i128)> = reduced
            .iter()
            .filter(|&(&signal, _)| signal != 0 && !standing.marked.contains(&signal))
            .map(|(signal, c)| ((c * factor).rem_euclid(self.p), standing.bounds[signal]))
            .collect();
        let differ = (0..weights.len()).all(|x| (0..x).all(|y| weights[x].0 != weights[y].0));
        let exceed = weights.iter().all(|&(weight, _)| weight > weights.iter().filter(|(w, _)| *w < weight).map(|(w, b)| w * b).sum());
        differ && exceed && weights.iter().map(|(w, b)| w * b).sum::<i128>() < self.p
    }

    /// All steps with fields in range, by target, kind, constraint, reference.
    pub fn all_steps(&self) -> Vec<Step> {
        let mut steps = Vec::new();
        let m = self.circuit.constraints.len() as u16;
        for target in self.circuit.all_signals() {
            for kind in STEPS {
                let constraints = if kind == ZERO { 0..=0 } else { 1..=m };
                for constraint in constraints {
                    let references = if [DIGITS, QUOTIENT].contains(&kind) { 1..=self.circuit.signals } else { 0..=0 };
                    steps.extend(references.map(|reference| Step::new(kind, target, constraint, reference)));
                }
            }
        }
        steps
    }

    /// The solver, as worded.
    pub fn solve(&self) -> (Vec<Step>, Standing) {
        self.solve_by(&Orders::RIGHT)
    }

    /// The solver with any orders.
    pub fn solve_by(&self, orders: &Orders) -> (Vec<Step>, Standing) {
        let (mut standing, mut steps) = (self.start(), Vec::new());
        for phase in orders.phases {
            match phase {
                Phase::Bounds => self.lower_all(orders.bounds, &mut standing, &mut steps),
                Phase::Nonzero => self.mark_all(orders.nonzero, &[NONZERO], &mut standing, &mut steps),
                Phase::Marks => self.mark_all(orders.marks, &[ZERO, PRODUCT, DIGITS, QUOTIENT], &mut standing, &mut steps),
                Phase::Both => self.mark_all(orders.marks, &[ZERO, PRODUCT, DIGITS, NONZERO, QUOTIENT], &mut standing, &mut steps),
            }
        }
        (steps, standing)
    }

    fn lower_all(&self, order: fn(Key) -> Key, standing: &mut Standing, steps: &mut Vec<Step>) {
        let all = self.all_steps();
        loop {
            let offers = all.iter().filter(|step| [ROOT, SUM].contains(&step.kind)).filter_map(|&step| {
                let new = self.take(standing, step)?.bounds[&step.target];
                let key = [new, i128::from(step.target), i128::from(step.kind), i128::from(step.constraint)];
                (new < standing.bounds[&step.target]).then_some((order(key), step))
            });
            let Some((_, step)) = offers.min() else { return };
            steps.push(step);
            *standing = self.take(standing, step).unwrap();
        }
    }

    /// Steps of these kinds that change the standing, the first in the order each time.
    fn mark_all(&self, order: fn(Key) -> Key, kinds: &[u8], standing: &mut Standing, steps: &mut Vec<Step>) {
        let mut all = self.all_steps();
        all.retain(|step| kinds.contains(&step.kind));
        all.sort_by_key(|step| order([step.target, step.kind.into(), step.constraint, step.reference].map(i128::from)));
        let has = |standing: &Standing, step: &Step| if step.kind == NONZERO { &standing.nonzero } else { &standing.marked }.contains(&step.target);
        while let Some((step, next)) = all.iter().filter(|step| !has(standing, step)).find_map(|step| Some((*step, self.take(standing, *step)?))) {
            steps.push(step);
            *standing = next;
        }
    }

    /// The standing after every step that there is, again and again, in the order given.
    pub fn closure(&self, steps: &[Step]) -> Standing {
        let mut standing = self.start();
        loop {
            let before = standing.clone();
            for &step in steps {
                standing = self.take(&standing, step).unwrap_or(standing);
            }
            if standing == before {
                return standing;
            }
        }
    }
}
