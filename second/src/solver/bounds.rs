//! The solver's first phase. A sum is never below a bound that it adds up, for weights are at least 1; so the smallest new bound on offer is
//! final, as in Dijkstra's shortest paths, and each bound is lowered at most once. That holds from any first bounds, those of tagged inputs too.

use std::cmp::Reverse;
use std::collections::BinaryHeap;

use super::{occurrences, Linear};
use crate::reader::Circuit;
use crate::rules::{larger_root, Standing, Step, ROOT, SUM};

/// A step on offer in the solver's order: new bound, target, kind, constraint. Least first.
type Offer = Reverse<(u64, u16, u8, u16)>;

/// Lowers bounds until no step lowers one.
pub fn lower_all(circuit: &Circuit, linear: &[Linear], standing: &mut Standing) -> Vec<Step> {
    let places = occurrences(circuit, linear.iter().map(|linear| &linear.reduced.terms[..]));
    let mut offers = BinaryHeap::new();
    offer_roots(circuit, &mut offers);
    let mut sums: Vec<Sums> = linear.iter().map(|linear| Sums::new(linear, circuit, standing)).collect();
    sums.iter().for_each(|sums| sums.offer(standing, &mut offers));
    let mut steps = Vec::new();
    while let Some(Reverse((bound, target, kind, constraint))) = offers.pop() {
        // An offer that has been outdone since is above the bound that outdid it.
        let old = standing.bound(target);
        if bound >= old {
            continue;
        }
        standing.lower(target, bound);
        steps.push(Step::new(kind, target, constraint, 0));
        for &(list, position) in &places[usize::from(target)] {
            sums[list].lower(position, old - bound);
            sums[list].offer(standing, &mut offers);
        }
    }
    steps
}

fn offer_roots(circuit: &Circuit, offers: &mut BinaryHeap<Offer>) {
    for (number, constraint) in (1..).zip(&circuit.constraints) {
        if let [(target, _)] = *constraint.a.signals() {
            if let Some(root) = larger_root(constraint, target, circuit.field) {
                offers.push(Reverse((root, target, ROOT, number)));
            }
        }
    }
}

/// For each signal of a linear constraint the number that the sum rule finds for it, kept up to date.
struct Sums<'a> {
    linear: &'a Linear,
    circuit: &'a Circuit,
    values: Vec<u128>,
}

impl<'a> Sums<'a> {
    fn new(linear: &'a Linear, circuit: &'a Circuit, standing: &Standing) -> Sums<'a> {
        let field = circuit.field;
        let terms = &linear.reduced.terms;
        let value = |target: usize| {
            let scale = field.negate(linear.inverses[target]);
            let others = terms.iter().enumerate().filter(|&(other, _)| other != target);
            let products = others.map(|(_, &(signal, c))| u128::from(field.mul(c, scale)) * u128::from(standing.bound(signal)));
            products.sum::<u128>() + u128::from(field.mul(linear.reduced.constant, scale))
        };
        Sums { linear, circuit, values: (0..terms.len()).map(value).collect() }
    }

    /// Takes note that the bound of the signal at this position fell by a difference.
    fn lower(&mut self, position: usize, difference: u64) {
        let field = self.circuit.field;
        let negative = field.negate(self.linear.reduced.terms[position].1);
        for (target, (value, &inverse)) in self.values.iter_mut().zip(&self.linear.inverses).enumerate() {
            if target != position {
                *value -= u128::from(field.mul(negative, inverse)) * u128::from(difference);
            }
        }
    }

    /// Offers every sum that lowers a bound. All bounds are below p, so that the sum is too.
    fn offer(&self, standing: &Standing, offers: &mut BinaryHeap<Offer>) {
        for (&value, &(target, _)) in self.values.iter().zip(&self.linear.reduced.terms) {
            if value < u128::from(standing.bound(target)) {
                offers.push(Reverse((value as u64, target, SUM, self.linear.number)));
            }
        }
    }
}
