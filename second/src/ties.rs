//! Circuits on which the solver must choose between steps, for every two neighbouring places of its orders: in bounds new bound, target, kind, constraint; in
//! nonzero marks target, constraint; in marks target, kind, constraint, reference.

use crate::writer::{Draft, Terms};

/// Each circuit is over all of these.
const PRIMES: [u32; 3] = [7, 13, 65_537];

type Constraint = [Terms; 3];

/// A signal that is 0 or this number, by the root rule.
fn root(signal: u16, larger: i64) -> Constraint {
    [vec![(signal, 1)], vec![(signal, 1), (0, -larger)], vec![]]
}

/// The terms' sum is 0.
fn sum(terms: &[(u16, i64)]) -> Constraint {
    [vec![(0, 1)], terms.to_vec(), vec![]]
}

/// The signal is the product of the two inputs.
fn product(signal: u16) -> Constraint {
    [vec![(1, 1)], vec![(2, 1)], vec![(signal, 1)]]
}

/// The signal has this value, by the sum rule.
fn value(signal: u16, value: i64) -> Constraint {
    sum(&[(signal, 1), (0, -value)])
}

/// Ties in bounds: signals 3 and 4 over inputs 1 and 2.
fn bounds() -> Vec<Vec<Constraint>> {
    vec![
        // The smaller bound, though its target, kind or constraint is the higher.
        vec![root(3, 3), root(4, 1)],
        vec![root(3, 3), value(3, 2)],
        vec![root(3, 3), root(3, 2)],
        // The lower target, though its constraint or its kind is the higher.
        vec![root(4, 1), root(3, 1)],
        vec![root(4, 1), value(3, 1)],
        vec![value(4, 2), value(3, 2)],
        // Root before sum, though its constraint is the higher.
        vec![value(3, 1), root(3, 1)],
        vec![root(3, 1), value(3, 1)],
        // The lower constraint.
        vec![root(3, 1), root(3, 1)],
        vec![value(3, 2), value(3, 2)],
        vec![value(4, 2), sum(&[(3, 2), (4, -2)]), sum(&[(3, 1), (4, -1)])],
    ]
}

/// Ties in marks. A signal that equals an input has only itself as a reference, one that is minus an input both.
fn marks() -> Vec<Vec<Constraint>> {
    let (equal, minus) = (|signal: u16| sum(&[(signal, 1), (1, -1)]), |signal: u16| sum(&[(signal, 1), (1, 1)]));
    vec![
        // The lower target, though its constraint or its kind is the higher.
        vec![product(4), product(3)],
        vec![product(4), equal(3)],
        vec![equal(4), equal(3)],
        vec![root(4, 0), product(3)],
        vec![root(4, 0), equal(3)],
        vec![root(4, 0), root(3, 0)],
        // Zero before product and digits, product before digits, though the constraint is the higher.
        vec![product(3), root(3, 0)],
        vec![equal(3), root(3, 0)],
        vec![equal(3), product(3)],
        vec![minus(3), product(3), equal(3)],
        // The lower constraint, though the reference is the higher.
        vec![product(3), product(3)],
        vec![equal(3), equal(3)],
        vec![equal(3), minus(3)],
        // The lower reference: an input, an unmarked signal before the target, the target before another.
        vec![minus(3)],
        vec![minus(3), minus(3)],
        vec![root(3, 1), root(4, 1), sum(&[(1, 1), (3, 1), (4, -2)])],
        vec![root(3, 1), root(4, 1), sum(&[(1, -1), (3, 1), (4, 2)])],
    ]
}

/// A signal times another is a constant.
fn inverse(one: u16, other: u16) -> Constraint {
    [vec![(one, 1)], vec![(other, 1)], vec![(0, 1)]]
}

/// A signal divides inputs 1 and 2 together, and the other is what that gives.
fn quotient(divisor: u16, signal: u16) -> Constraint {
    [vec![(divisor, 1)], vec![(signal, 1)], vec![(1, 1), (2, 1)]]
}

/// Ties in nonzero marks, inputs among them, and with other marks and bounds.
fn nonzero() -> Vec<Vec<Constraint>> {
    vec![
        // The lower target, though its constraint is the higher; both of one constraint.
        vec![inverse(4, 4), inverse(3, 3)],
        vec![inverse(2, 4), inverse(1, 3)],
        vec![inverse(4, 1)],
        vec![inverse(3, 4), inverse(1, 2)],
        // The lowest constraint, whichever form.
        vec![inverse(4, 3), inverse(3, 2), inverse(2, 3)],
        vec![inverse(1, 2), inverse(2, 1), inverse(1, 1)],
        // After bounds, before marks; all three for one target.
        vec![inverse(1, 3), value(4, 2), root(4, 1)],
        vec![product(3), inverse(4, 2), value(3, 1)],
        vec![[vec![(0, 1)], vec![(3, 1)], vec![(0, 1)]], [vec![(4, 2)], vec![(0, 1)], vec![(0, 2)]]],
    ]
}

/// Ties in which a quotient takes part. Inputs 1 and 2 get nonzero marks by the last constraint, where it isn't said otherwise.
fn quotients() -> Vec<Vec<Constraint>> {
    let equal = |signal: u16| sum(&[(signal, 1), (1, -1)]);
    let lists = [
        // The lower target, though its constraint or its kind is the higher.
        vec![quotient(1, 4), quotient(1, 3)],
        vec![product(4), quotient(1, 3)],
        vec![equal(4), quotient(2, 3)],
        vec![root(4, 0), quotient(1, 3)],
        // Zero, product and digits before quotient, though the constraint is the higher.
        vec![quotient(1, 3), root(3, 0)],
        vec![quotient(1, 3), product(3)],
        vec![quotient(1, 3), equal(3)],
        vec![quotient(2, 3), equal(3), product(3)],
        // The lower constraint, though the reference is the higher; one reference, many constraints.
        vec![quotient(2, 3), quotient(1, 3)],
        vec![quotient(1, 3), quotient(2, 3)],
        vec![quotient(1, 3), quotient(1, 3), quotient(2, 4), quotient(1, 4)],
        // By a signal that is marked only then, which is the higher or the lower.
        vec![quotient(4, 3), equal(4), inverse(4, 4)],
        vec![quotient(3, 4), quotient(2, 3), inverse(3, 3), quotient(2, 4)],
        vec![inverse(3, 4), inverse(1, 3)],
        vec![inverse(4, 3), inverse(4, 2)],
    ];
    lists.into_iter().map(|constraints| [constraints, vec![inverse(1, 2)]].concat()).collect()
}

/// The circuits, each over several primes.
pub fn circuits() -> Vec<Vec<u8>> {
    let lists = [bounds(), marks(), nonzero(), quotients()].concat();
    let over = |p: u32| lists.iter().map(move |constraints| Draft { p, n: 4, i: 2, o: 2, constraints: constraints.clone() }.bytes());
    PRIMES.into_iter().flat_map(over).collect()
}
