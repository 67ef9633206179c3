//! Circuits on which a listing of runs works longest: constraints that hold in every run and name the last signal, so that each is looked at in each candidate;
//! behind or before them some that hold nowhere, or in the last candidate alone.

use crate::worst::bit;
use crate::writer::{Draft, Terms};

/// The most bytes of a circuit.
const MOST_BYTES: usize = 60_000;

/// The most constraints.
const MOST_CONSTRAINTS: usize = 512;

/// The constraints at the end of a circuit.
pub type End = fn(&mut Draft);

/// There are none: everything satisfies the circuit.
pub fn everywhere(_: &mut Draft) {}

/// Nothing satisfies the circuit.
pub fn nowhere(draft: &mut Draft) {
    let last = draft.n;
    draft.add(&[], &[(last, 1)], &[(0, 1)]);
}

/// Only the last candidate does: every value is p - 1.
pub fn at_last(draft: &mut Draft) {
    let last = draft.n;
    (1..=last).for_each(|signal| draft.add(&[], &[(last, 1)], &[(signal, 1), (0, 1)]));
}

/// As many constraints of as many terms as go.
pub fn dense(p: u32, n: u16, end: End) -> Draft {
    let all: Terms = (0..=n).map(|signal| (signal, 1 + i64::from(signal) % i64::from(p - 1))).collect();
    let twice: Terms = all.iter().map(|&(signal, coefficient)| (signal, 2 * coefficient)).collect();
    filled(Draft::new(p, n, 0, n), [&[(0, 2)], &all, &twice], end)
}

/// As many constraints of few terms as go.
pub fn sparse(p: u32, n: u16, end: End) -> Draft {
    filled(Draft::new(p, n, 0, n), [&[(0, 1)], &[(n, 1)], &[(n, 1)]], end)
}

/// The constraint again and again, as often as the file and its numbers allow, and then the end.
fn filled(draft: Draft, [a, b, c]: [&[(u16, i64)]; 3], end: End) -> Draft {
    let mut ended = draft.clone();
    end(&mut ended);
    let size = draft.clone().with(a, b, c).bytes().len() - draft.bytes().len();
    let count = (MOST_CONSTRAINTS - ended.constraints.len()).min((MOST_BYTES - ended.bytes().len()) / size);
    let mut whole = (0..count).fold(draft, |draft, _| draft.with(a, b, c));
    end(&mut whole);
    whole
}

/// 10 bits over p = 3 whose sum is 0.
pub fn bits_and_sum() -> Vec<u8> {
    let mut draft = Draft::new(3, 10, 0, 10);
    (1..=10).for_each(|signal| bit(&mut draft, signal));
    let sum: Terms = (1..=10).map(|signal| (signal, 1)).collect();
    draft.with(&[(0, 1)], &sum, &[]).bytes()
}

/// The circuits on which one call works longest, with their names: each with its end at the end, and at the start, as a lister may look from either side.
pub fn both_orders() -> Vec<(&'static str, [Vec<u8>; 2])> {
    let drafts = [
        ("dense, 3^10 candidates, nothing satisfies", dense(3, 10, nowhere)),
        ("dense, 3^10 candidates, only the last satisfies", dense(3, 10, at_last)),
        ("sparse, 3^10 candidates, nothing satisfies", sparse(3, 10, nowhere)),
        ("sparse, 3^10 candidates, only the last satisfies", sparse(3, 10, at_last)),
        ("dense, 251^2 candidates, only the last satisfies", dense(251, 2, at_last)),
        ("dense, 65,521 candidates, nothing satisfies", dense(65_521, 1, nowhere)),
        ("dense, 65,521 candidates, only the last satisfies", dense(65_521, 1, at_last)),
    ];
    let both = |(name, draft): (&'static str, Draft)| {
        let mut turned = draft.clone();
        turned.constraints.reverse();
        (name, [draft.bytes(), turned.bytes()])
    };
    drafts.into_iter().map(both).collect()
}

/// All of them.
pub fn all() -> Vec<(&'static str, Vec<u8>)> {
    both_orders().into_iter().flat_map(|(name, circuits)| circuits.map(|circuit| (name, circuit))).collect()
}
