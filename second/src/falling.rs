//! Circuits on which bounds fall again and again, so that a derivation has 4,096 steps of which none is idle. Marks can't give that many: each signal is
//! marked once. But each lower bound of the last signal of a chain can be handed on along the whole chain.

use crate::marker::{write_steps, MOST_STEPS};
use crate::rules::{Step, ROOT, SUM, ZERO};
use crate::wide_digits::{wide_sum, zero};
use crate::writer::{Draft, Terms};

/// A circuit and a derivation of 4,096 steps for it, none of them idle.
pub struct Falling {
    pub circuit: Vec<u8>,
    pub derivation: Vec<u8>,
}

impl Falling {
    fn new(draft: &Draft, steps: &[Step]) -> Falling {
        assert!(steps.len() == MOST_STEPS);
        Falling { circuit: draft.bytes(), derivation: write_steps(steps) }
    }
}

/// Rounds: the root of each of these constraints for the last signal of a chain, then the sums along the chain, the last first.
fn rounds(last: u16, roots: std::ops::Range<u16>) -> impl Iterator<Item = Step> {
    let sums = move || (1..last).rev().map(|signal| Step::new(SUM, signal, signal, 0));
    roots.flat_map(move |constraint| std::iter::once(Step::new(ROOT, last, constraint, 0)).chain(sums()))
}

/// 64 signals, each equal to the next, and 63 roots of the last, 62 down to 0; at the end each signal is marked as zero. Fixed.
pub fn chain() -> Falling {
    let mut draft = Draft::new(127, 64, 0, 64);
    (1..64).for_each(|signal| draft.add(&[(0, 1)], &[(signal, -1), (signal + 1, 1)], &[]));
    (0..63).rev().for_each(|larger| draft.add(&[(64, 1)], &[(64, 1), (0, -larger)], &[]));
    let zeros = (1..=64).map(|signal| Step::new(ZERO, signal, 0, 0));
    Falling::new(&draft, &rounds(64, 64..127).chain(zeros).collect::<Vec<Step>>())
}

/// 143 signals, each equal to the next plus 62 zeros, so that every sum names 64 signals; and 29 roots of the last, 29 down to 1. Open.
pub fn wide_chain() -> Falling {
    let (last, zeros) = (143, 144..=205);
    let mut draft = Draft::new(2_147_483_647, 205, 0, 143);
    for signal in 1..last {
        let mut terms: Terms = vec![(signal, -1), (signal + 1, 1)];
        terms.extend(zeros.clone().map(|zero| (zero, i64::from(zero) * i64::from(signal) + 5)));
        wide_sum(&mut draft, &terms);
    }
    zeros.clone().for_each(|signal| zero(&mut draft, signal));
    (1..30).rev().for_each(|larger| draft.add(&[(last, 1)], &[(last, 1), (0, -larger)], &[]));
    let first = zeros.map(|signal| Step::new(ROOT, signal, signal - 1, 0));
    Falling::new(&draft, &first.chain(rounds(last, 205..234)).take(MOST_STEPS).collect::<Vec<Step>>())
}
