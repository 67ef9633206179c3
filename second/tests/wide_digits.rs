//! The widest digits tests: the circuits are what they are said to be, and the steps of the derivations are met, but for those that are said not to be.

use second::marker::{read_steps, MOST_STEPS};
use second::rules::{Rules, Standing, Step, DIGITS, ROOT, ZERO};
use second::sheet::NO_TAGS;
use second::solver::derive;
use second::wide_digits::{all_padded, broken_sums, judged, reached_at_second, MOST_SUMS};
use second::{check_derivation, read_circuit, renew};

#[test]
fn derivations_of_wide_digits_are_renewed() {
    for padded in all_padded() {
        let steps = read_steps(&padded.derivation).unwrap();
        assert_eq!(steps.len(), MOST_STEPS);
        assert!(steps.iter().filter(|step| step.kind == DIGITS).count() >= MOST_STEPS - 257);
        let mut renewed = padded.derivation.clone();
        let length = renew(&padded.circuit, NO_TAGS, &padded.derivation, &mut renewed).unwrap();
        let kept = read_steps(&renewed[..length]).unwrap();
        assert!(kept.iter().filter(|step| step.kind == DIGITS).count() <= 1, "{}", padded.name);
        let judgement = check_derivation(&padded.circuit, NO_TAGS, &renewed[..length], &mut [9; 256]).unwrap();
        assert_eq!(judgement.count, 1, "{}", padded.name);
    }
}

#[test]
fn broken_sums_have_64_signals() {
    let bytes = broken_sums(MOST_SUMS);
    assert_eq!(bytes.len(), 59_675);
    let circuit = read_circuit(&bytes).unwrap();
    for constraint in &circuit.constraints[..usize::from(MOST_SUMS)] {
        assert_eq!(constraint.b.signals().len() + constraint.c.signals().len(), 64);
        assert!(constraint.is_linear());
    }
}

/// Bounds first, then every zero, and the bits only after the last zero, whatever the reference.
#[test]
fn broken_sums_mark_no_bit_before_the_last_zero() {
    let circuit = read_circuit(&broken_sums(35)).unwrap();
    let (steps, _) = derive(&circuit, &[]);
    assert!(steps[..256].iter().all(|step| step.kind == ROOT));
    assert_eq!(steps[256..510], (3..=256).map(|signal| Step::new(ZERO, signal, 0, 0)).collect::<Vec<_>>());
    assert_eq!(steps[510..].iter().map(|step| (step.kind, step.target)).collect::<Vec<_>>(), [(DIGITS, 1), (DIGITS, 2)]);
    let (rules, mut standing) = (Rules::new(&circuit), Standing::start(&circuit, &[]));
    assert!(steps[..256].iter().all(|&step| rules.take(&mut standing, step)));
    for (constraint, reference) in (1..=35).flat_map(|constraint| (1..=256).map(move |reference| (constraint, reference))) {
        assert!(!rules.take(&mut standing, Step::new(DIGITS, 1, constraint, reference)));
    }
}

/// Signal 1 weighs 1 and may be p - 1; the others weigh what they are said to, all differently.
#[test]
fn p_is_reached_at_the_second_of_64_signals() {
    let (bytes, _) = reached_at_second();
    let circuit = read_circuit(&bytes).unwrap();
    let constraint = &circuit.constraints[0];
    assert_eq!(constraint.b.signals().len() + constraint.c.signals().len(), 64);
    let (p, scale) = (circuit.field.prime(), circuit.field.inverse(1 + 40_503));
    let mut weights: Vec<u64> = (1..=64).map(|signal| circuit.field.mul((1 + signal * 40_503) % p, scale)).collect();
    assert_eq!(weights[0], 1);
    assert!((p - 1) * weights[0] < p && (p - 1) * (weights[0] + weights[1]) >= p);
    assert!(!weights.is_sorted());
    weights.sort_unstable();
    weights.dedup();
    assert_eq!((weights.len(), weights[0]), (64, 1));
}

#[test]
fn digits_steps_are_met_or_not_where_the_adding_ends() {
    for step in judged() {
        let steps = read_steps(&step.derivation).unwrap().len() as u32;
        let judgement = check_derivation(&step.circuit, NO_TAGS, &step.derivation, &mut [9; 64]);
        match judgement {
            Ok(_) => assert!(step.met, "{}", step.name),
            Err(refusal) => assert_eq!((refusal.number, refusal.place, step.met), (17, steps, false), "{}", step.name),
        }
    }
}
