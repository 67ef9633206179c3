//! Circuits whose sums name as many signals as a form can, most of them with bound 0, so that a digits test has the most to look at; derivations of 4,096 steps
//! that make the test again and again, most of them idle; and digits steps whose adding ends early, at the last signal, or not at all.

use std::collections::BTreeSet;

use crate::field::Field;
use crate::marker::{write_steps, MOST_STEPS};
use crate::random::Random;
use crate::reader::read_circuit;
use crate::rules::{Rules, Standing, Step, DIGITS, ROOT, ZERO};
use crate::worst::bit;
use crate::writer::{Draft, Terms};

/// The largest prime, 2^31 - 1.
const P: u32 = 2_147_483_647;

/// As many sums of 64 signals as fit into a circuit with 256 signals whose bounds they don't give.
pub const MOST_SUMS: u16 = 142;

/// A circuit and a derivation of 4,096 steps that are all met, most of them idle.
pub struct Padded {
    pub name: &'static str,
    pub circuit: Vec<u8>,
    pub derivation: Vec<u8>,
}

impl Padded {
    /// The first steps, and then the digits steps in turn.
    fn new(name: &'static str, circuit: Vec<u8>, mut steps: Vec<Step>, digits: &[Step]) -> Padded {
        steps.extend(digits.iter().cycle().take(MOST_STEPS - steps.len()));
        Padded { name, circuit, derivation: write_steps(&steps) }
    }
}

/// The derivations of this module with their circuits.
pub fn all_padded() -> [Padded; 3] {
    [zeros_alone(), bits_and_zeros(), sums_in_turn()]
}

/// A circuit and a derivation of which the last step, a digits step, is met or not; all before it are.
pub struct Judged {
    pub name: String,
    pub circuit: Vec<u8>,
    pub derivation: Vec<u8>,
    pub met: bool,
}

impl Judged {
    /// One sum of bits with these weights, a root step for each bit, and a digits step.
    fn bits(p: u32, weights: &[i64], met: bool) -> Judged {
        let count = weights.len() as u16;
        let mut draft = Draft::new(p, count, 0, count);
        wide_sum(&mut draft, &(1..).zip(weights.iter().copied()).collect::<Terms>());
        (1..=count).for_each(|signal| bit(&mut draft, signal));
        let mut steps: Vec<Step> = (1..=count).map(|signal| Step::new(ROOT, signal, signal + 1, 0)).collect();
        steps.push(Step::new(DIGITS, 1, 1, 1));
        Judged { name: format!("{count} bits, p = {p}"), circuit: draft.bytes(), derivation: write_steps(&steps), met }
    }
}

/// Digits steps whose adding ends early or doesn't: p reached at the second of 64 signals; bits that add up to p at the last one, where p is a power of 2
/// less 1, and one bit fewer; more than 31 bits that don't reach p.
pub fn judged() -> Vec<Judged> {
    let (circuit, derivation) = reached_at_second();
    let mut all = vec![Judged { name: "p reached at the second".into(), circuit, derivation, met: false }];
    for count in [5, 7, 13, 17, 19, 31] {
        let (p, powers) = ((1u64 << count) - 1, (0..count).map(|index| 1 << index).collect::<Vec<i64>>());
        all.push(Judged::bits(p as u32, &powers, false));
        all.push(Judged::bits(p as u32, &powers[1..], true));
    }
    all.extend([32, 40, 64].map(|count| Judged::bits(P, &(1..=count).collect::<Vec<i64>>(), false)));
    all
}

/// A sum of 64 signals, the most that a linear form names, none of them bounded, and a digits step by signal 1, which adds p - 1, so that p is reached at the
/// second. The coefficients differ and stand in no order.
pub fn reached_at_second() -> (Vec<u8>, Vec<u8>) {
    let mut draft = Draft::new(65_521, 64, 0, 64);
    let terms: Terms = (1..=64).map(|signal| (signal, 1 + i64::from(signal) * 40_503 % 65_521)).collect();
    wide_sum(&mut draft, &terms);
    (draft.bytes(), write_steps(&[Step::new(DIGITS, 1, 1, 1)]))
}

/// The root of this constraint is 0.
pub(crate) fn zero(draft: &mut Draft, signal: u16) {
    draft.add(&[(signal, 1)], &[(signal, 1)], &[]);
}

/// The sum of the terms is 0. Half of them stand in B and half in C, so there can be 64.
pub(crate) fn wide_sum(draft: &mut Draft, terms: &[(u16, i64)]) {
    let (b, c) = terms.split_at(terms.len() / 2);
    let c: Terms = c.iter().map(|&(signal, coefficient)| (signal, -coefficient)).collect();
    draft.add(&[(0, 1)], b, &c);
}

/// One sum of 64 signals with bound 0, each of them the reference in turn. The first digits step marks the target of all.
fn zeros_alone() -> Padded {
    let mut draft = Draft::new(P, 64, 0, 64);
    let terms: Terms = (1..=64).map(|signal| (signal, 3 * i64::from(signal) + 5)).collect();
    wide_sum(&mut draft, &terms);
    (1..=64).for_each(|signal| zero(&mut draft, signal));
    let roots = (1..=64).map(|signal| Step::new(ROOT, signal, signal + 1, 0)).collect();
    let digits: Vec<Step> = (1..=64).map(|reference| Step::new(DIGITS, 1, 1, reference)).collect();
    Padded::new("64 zeros", draft.bytes(), roots, &digits)
}

/// Input 1 as the sum of 30 bits (signals 2 to 31) and 32 zeros (32 to 63). The input is the target of all, so that the others stay unmarked. In base 2 a
/// zero's weight has ones at places 0 to 23 and at 30; a bit as the reference turns the 31 places, and by each of the first 25 bits the rule is met.
fn bits_and_zeros() -> Padded {
    let mut draft = Draft::new(P, 63, 1, 62);
    let mut terms: Terms = vec![(1, -1)];
    terms.extend((0..30).map(|index| (2 + index, 1 << index)));
    terms.extend((0..32).map(|index| (32 + index, (1 << 30) + (i64::from(index) << 24) + (1 << 24) - 1)));
    wide_sum(&mut draft, &terms);
    (2..=31).for_each(|signal| bit(&mut draft, signal));
    (32..=63).for_each(|signal| zero(&mut draft, signal));
    let roots = (2..=63).map(|signal| Step::new(ROOT, signal, signal, 0)).collect();
    let digits: Vec<Step> = (2..=26).map(|reference| Step::new(DIGITS, 1, 1, reference)).collect();
    Padded::new("30 bits and 32 zeros", draft.bytes(), roots, &digits)
}

/// So many sums of 64 signals, at most 142: bits 1 and 2, signal 256 and 61 of those between; all but the bits have bound 0. The coefficient of 256 is the
/// sum of those of the bits, which breaks the digits rule whatever the reference: either the bits' weights reach p together, or the weight of 256 is
/// their sum. By most references nothing else breaks it, since the bits weigh little there. So after each mark every reference of many sums is tried,
/// and none will do before 256 is marked, the last of the zeros. 59,675 bytes with 142 sums. Fixed.
pub fn broken_sums(sums: u16) -> Vec<u8> {
    let (mut draft, mut rng) = (Draft::new(P, 256, 0, 256), Random::new(1));
    for sum in 0..sums {
        wide_sum(&mut draft, &broken_terms(sum, &mut rng));
    }
    (1..=2).for_each(|signal| bit(&mut draft, signal));
    (3..=256).for_each(|signal| zero(&mut draft, signal));
    draft.bytes()
}

fn broken_terms(sum: u16, rng: &mut Random) -> Terms {
    let field = Field::new(P).expect("a prime");
    // What bit 1 weighs where a zero is the reference: all different.
    let mut weights = BTreeSet::new();
    while weights.len() < 61 {
        weights.insert(rng.range(4, 1 << 20) as u64);
    }
    let mut terms: Terms = vec![(1, 1), (2, 2), (256, 3)];
    terms.extend((sum * 61..).zip(weights).map(|(number, weight)| (3 + number % 253, field.inverse(weight) as i64)));
    terms.sort_unstable();
    terms
}

/// The same 142 sums once 256 is marked: each of them in turn, with another reference each time round, those by which the rule is met.
fn sums_in_turn() -> Padded {
    let circuit = broken_sums(MOST_SUMS);
    let read = read_circuit(&circuit).expect("a valid circuit");
    let (rules, mut standing) = (Rules::new(&read), Standing::start(&read, &[]));
    let mut first: Vec<Step> = (1..=256).map(|signal| Step::new(ROOT, signal, MOST_SUMS + signal, 0)).collect();
    first.push(Step::new(ZERO, 256, 0, 0));
    assert!(first.iter().all(|&step| rules.take(&mut standing, step)));
    let step = |constraint: u16, reference: u16| Step::new(DIGITS, 256, constraint, reference);
    let mut met = |constraint: u16| -> Vec<Step> { (1..256).map(|r| step(constraint, r)).filter(|&step| rules.take(&mut standing, step)).collect() };
    let by_sum: Vec<Vec<Step>> = (1..=MOST_SUMS).map(&mut met).collect();
    let digits: Vec<Step> = (0..64).flat_map(|turn| by_sum.iter().map(move |steps| steps[turn % steps.len()])).collect();
    Padded::new("142 sums in turn", circuit, first, &digits)
}
