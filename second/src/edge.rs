//! Circuits with derivations at the edge of a rule: sums at p, weights at the sum of the smaller ones, products and roots with one signal
//! too many; divisions; and circuits with ties.

use crate::divisions;
use crate::field::is_prime;
use crate::generate::Weaver;
use crate::random::Random;
use crate::rules::{Step, DIGITS, PRODUCT, ROOT, SUM, ZERO};
use crate::sheet::{Tag, MAXVALUE};
use crate::writer::{Draft, Terms};

/// A circuit, tags and derivations for it, of which the last step may not be met or may be idle.
pub struct Edge {
    pub circuit: Vec<u8>,
    pub tags: Vec<Tag>,
    pub derivations: Vec<Vec<Step>>,
}

/// Any of the edges below.
pub fn any_edge(rng: &mut Random) -> Edge {
    match rng.below(10) {
        0..=2 => weighted(rng),
        3 => product(rng),
        4 => tagged_sum(rng),
        5 => tagged_digits(rng),
        6 => divisions::nonzero(rng),
        7 | 8 => divisions::quotient(rng),
        _ => roots(rng),
    }
}

/// Weights with bounds, each weight about the sum over those before it.
fn weights(rng: &mut Random) -> Vec<Weight> {
    let (mut result, mut sum) = (Vec::new(), 0i64);
    for _ in 0..rng.range(1, 4) {
        let last = result.last().map_or(1, |&(weight, _)| weight);
        let weight = rng.pick(&[sum, sum + 1, sum + 1, sum + 1, sum + 1, sum + 2, last]).max(1);
        let bound = rng.pick(&[0, 1, 1, 2, 3]);
        result.push((weight, bound));
        sum += weight * bound;
    }
    result
}

/// A weight and the bound of its signal.
type Weight = (i64, i64);

/// p, weights and a constant, of which digits or sum are just met or just not.
const WEIGHTED: [(u32, &[Weight], i64); 20] = [
    (13, &[(1, 2), (3, 2)], 0),
    (13, &[(1, 3), (3, 2)], 0),
    (13, &[(1, 3), (4, 2)], 0),
    (11, &[(1, 3), (4, 2)], 0),
    (13, &[(1, 1), (1, 1)], 0),
    (13, &[(1, 0), (1, 0)], 0),
    (13, &[(1, 0), (2, 0), (3, 0)], 0),
    (17, &[(1, 1), (2, 1), (3, 1)], 0),
    (17, &[(1, 1), (2, 1), (4, 1)], 0),
    (7, &[(1, 1), (2, 1), (4, 1)], 0),
    (13, &[(1, 1), (3, 3)], 2),
    (13, &[(1, 1), (3, 3)], 3),
    (13, &[(1, 1), (3, 3)], 4),
    (19, &[(1, 1), (2, 1), (5, 1), (9, 1)], 0),
    (2_147_483_647, &[(1, 65_535), (65_536, 32_766)], 0),
    (2_147_483_647, &[(1, 65_535), (65_536, 32_767)], 0),
    (2_147_483_647, &[(1, 2_147_483_646)], 0),
    (2_147_483_647, &[(1, 2_147_483_646), (2_147_483_646, 2_147_483_646)], 0),
    // The sum is below p modulo 2^32, and in the last case modulo 2^64.
    (2_147_483_647, &[(1, 2_147_483_646), (2, 2_147_483_646)], 0),
    (2_147_483_647, &OVERFLOWING, 0),
];

const OVERFLOWING: [Weight; 5] = [
    (2_000_000_000, 2_147_483_646),
    (1_900_000_000, 2_147_483_646),
    (1_800_000_000, 2_147_483_646),
    (1_700_000_000, 2_147_483_646),
    (1_189_934_601, 2_147_483_646),
];

/// Random weights and a constant, and a prime that is their sum, with or without the constant, or one more.
fn near_prime(rng: &mut Random) -> (u32, Vec<Weight>, i64) {
    loop {
        let (weights, constant) = (weights(rng), rng.pick(&[0, 0, 1, 2]));
        let sum: i64 = weights.iter().map(|(weight, bound)| weight * bound).sum();
        let p = sum + rng.pick(&[0, 1, constant, constant + 1]);
        if p >= 5 && is_prime(p as u64) {
            return (p as u32, weights, constant);
        }
    }
}

fn weighted(rng: &mut Random) -> Edge {
    let (p, weights, constant) = near_prime(rng);
    let i = rng.below(2) as u16;
    weighted_edge(rng, i, p, &weights, constant)
}

/// The last signal as a weighted sum of inputs, which have their bounds from tags, and of a constant; it too is tagged, about where the sum's bound is.
fn tagged_sum(rng: &mut Random) -> Edge {
    let (p, weights, constant) = near_prime(rng);
    let n = weights.len() as u16 + 1;
    let mut weaver = Weaver::new(rng, Draft::new(p, n, n - 1, 1));
    let (mut terms, mut tags): (Terms, Vec<Tag>) = (vec![(n, -1), (0, constant)], Vec::new());
    let mut sum = constant;
    for (signal, &(weight, bound)) in (1..).zip(&weights) {
        terms.push((signal, weight));
        tags.push(Tag::new(signal, MAXVALUE, bound as u32));
        sum += weight * bound;
    }
    weaver.linear(&terms);
    let circuit = weaver.draft.bytes();
    let limit = sum - rng.pick(&[0, 0, 1]);
    tags.push(Tag::new(n, MAXVALUE, limit.clamp(0, i64::from(p) - 1) as u32));
    rng.shuffle(&mut tags);
    let input = rng.range(1, weights.len()) as u16;
    Edge { circuit, tags, derivations: [(n, SUM, 0), (input, SUM, 0), (n, DIGITS, n)].map(|(t, kind, r)| vec![Step::new(kind, t, 1, r)]).to_vec() }
}

/// Signal 1, marked or not, as a weighted sum of bounded signals and a constant.
fn weighted_edge(rng: &mut Random, i: u16, p: u32, weights: &[Weight], constant: i64) -> Edge {
    let n = weights.len() as u16 + 1;
    let mut weaver = Weaver::new(rng, Draft::new(p, n, i, 1));
    let (mut terms, mut bounds): (Terms, Vec<Step>) = (vec![(1, -1), (0, constant)], Vec::new());
    for (signal, &(weight, bound)) in (2..).zip(weights) {
        weaver.roots(signal, 0, bound);
        terms.push((signal, weight));
        bounds.push(Step::new(ROOT, signal, signal - 1, 0));
    }
    weaver.linear(&terms);
    let circuit = weaver.draft.bytes();
    let mut signal = |low: usize| rng.range(low, usize::from(n)) as u16;
    let sum = [Step::new(SUM, 1, n, 0)];
    let digits = [Step::new(DIGITS, signal(2), n, 2), Step::new(DIGITS, signal(2), n, 2)];
    let others = [Step::new(DIGITS, signal(1), n, signal(1)), Step::new(DIGITS, signal(1), n, signal(1))];
    Edge { circuit, tags: Vec::new(), derivations: [&sum[..], &digits, &others].map(|steps| [&bounds[..], steps].concat()).to_vec() }
}

/// Input 1 as a weighted sum in which the first digit, signal 4, is input 2 and the bounded signal 3 together: its bound, and so the digits rule, rests on a
/// tag on input 2, which is right or one off.
pub fn tagged_digits(rng: &mut Random) -> Edge {
    let (p, weights, constant) = near_prime(rng);
    let n = weights.len() as u16 + 3;
    let bound = weights[0].1;
    let own = rng.range(usize::from(bound > 0), bound as usize) as i64;
    let mut weaver = Weaver::new(rng, Draft::new(p, n, 2, n - 2));
    weaver.roots(3, 0, own);
    let mut terms: Terms = vec![(1, -1), (0, constant)];
    for (signal, &(weight, bound)) in (4..).zip(&weights) {
        weaver.roots(signal, 0, if signal == 4 { i64::from(p) - 1 } else { bound });
        terms.push((signal, weight));
    }
    weaver.linear(&[(2, 1), (3, 1), (4, -1)]);
    weaver.linear(&terms);
    let circuit = weaver.draft.bytes();
    let bounds: Vec<Step> = (3..=n).map(|signal| Step::new(ROOT, signal, signal - 2, 0)).chain([Step::new(SUM, 4, n - 1, 0)]).collect();
    let limit = (bound - own + rng.pick(&[0, 0, 0, 1, -1])).max(0);
    let digits = Step::new(DIGITS, rng.range(4, usize::from(n)) as u16, n, 4);
    Edge { circuit, tags: vec![Tag::new(2, MAXVALUE, limit as u32)], derivations: vec![[&bounds[..], &[digits]].concat()] }
}

/// Products over inputs 1 and 2 in which signal 3 is the only new one: as it should be, or with one thing amiss.
const PRODUCTS: [[&[(u16, i64)]; 3]; 16] = [
    [&[(1, 1)], &[(2, 1)], &[(3, 1)]],
    [&[(1, 1), (0, 3)], &[(1, 2)], &[(3, 4), (2, 1), (0, 1)]],
    [&[(0, 2), (2, 1)], &[(0, 1), (1, 1), (2, 3)], &[(0, 4), (3, 2)]],
    [&[(1, 1)], &[(4, 1)], &[(3, 1)]],
    [&[(4, 1)], &[(2, 1)], &[(3, 1)]],
    [&[(1, 1)], &[(2, 1)], &[(3, 1), (4, 1)]],
    [&[(1, 1)], &[(3, 1)], &[(3, 1)]],
    [&[(3, 1)], &[(1, 1)], &[(3, 1)]],
    [&[(1, 1)], &[(2, 1), (3, 1)], &[(3, 2)]],
    [&[(1, 1), (3, 1)], &[(2, 1)], &[(3, 2)]],
    [&[(3, 1)], &[(3, 1)], &[(3, 1)]],
    [&[(1, 1)], &[(2, 1)], &[(1, 1)]],
    [&[(1, 1)], &[(2, 1)], &[]],
    [&[(0, 1)], &[(1, 1)], &[(3, 1)]],
    [&[(1, 1)], &[(0, 1)], &[(3, 1)]],
    [&[], &[(1, 1)], &[(3, 1)]],
];

/// One of the products, its signals scaled; the step is tried twice.
fn product(rng: &mut Random) -> Edge {
    let index = rng.below(PRODUCTS.len());
    product_edge(rng, index)
}

fn product_edge(rng: &mut Random, index: usize) -> Edge {
    let [a, b, c] = PRODUCTS[index];
    let mut weaver = Weaver::new(rng, Draft::new(7, 4, 2, 1));
    weaver.draft.add(a, b, c);
    if weaver.rng.once_in(2) {
        weaver.repeat();
        weaver.draft.constraints.swap_remove(0);
    }
    Edge { circuit: weaver.draft.bytes(), tags: Vec::new(), derivations: vec![vec![Step::new(PRODUCT, 3, 1, 0); 2]] }
}

/// The listed weights, products and divisions, one after the other.
pub fn listed_edges(rng: &mut Random) -> Vec<Edge> {
    let mut edges: Vec<Edge> = WEIGHTED.iter().map(|&(p, weights, constant)| weighted_edge(rng, 1, p, weights, constant)).collect();
    edges.extend((0..PRODUCTS.len()).map(|index| product_edge(rng, index)));
    edges.extend(divisions::listed());
    edges
}

/// Two factors in signal 1, or nearly so, whose roots may both be 0; then what follows from a bound of 0, twice.
fn roots(rng: &mut Random) -> Edge {
    let mut factor = || {
        let mut terms: Terms = vec![(1, rng.range(1, 4) as i64)];
        for (signal, times) in [(0, 3), (2, 10)] {
            if rng.once_in(times) {
                terms.push((signal, rng.range(1, 4) as i64));
            }
        }
        terms
    };
    let (a, b) = (factor(), factor());
    let c: Terms = if rng.once_in(6) { vec![(rng.below(3) as u16, 1)] } else { Vec::new() };
    let circuit = Draft::new(rng.pick(&[5, 7, 13]), 2, 0, 2).with(&a, &b, &c).bytes();
    let zero = Step::new(ZERO, 1, 0, 0);
    Edge { circuit, tags: Vec::new(), derivations: vec![vec![Step::new(ROOT, 1, 1, 0), zero, zero]] }
}

/// A circuit in which bounds and marks can be had in many ways at once: by several kinds, constraints and references.
pub fn tied(rng: &mut Random) -> Vec<u8> {
    let (p, targets) = (rng.pick(&[5, 7, 13, 65_537]), rng.range(1, 3));
    let mut weaver = Weaver::new(rng, Draft::new(p, targets as u16 + 2, 2, targets as u16));
    for _ in 0..weaver.rng.range(2 * targets, 4 * targets) {
        let target = weaver.rng.range(3, targets + 2) as u16;
        let (input, other) = (weaver.rng.range(1, 2) as u16, weaver.rng.range(3, targets + 2) as u16);
        let small = weaver.rng.below(3) as i64;
        match weaver.rng.below(10) {
            0 | 1 => {
                let c = [(target, weaver.unit()), (input, small)];
                weaver.draft.add(&[(1, 1)], &[(2, 1), (0, small)], &c);
            }
            2 => weaver.linear(&[(target, 1), (input, -1), (0, -small)]),
            3 => weaver.linear(&[(target, 1), (other, -1), (input, small)]),
            4 => weaver.linear(&[(target, 1), (0, -small)]),
            5 => {
                let signal = weaver.rng.pick(&[1, 2, input, target]);
                weaver.nonzero(signal);
            }
            6 | 7 => {
                let (by, b) = (weaver.rng.pick(&[1, 2, other]), [(target, weaver.unit()), (0, small)]);
                weaver.product_of(&[(by, 1)], &b, &[(0, 1), (input, small)]);
            }
            _ => weaver.roots(target, 0, small),
        }
    }
    weaver.draft.bytes()
}
