//! Random circuits with two planted runs that share their inputs.

use crate::field::Field;
use crate::random::Random;
use crate::writer::{Draft, Terms};

/// A circuit with two satisfying runs that share their inputs and differ at an output.
pub struct Planted {
    pub circuit: Vec<u8>,
    pub q: u16,
    pub first: Vec<u32>,
    pub second: Vec<u32>,
}

/// A circuit of random constraints with up to so many terms in a form, each bent to hold in both runs.
pub fn planted(rng: &mut Random, p: u32, n: u16, constraints: usize, most: usize) -> Planted {
    let i = rng.below(usize::from(n)) as u16;
    let o = rng.range(1, usize::from(n - i)) as u16;
    let q = rng.range(usize::from(i) + 1, usize::from(i + o)) as u16;
    let first: Vec<u32> = (0..n).map(|_| rng.below(p as usize) as u32).collect();
    let mut second = first.clone();
    for signal in i..n {
        if signal + 1 == q || rng.once_in(2) {
            second[usize::from(signal)] = (first[usize::from(signal)] + rng.range(1, p as usize - 1) as u32) % p;
        }
    }
    let mut draft = Draft::new(p, n, i, o);
    for _ in 0..constraints {
        let counts = [0; 3].map(|_| rng.below(most + 1));
        bent_constraint(rng, &mut draft, [&first, &second], counts);
    }
    Planted { circuit: draft.bytes(), q, first, second }
}

/// Adds a random constraint with so many terms in A and B, and that many and up to two more in C, which makes it hold in both runs.
pub fn bent_constraint(rng: &mut Random, draft: &mut Draft, runs: [&[u32]; 2], counts: [usize; 3]) {
    let field = Field::new(draft.p).expect("drafts have odd primes");
    let differing: Vec<u16> = (1..=draft.n).filter(|&s| runs[0][usize::from(s) - 1] != runs[1][usize::from(s) - 1]).collect();
    let pivot = rng.pick(&differing);
    let values = runs.map(|run| u64::from(run[usize::from(pivot) - 1]));
    let mut random_form = |count: usize, low: u16| -> Terms {
        let signals = rng.several(count + 1, low, draft.n).into_iter().filter(|&signal| low == 0 || signal != pivot);
        signals.take(count).map(|signal| (signal, rng.range(1, draft.p as usize - 1) as i64)).collect::<Vec<_>>()
    };
    let (a, b, mut c) = (random_form(counts[0], 0), random_form(counts[1], 0), random_form(counts[2], 1));
    let [first, second] = runs.map(|run| {
        let value = |form: &Terms| {
            form.iter().fold(0, |sum, &(s, c)| field.add(sum, field.mul(c as u64, if s == 0 { 1 } else { u64::from(run[usize::from(s) - 1]) })))
        };
        field.sub(field.mul(value(&a), value(&b)), value(&c))
    });
    let slope = field.mul(field.sub(first, second), field.inverse(field.sub(values[0], values[1])));
    c.push((pivot, slope as i64));
    c.push((0, field.sub(first, field.mul(slope, values[0])) as i64));
    draft.add(&a, &b, &c);
}
