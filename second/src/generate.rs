//! Random circuits: pieces that derivations live on, laid over randomly chosen signals.

use crate::field::Field;
use crate::random::Random;
use crate::writer::{Draft, Terms};

/// Primes of circuits that may be large.
pub const PRIMES: [u32; 14] = [3, 5, 7, 11, 13, 17, 31, 127, 257, 65_537, 1_000_003, 2_013_265_921, 2_147_483_629, 2_147_483_647];

/// A circuit with at most 65,536 runs.
pub fn small(rng: &mut Random) -> Vec<u8> {
    let (p, most) =
        rng.pick(&[(3, 10), (3, 6), (5, 6), (5, 4), (7, 5), (7, 4), (7, 3), (11, 4), (13, 4), (13, 3), (17, 3), (31, 3), (251, 2), (65_521, 1)]);
    let n = rng.range(most.min(2), most);
    let pieces = rng.range(0, 2 * n);
    woven(rng, p, n as u16, pieces)
}

/// A circuit of at most 3 signals and 2 pieces.
pub fn tiny(rng: &mut Random) -> Vec<u8> {
    let p = rng.pick(&[3, 5, 7, 13, 31]);
    let (n, pieces) = (rng.range(1, 3), rng.range(0, 2));
    woven(rng, p, n as u16, pieces)
}

/// A circuit of any prime and up to so many signals.
pub fn any(rng: &mut Random, most: usize) -> Vec<u8> {
    let (p, n) = (rng.pick(&PRIMES), rng.range(1, most));
    let pieces = rng.range(0, 2 * n);
    woven(rng, p, n as u16, pieces)
}

/// A circuit of random pieces.
fn woven(rng: &mut Random, p: u32, n: u16, pieces: usize) -> Vec<u8> {
    let i = rng.below(usize::from(n)) as u16;
    let o = rng.range(1, usize::from(n - i)) as u16;
    let mut weaver = Weaver::new(rng, Draft::new(p, n, i, o));
    (0..pieces).for_each(|_| weaver.piece());
    let mut constraints = weaver.draft.constraints.clone();
    rng.shuffle(&mut constraints);
    Draft { constraints, ..Draft::new(p, n, i, o) }.bytes()
}

/// Lays pieces into a draft.
pub struct Weaver<'a> {
    pub rng: &'a mut Random,
    pub draft: Draft,
    field: Field,
}

impl Weaver<'_> {
    pub fn new(rng: &mut Random, draft: Draft) -> Weaver<'_> {
        Weaver { rng, field: Field::new(draft.p).expect("drafts have odd primes"), draft }
    }

    fn signal(&mut self) -> u16 {
        self.rng.range(1, usize::from(self.draft.n)) as u16
    }

    /// So many different signals, fewer if there aren't as many.
    fn signals(&mut self, count: usize) -> Vec<u16> {
        self.rng.several(count, 1, self.draft.n)
    }

    /// A coefficient other than 0, often 1 or -1.
    pub fn unit(&mut self) -> i64 {
        let last = self.draft.p as usize - 1;
        match self.rng.below(4) {
            0 | 1 => 1,
            2 => last as i64,
            _ => self.rng.range(1, last) as i64,
        }
    }

    fn small_number(&mut self) -> i64 {
        self.rng.below(4.min(self.draft.p as usize)) as i64
    }

    fn times(&self, a: i64, b: i64) -> i64 {
        let p = i64::from(self.draft.p);
        self.field.mul(a.rem_euclid(p) as u64, b.rem_euclid(p) as u64) as i64
    }

    fn scaled(&self, terms: &[(u16, i64)], factor: i64) -> Terms {
        terms.iter().map(|&(signal, c)| (signal, self.times(c, factor))).collect()
    }

    /// A few random terms, the constant perhaps among them.
    fn affine(&mut self, most: usize) -> Terms {
        let count = self.rng.below(most + 1);
        let signals = self.rng.several(count, 0, self.draft.n);
        signals.into_iter().map(|signal| (signal, self.unit())).collect()
    }

    /// One piece over random signals.
    fn piece(&mut self) {
        let signal = self.signal();
        match self.rng.below(22) {
            0..=3 => self.bit(signal),
            4 => {
                let (first, second) = (self.small_number(), self.small_number());
                self.roots(signal, first, second);
            }
            5..=7 => self.number(),
            8 => self.equal_weights(),
            9 => self.link(),
            10 | 11 => self.product(),
            12 => self.roots(signal, 0, 0),
            13 => self.repeat(),
            14 => self.noise(),
            15 => self.near_misses(signal),
            _ => self.any_division(),
        }
    }

    pub fn bit(&mut self, signal: u16) {
        self.roots(signal, 0, 1);
    }

    /// A signal with two roots, each factor scaled.
    pub fn roots(&mut self, signal: u16, first: i64, second: i64) {
        let (a, b) = (self.unit(), self.unit());
        let forms = [(a, first), (b, second)].map(|(scale, root)| [(signal, scale), (0, self.times(-scale, root))]);
        let swap = self.rng.below(2);
        self.draft.add(&forms[swap], &forms[1 - swap], &[]);
    }

    /// A number as the sum of its digits, each perhaps bounded, perhaps with a constant.
    fn number(&mut self) {
        let base = self.rng.pick(&[2, 2, 2, 3, 4]);
        let count = self.rng.range(1, 5);
        let mut signals = self.signals(count);
        let mut terms: Terms = Vec::new();
        if self.rng.below(4) > 0 && signals.len() > 1 {
            terms.extend(signals.pop().map(|number| (number, -1)));
        }
        if self.rng.once_in(3) {
            terms.push((0, self.small_number()));
        }
        let mut weight = 1;
        for signal in signals {
            if self.rng.once_in(2) {
                self.roots(signal, 0, base - 1);
            }
            terms.push((signal, weight));
            weight = self.times(weight, base);
        }
        self.linear(&terms);
    }

    fn equal_weights(&mut self) {
        let count = self.rng.range(2, 5);
        let signals = self.signals(count);
        let mut terms: Terms = signals.iter().map(|&signal| (signal, 1)).collect();
        terms[0].1 = -1;
        self.linear(&terms);
    }

    /// A signal as another one plus a constant, or as a constant.
    fn link(&mut self) {
        let constant = self.small_number();
        let count = self.rng.range(1, 2);
        let mut terms: Terms = self.signals(count).into_iter().zip([1, -1]).collect();
        terms.push((0, -constant));
        self.linear(&terms);
    }

    /// A product of two forms in a third, the target perhaps also in the factors.
    fn product(&mut self) {
        let signals = self.signals(4);
        let at = |index: usize| signals[index % signals.len()];
        let (mut a, mut b) = (vec![(at(0), self.unit())], vec![(at(self.rng.below(2)), self.unit())]);
        let mut c = vec![(at(2), self.unit())];
        for form in [&mut a, &mut b, &mut c] {
            if self.rng.once_in(3) {
                form.push((0, self.unit()));
            }
            if self.rng.once_in(4) {
                form.push((at(3), self.unit()));
            }
        }
        self.draft.add(&a, &b, &c);
    }

    /// A constraint of the draft once more, a factor and C scaled alike, or its factors swapped.
    pub fn repeat(&mut self) {
        if self.draft.constraints.is_empty() {
            return self.noise();
        }
        let index = self.rng.below(self.draft.constraints.len());
        let [a, b, c] = self.draft.constraints[index].clone();
        let scale = self.unit();
        let (a, c) = (self.scaled(&a, scale), self.scaled(&c, scale));
        self.draft.constraints.push(if self.rng.once_in(2) { [a, b, c] } else { [b, a, c] });
    }

    /// A constraint with its factors either way round.
    pub fn product_of(&mut self, a: &[(u16, i64)], b: &[(u16, i64)], c: &[(u16, i64)]) {
        match self.rng.once_in(2) {
            true => self.draft.add(a, b, c),
            false => self.draft.add(b, a, c),
        }
    }

    /// A nonzero mark, a quotient, both, or neither but nearly so.
    pub fn any_division(&mut self) {
        let signal = self.signal();
        match self.rng.below(6) {
            0 | 1 => self.nonzero(signal),
            2 | 3 => self.division(signal),
            4 => self.quotient(signal),
            _ => self.near_divisions(signal),
        }
    }

    /// A signal that is never 0, since it times another, a constant or a form is a constant.
    pub fn nonzero(&mut self, signal: u16) {
        let other = match self.rng.below(4) {
            0 => vec![(0, self.unit())],
            1 | 2 => vec![(self.signal(), self.unit())],
            _ => self.affine(2),
        };
        let (one, c) = ([(signal, self.unit())], [(0, self.unit())]);
        self.product_of(&one, &other, &c);
    }

    /// A signal times a form is another form, as where something is divided by it.
    fn quotient(&mut self, divisor: u16) {
        let (target, one) = (self.signal(), [(divisor, self.unit())]);
        let (mut other, c) = (self.affine(1), self.affine(2));
        other.push((target, self.unit()));
        self.product_of(&one, &other, &c);
    }

    /// A signal that is never 0 and a division by it; the signal is perhaps 1, or an input's inverse.
    fn division(&mut self, divisor: u16) {
        self.nonzero(divisor);
        if self.rng.once_in(3) {
            self.linear(&[(divisor, 1), (0, -1)]);
        }
        self.quotient(divisor);
    }

    /// Constraints from which no nonzero mark, or no quotient, follows though they come close: a constant or a signal beside the divisor, C with more than a
    /// constant or with nothing, the target in C or on both sides.
    fn near_divisions(&mut self, signal: u16) {
        let (other, third, unit) = (self.signal(), self.signal(), self.unit());
        match self.rng.below(7) {
            0 => self.product_of(&[(signal, 1), (0, unit)], &[(other, 1)], &[(0, 1)]),
            1 => self.product_of(&[(signal, 1), (third, unit)], &[(other, 1), (0, unit)], &[(0, 1)]),
            2 => self.product_of(&[(signal, unit)], &[(other, 1)], &[]),
            3 => self.product_of(&[(signal, unit)], &[(other, 1)], &[(0, 1), (third, 1)]),
            4 => self.product_of(&[(signal, unit)], &[(other, 1)], &[(other, 1), (0, 1)]),
            5 => self.product_of(&[(signal, unit)], &[(signal, 1)], &[(0, 1)]),
            _ => self.product_of(&[(signal, unit)], &[(other, 1), (third, unit)], &[(0, 1)]),
        }
    }

    fn noise(&mut self) {
        let (a, b, c) = (self.affine(3), self.affine(3), self.affine(3));
        self.draft.add(&a, &b, &c);
    }

    /// Shapes that a rule must turn down though they come close.
    fn near_misses(&mut self, signal: u16) {
        let other = self.signal();
        match self.rng.below(5) {
            0 => self.draft.add(&[(signal, 1)], &[(signal, 1)], &[(signal, 1)]),
            1 => self.draft.add(&[(signal, 1)], &[(signal, 1), (0, -1)], &[(0, 1)]),
            2 => self.draft.add(&[(signal, 1)], &[(other, 1), (0, -1)], &[]),
            3 => self.draft.add(&[(signal, 1), (0, 1)], &[(0, 1)], &[(signal, 1), (other, 1)]),
            _ => self.draft.add(&[], &[(signal, 1)], &[(other, 1)]),
        }
    }

    /// A linear constraint whose reduced form is a multiple of these terms, in one of many shapes.
    pub fn linear(&mut self, terms: &[(u16, i64)]) {
        let (factor, a0) = (self.unit(), self.unit());
        let wanted = self.scaled(terms, factor);
        let inverse = self.field.inverse(a0 as u64) as i64;
        let (mut a, mut c): (Terms, Terms) = (vec![(0, a0)], Vec::new());
        let b;
        match self.rng.below(6) {
            0 | 1 => b = self.scaled(&wanted, inverse),
            2 => {
                let (left, right): (Terms, Terms) = wanted.iter().partition(|_| self.rng.once_in(2));
                (b, c) = (self.scaled(&left, inverse), self.scaled(&right, -1));
            }
            3 => (b, c) = self.cancelling(&wanted, a0),
            4 => {
                let b0 = self.unit();
                b = vec![(0, b0)];
                c = self.scaled(&wanted, -1);
                c.push((0, self.times(a0, b0)));
            }
            _ => {
                a = Vec::new();
                b = self.affine(2);
                c = self.scaled(&wanted, -1);
            }
        }
        let swap = self.rng.once_in(2);
        self.draft.constraints.push(if swap { [b, a, c] } else { [a, b, c] });
    }

    /// B and C so that a0·B - C is as wanted: coefficients split between the two, and further signals that cancel.
    fn cancelling(&mut self, wanted: &[(u16, i64)], a0: i64) -> (Terms, Terms) {
        let mut sum = wanted.to_vec();
        let extra = self.rng.below(3);
        sum.extend(self.signals(extra).into_iter().map(|signal| (signal, 0)));
        let (mut b, mut c) = (Vec::new(), Vec::new());
        for (signal, coefficient) in sum {
            let part = self.unit();
            b.push((signal, part));
            c.push((signal, self.times(a0, part) - coefficient));
        }
        (b, c)
    }
}
