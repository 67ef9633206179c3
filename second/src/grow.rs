//! Random circuits that compute: from inputs, piece by piece, new signals that hang on earlier ones, so that derivations run long.

use crate::generate::Weaver;
use crate::random::Random;
use crate::writer::{Draft, Terms};

/// A computing circuit over p with up to so many signals.
pub fn grown(rng: &mut Random, p: u32, most: u16) -> Vec<u8> {
    let i = rng.below(usize::from(most).min(4)) as u16;
    let mut grower = Grower { made: i, most, weaver: Weaver::new(rng, Draft::new(p, most, i, 1)) };
    while grower.made < most {
        grower.piece();
    }
    let draft = grower.weaver.draft.clone();
    renumbered(rng, draft)
}

/// Signals after the inputs in random order, as many outputs as may be, constraints in random order.
fn renumbered(rng: &mut Random, mut draft: Draft) -> Vec<u8> {
    let mut numbers: Vec<u16> = (0..=draft.n).collect();
    rng.shuffle(&mut numbers[usize::from(draft.i) + 1..]);
    for term in draft.constraints.iter_mut().flatten().flatten() {
        term.0 = numbers[usize::from(term.0)];
    }
    rng.shuffle(&mut draft.constraints);
    draft.o = rng.range(1, usize::from(draft.n - draft.i)) as u16;
    draft.bytes()
}

struct Grower<'a> {
    /// Signals 1 to this one are in use.
    made: u16,
    most: u16,
    weaver: Weaver<'a>,
}

impl Grower<'_> {
    fn fresh(&mut self) -> u16 {
        self.made += 1;
        self.made
    }

    /// An earlier signal, or the constant if there is none.
    fn earlier(&mut self) -> u16 {
        match self.made {
            0 => 0,
            made => self.weaver.rng.range(1, usize::from(made)) as u16,
        }
    }

    /// Up to so many earlier signals with random coefficients.
    fn affine(&mut self, most: usize) -> Terms {
        let count = self.weaver.rng.range(1, most);
        (0..count).map(|_| (self.earlier(), self.weaver.unit())).collect()
    }

    fn piece(&mut self) {
        match self.weaver.rng.below(13) {
            0..=2 => self.digits(),
            3 => {
                let target = self.fresh();
                self.weaver.bit(target);
            }
            4 | 5 => self.sum(),
            6 | 7 => self.product(),
            8 => self.zero(),
            9 => self.hint(),
            _ => self.division(),
        }
    }

    /// The digits of an earlier number, in base 2 to 5.
    fn digits(&mut self) {
        let number = self.earlier();
        let base = self.weaver.rng.pick(&[2, 2, 2, 3, 5]);
        let mut terms: Terms = vec![(number, -1)];
        let mut weight = 1;
        while weight * base < i64::from(self.weaver.draft.p) && terms.len() < 30 && self.made < self.most && !self.weaver.rng.once_in(7) {
            let digit = self.fresh();
            self.weaver.roots(digit, 0, base - 1);
            terms.push((digit, weight));
            weight *= base;
        }
        self.weaver.linear(&terms);
    }

    /// A sum of earlier signals with small weights, perhaps with a constant.
    fn sum(&mut self) {
        let target = self.fresh();
        let mut terms: Terms = vec![(target, -1)];
        for _ in 0..self.weaver.rng.range(1, 4) {
            let earlier = self.earlier();
            if earlier != target {
                terms.push((earlier, self.weaver.rng.range(1, 3) as i64));
            }
        }
        terms.push((0, self.weaver.rng.below(3) as i64));
        self.weaver.linear(&terms);
    }

    fn product(&mut self) {
        let (a, b, mut c) = (self.affine(2), self.affine(2), self.affine(2));
        c.truncate(self.weaver.rng.below(3));
        let target = self.fresh();
        c.push((target, self.weaver.unit()));
        self.weaver.draft.add(&a, &b, &c);
    }

    fn zero(&mut self) {
        let target = self.fresh();
        match self.weaver.rng.below(3) {
            0 => self.weaver.linear(&[(target, 1)]),
            _ => self.weaver.roots(target, 0, 0),
        }
    }

    /// The inverse of an earlier signal, and what earlier signals come to when they are divided by either of the two, less an earlier one.
    fn division(&mut self) {
        let (divisor, inverse) = (self.earlier(), self.fresh());
        let (one, other, c) = ([(divisor, self.weaver.unit())], [(inverse, 1)], [(0, self.weaver.unit())]);
        self.weaver.product_of(&one, &other, &c);
        if self.made == self.most {
            return;
        }
        let by = self.weaver.rng.pick(&[divisor, inverse]);
        let (mut other, mut c) = (self.affine(1), self.affine(2));
        other.truncate(self.weaver.rng.below(2));
        c.truncate(self.weaver.rng.below(3));
        other.push((self.fresh(), self.weaver.unit()));
        self.weaver.product_of(&[(by, 1)], &other, &c);
    }

    /// The signal that says whether an earlier one is 0, with the usual free hint.
    fn hint(&mut self) {
        let (x, w) = (self.earlier(), self.fresh());
        if self.made == self.most {
            return;
        }
        let y = self.fresh();
        self.weaver.draft.add(&[(x, 1)], &[(w, 1)], &[(0, 1), (y, -1)]);
        self.weaver.draft.add(&[(x, 1)], &[(y, 1)], &[]);
    }
}
