//! Circuits in the making, and the circuit file of one.

use std::collections::BTreeMap;

/// A form as a sum of terms in any order, coefficients of any sign.
pub type Terms = Vec<(u16, i64)>;

/// A circuit whose forms are brought into order only when it is written.
#[derive(Clone, Debug)]
pub struct Draft {
    pub p: u32,
    pub n: u16,
    pub i: u16,
    pub o: u16,
    pub constraints: Vec<[Terms; 3]>,
}

impl Draft {
    pub fn new(p: u32, n: u16, i: u16, o: u16) -> Draft {
        Draft { p, n, i, o, constraints: Vec::new() }
    }

    /// Adds the constraint A times B equals C.
    pub fn add(&mut self, a: &[(u16, i64)], b: &[(u16, i64)], c: &[(u16, i64)]) {
        self.constraints.push([a.to_vec(), b.to_vec(), c.to_vec()]);
    }

    /// Adds A times B equals C and hands the draft on.
    pub fn with(mut self, a: &[(u16, i64)], b: &[(u16, i64)], c: &[(u16, i64)]) -> Draft {
        self.add(a, b, c);
        self
    }

    /// The circuit file.
    pub fn bytes(&self) -> Vec<u8> {
        let mut bytes = b"CQT".to_vec();
        bytes.extend(1u16.to_le_bytes());
        bytes.extend(self.p.to_le_bytes());
        [self.n, self.i, self.o, self.constraints.len() as u16].iter().for_each(|number| bytes.extend(number.to_le_bytes()));
        for form in self.constraints.iter().flatten() {
            let terms = self.in_order(form);
            bytes.push(terms.len() as u8);
            for (signal, coefficient) in terms {
                bytes.extend(signal.to_le_bytes());
                bytes.extend(coefficient.to_le_bytes());
            }
        }
        bytes
    }

    /// Terms by rising signal, coefficients from 1 to p - 1.
    fn in_order(&self, form: &[(u16, i64)]) -> Vec<(u16, u32)> {
        let mut sums = BTreeMap::new();
        for &(signal, coefficient) in form {
            let sum = sums.entry(signal).or_insert(0i64);
            *sum = (*sum + coefficient).rem_euclid(i64::from(self.p));
        }
        sums.into_iter().filter(|&(_, c)| c != 0).map(|(signal, c)| (signal, c as u32)).collect()
    }
}
