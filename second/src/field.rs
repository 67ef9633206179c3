//! Numbers modulo an odd prime below 2^31, by plain 64-bit products. Inverses are Fermat powers.

/// The largest prime that a circuit may name.
pub const LARGEST_PRIME: u64 = 2_147_483_647;

/// The field of the numbers 0 to p - 1.
#[derive(Clone, Copy, Debug, PartialEq, Eq)]
pub struct Field {
    p: u64,
}

impl Field {
    /// The field modulo p, if p is an odd prime in range.
    pub fn new(p: u32) -> Option<Field> {
        let p = u64::from(p);
        ((3..=LARGEST_PRIME).contains(&p) && is_prime(p)).then_some(Field { p })
    }

    pub fn prime(self) -> u64 {
        self.p
    }

    pub fn add(self, a: u64, b: u64) -> u64 {
        (a + b) % self.p
    }

    pub fn sub(self, a: u64, b: u64) -> u64 {
        (a + self.p - b) % self.p
    }

    pub fn negate(self, a: u64) -> u64 {
        self.sub(0, a)
    }

    pub fn mul(self, a: u64, b: u64) -> u64 {
        a * b % self.p
    }

    /// 1/a for a other than 0, as a to the power p - 2.
    pub fn inverse(self, a: u64) -> u64 {
        power(a, self.p - 2, self.p)
    }

    /// The inverses of all the values, none of them 0, at the price of one power: each is the product of the others over the product of all.
    pub fn inverses(self, values: &[u64]) -> Vec<u64> {
        let mut result = Vec::with_capacity(values.len());
        let mut product = 1;
        for &value in values {
            result.push(product);
            product = self.mul(product, value);
        }
        let mut rest = self.inverse(product);
        for (before, &value) in result.iter_mut().zip(values).rev() {
            *before = self.mul(*before, rest);
            rest = self.mul(rest, value);
        }
        result
    }
}

/// base^exponent modulo a modulus below 2^32.
fn power(base: u64, exponent: u64, modulus: u64) -> u64 {
    let (mut base, mut exponent, mut result) = (base % modulus, exponent, 1);
    while exponent > 0 {
        if exponent & 1 == 1 {
            result = result * base % modulus;
        }
        base = base * base % modulus;
        exponent >>= 1;
    }
    result
}

/// Miller-Rabin with bases 2, 3, 5, 7: exact below 3,215,031,751.
pub fn is_prime(n: u64) -> bool {
    const BASES: [u64; 4] = [2, 3, 5, 7];
    if n < 2 || BASES.iter().any(|&base| n.is_multiple_of(base)) {
        return BASES.contains(&n);
    }
    let twos = (n - 1).trailing_zeros();
    let odd = (n - 1) >> twos;
    BASES.iter().all(|&base| {
        let mut x = power(base, odd, n);
        if x == 1 || x == n - 1 {
            return true;
        }
        (1..twos).any(|_| {
            x = x * x % n;
            x == n - 1
        })
    })
}

#[cfg(test)]
mod tests {
    use super::*;

    #[test]
    fn primes_below_a_hundred_thousand_are_those_of_the_sieve() {
        let mut composite = vec![false; 100_000];
        for n in 2..100_000usize {
            assert_eq!(is_prime(n as u64), !composite[n], "{n}");
            (2 * n..100_000).step_by(n).for_each(|multiple| composite[multiple] = true);
        }
        assert!(!is_prime(0) && !is_prime(1));
    }

    #[test]
    fn primes_near_the_limit_are_those_of_trial_division() {
        for n in 2_147_483_000..=LARGEST_PRIME + 200 {
            let divided = (2..).take_while(|d| d * d <= n).any(|d| n % d == 0);
            assert_eq!(is_prime(n), !divided, "{n}");
        }
    }

    #[test]
    fn strong_pseudoprimes_are_composite() {
        for n in [2047, 3277, 1_373_653, 1_530_787, 25_326_001, 161_304_001, 960_946_321, 1_157_839_381, 2_147_117_569] {
            assert!(!is_prime(n), "{n}");
        }
    }

    #[test]
    fn inverses_one_by_one_and_together() {
        for p in [3, 5, 7, 13, 65_537, 2_147_483_647] {
            let field = Field::new(p).unwrap();
            let values: Vec<u64> = (1..u64::from(p)).step_by(p as usize / 97 + 1).collect();
            let together = field.inverses(&values);
            for (&value, &inverse) in values.iter().zip(&together) {
                assert_eq!(inverse, field.inverse(value));
                assert_eq!(field.mul(value, inverse), 1);
            }
        }
    }
}
