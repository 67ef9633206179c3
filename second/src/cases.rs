//! The small circuits of document 01, and those of rule 7.13.

use crate::writer::Draft;

/// Case a: signal 2 is the square of input 1.
pub fn case_a() -> Vec<u8> {
    Draft::new(7, 2, 1, 1).with(&[(1, 1)], &[(1, 1)], &[(2, 1)]).bytes()
}

/// Case b: w·(w - 1) = -i; 1·(w + 1 - o) = 0.
pub fn case_b() -> Vec<u8> {
    Draft::new(7, 3, 1, 1).with(&[(3, 1)], &[(3, 1), (0, -1)], &[(1, -1)]).with(&[(0, 1)], &[(3, 1), (0, 1), (2, -1)], &[]).bytes()
}

/// Case c, and with p = 7 case d: an input and its three bits.
pub fn case_c(p: u32) -> Vec<u8> {
    let mut draft = Draft::new(p, 4, 1, 3);
    (2..=4).for_each(|signal| draft.add(&[(signal, 1)], &[(signal, 1), (0, -1)], &[]));
    draft.with(&[(0, 1)], &[(1, -1), (2, 1), (3, 2), (4, 4)], &[]).bytes()
}

/// Case e: the square of the only signal is 0.
pub fn case_e() -> Vec<u8> {
    Draft::new(5, 1, 0, 1).with(&[(1, 1)], &[(1, 1)], &[]).bytes()
}

/// Case f: the square of the only signal is the signal.
pub fn case_f() -> Vec<u8> {
    Draft::new(5, 1, 0, 1).with(&[(1, 1)], &[(1, 1)], &[(1, 1)]).bytes()
}

/// Case g: x·w = 1 - y; x·y = 0.
pub fn case_g() -> Vec<u8> {
    Draft::new(7, 3, 1, 1).with(&[(1, 1)], &[(3, 1)], &[(0, 1), (2, -1)]).with(&[(1, 1)], &[(2, 1)], &[]).bytes()
}

/// The product of two signals is 1; with one input the second is the inverse of it.
pub fn inverse(p: u32, inputs: u16) -> Vec<u8> {
    Draft::new(p, 2, inputs, 2 - inputs).with(&[(1, 1)], &[(2, 1)], &[(0, 1)]).bytes()
}

/// The second signal is the inverse of the first, an input, and equals it.
pub fn equal_inverse() -> Vec<u8> {
    Draft::new(7, 2, 1, 1).with(&[(1, 1)], &[(2, 1)], &[(0, 1)]).with(&[(0, 1)], &[(1, 1)], &[(2, 1)]).bytes()
}

/// Signal 3 is input 1 divided by input 2, unless both are 0.
pub fn division() -> Vec<u8> {
    Draft::new(7, 3, 2, 1).with(&[(2, 1)], &[(3, 1)], &[(1, 1)]).bytes()
}

/// Signal 3 is input 1 divided by input 2, whose inverse is signal 4.
pub fn guarded_division() -> Vec<u8> {
    Draft::new(7, 4, 2, 1).with(&[(2, 1)], &[(4, 1)], &[(0, 1)]).with(&[(2, 1)], &[(3, 1)], &[(1, 1)]).bytes()
}

/// Two divisions by multiples of input 2, which stands in A and in B, of forms with constants and other signals.
pub fn wide_quotients() -> Vec<u8> {
    let draft = Draft::new(7, 4, 2, 1).with(&[(2, 2)], &[(0, 1), (1, 1), (4, 3)], &[(0, 3)]);
    draft.with(&[(0, 2), (1, 1), (3, 5)], &[(2, 3)], &[(1, 1), (4, 4)]).bytes()
}

/// Signal 3 is the inverse of input 1, and signal 2 is itself times input 1.
pub fn times_itself() -> Vec<u8> {
    Draft::new(7, 3, 1, 1).with(&[(1, 1)], &[(3, 1)], &[(0, 1)]).with(&[(1, 1)], &[(2, 1)], &[(2, 1)]).bytes()
}

/// Case g with signal 4 as the inverse of its input.
pub fn guarded_is_zero() -> Vec<u8> {
    let draft = Draft::new(7, 4, 1, 1).with(&[(1, 1)], &[(3, 1)], &[(0, 1), (2, -1)]).with(&[(1, 1)], &[(2, 1)], &[]);
    draft.with(&[(1, 1)], &[(4, 1)], &[(0, 1)]).bytes()
}

/// The only signal is 1.
pub fn constant(p: u32) -> Vec<u8> {
    Draft::new(p, 1, 0, 1).with(&[(0, 1)], &[(1, 1)], &[(0, 1)]).bytes()
}
