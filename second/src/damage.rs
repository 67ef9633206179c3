//! Damaged circuit files, one fault or two, for every refusal from 1 to 10.

use crate::random::Random;
use crate::reader::{number16, number32};

/// Numbers that aren't primes in range, among them strong pseudoprimes, squares of primes and primes that are too large.
pub const NOT_PRIMES: [u32; 22] = [
    0,
    1,
    2,
    4,
    9,
    15,
    25,
    49,
    121,
    561,
    2047,
    1_373_653,
    25_326_001,
    1_157_839_381,
    2_147_117_569,
    2_147_483_645,
    2_147_483_646,
    2_147_483_648,
    2_147_483_659,
    3_215_031_751,
    4_294_967_291,
    4_294_967_295,
];

/// Where the count bytes and the terms of a circuit stand.
pub struct Layout {
    pub counts: Vec<usize>,
    pub terms: Vec<usize>,
}

impl Layout {
    /// The layout of a circuit that isn't refused.
    pub fn of(circuit: &[u8]) -> Layout {
        let mut layout = Layout { counts: Vec::new(), terms: Vec::new() };
        let mut at = 17;
        for _ in 0..3 * number16(circuit, 15) {
            layout.counts.push(at);
            let terms = usize::from(circuit[at]);
            layout.terms.extend((0..terms).map(|index| at + 1 + 6 * index));
            at += 1 + 6 * terms;
        }
        layout
    }
}

fn put16(bytes: &mut [u8], at: usize, number: u16) {
    bytes[at..at + 2].copy_from_slice(&number.to_le_bytes());
}

fn put32(bytes: &mut [u8], at: usize, number: u32) {
    bytes[at..at + 4].copy_from_slice(&number.to_le_bytes());
}

/// The circuit with a random fault, or with two; it may turn out valid still.
pub fn damaged(rng: &mut Random, circuit: &[u8]) -> Vec<u8> {
    let mut bytes = circuit.to_vec();
    for _ in 0..rng.pick(&[1, 1, 2]) {
        damage(rng, circuit, &mut bytes);
    }
    bytes
}

/// One fault more, at a place that the good circuit has; none where the bytes no longer reach so far.
fn damage(rng: &mut Random, good: &[u8], bytes: &mut Vec<u8>) {
    match rng.below(10) {
        0 | 1 => cut_or_extend(rng, bytes),
        2 | 3 => damage_header(rng, good, bytes),
        4 if !bytes.is_empty() => {
            let at = rng.below(bytes.len());
            bytes[at] ^= 1 << rng.below(8);
        }
        _ => damage_form(rng, good, bytes),
    }
}

fn cut_or_extend(rng: &mut Random, bytes: &mut Vec<u8>) {
    if rng.once_in(2) && !bytes.is_empty() {
        let lowest = if rng.once_in(4) { 0 } else { 17.min(bytes.len() - 1) };
        let length = rng.range(lowest, bytes.len() - 1);
        bytes.truncate(length);
    } else {
        for _ in 0..rng.range(1, 9) {
            bytes.push(rng.below(256) as u8);
        }
    }
}

fn damage_header(rng: &mut Random, good: &[u8], bytes: &mut [u8]) {
    let [n, i, o, m] = [9, 11, 13, 15].map(|at| number16(good, at));
    match rng.below(9) {
        _ if bytes.len() < 17 => (),
        0 => bytes[rng.below(3)] = rng.pick(b"cqtCQTDP\0"),
        1 => put16(bytes, 3, rng.pick(&[0, 2, 256, 257, 65_535])),
        2 => put32(bytes, 5, rng.pick(&NOT_PRIMES)),
        3 => put32(bytes, 5, rng.pick(&[3, 5, 7, 13, 2_147_483_647])),
        4 => put16(bytes, 9, rng.pick(&[0, 1, n + 1, n - 1, i + o - 1, 256, 257, 65_535])),
        5 => put16(bytes, 11, rng.pick(&[n, n + 1, n - o + 1, 65_535, 65_535 - o + 1])),
        6 => put16(bytes, 13, rng.pick(&[0, n + 1, n - i + 1, 65_535, 65_535 - i])),
        _ => put16(bytes, 15, rng.pick(&[m + 1, m.saturating_sub(1), 512, 513, 65_535, m + 256])),
    }
}

/// A fault at a count byte or a term; two faults at one term now and then.
fn damage_form(rng: &mut Random, good: &[u8], bytes: &mut Vec<u8>) {
    let Layout { mut counts, mut terms } = Layout::of(good);
    counts.retain(|&at| at < bytes.len());
    terms.retain(|&at| at + 6 <= bytes.len());
    let (n, p) = (number16(good, 9), number32(good, 5));
    if terms.is_empty() || rng.once_in(4) {
        if !counts.is_empty() {
            let at = rng.pick(&counts);
            bytes[at] = rng.pick(&[bytes[at].wrapping_add(1), bytes[at].wrapping_sub(1), 0, 32, 33, 34, 64, 128, 255]);
        }
        return;
    }
    let at = rng.pick(&terms);
    let signal = number16(good, at);
    let new_signal = rng.pick(&[0, signal + 1, signal.saturating_sub(1), n, n + 1, n + 256, 65_535]);
    let new_coefficient = rng.pick(&[0, p, p + 1, p - 1, 2 * p, 0x8000_0000, u32::MAX]);
    match rng.below(5) {
        0 | 1 => put16(bytes, at, new_signal),
        2 | 3 => put32(bytes, at + 2, new_coefficient),
        _ => {
            put16(bytes, at, new_signal);
            put32(bytes, at + 2, new_coefficient);
            if rng.once_in(2) {
                bytes.truncate(at + rng.range(0, 6));
            }
        }
    }
}
