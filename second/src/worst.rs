//! Circuits on which a solver works longest: many steps, and for each of them many long forms to look at; and some with sheets of 256 tags.

use crate::planted::{bent_constraint, Planted};
use crate::random::Random;
use crate::reader::number16;
use crate::sheet::{write_sheet, Tag, BINARY, MAXBIT, MAXVALUE, MOST_TAGS};
use crate::writer::{Draft, Terms};

/// The largest prime.
const P: u32 = 2_147_483_647;

/// The large circuits of this module with their names.
pub fn all() -> Vec<(&'static str, Vec<u8>)> {
    vec![
        ("bits_behind_decoys", bits_behind_decoys()),
        ("equal_weights", equal_weights()),
        ("different_weights", different_weights()),
        ("sum_chain", sum_chain()),
        ("mark_chain_backward", mark_chain_backward()),
        ("digit_chain_backward", digit_chain_backward()),
        ("wide_sums", wide_sums()),
        ("division_chain", division_chain()),
        ("divisions_behind_decoys", divisions_behind_decoys()),
        ("largest", largest(1).circuit),
    ]
}

/// A large circuit with a sheet of 256 tags.
pub struct Tagged {
    pub name: &'static str,
    pub circuit: Vec<u8>,
    pub sheet: Vec<u8>,
}

/// The large circuits with sheets: tags on every signal, most of which are shown; tags that let bounds fall; many tags on few inputs.
pub fn tagged() -> Vec<Tagged> {
    let bits: Vec<Tag> = (1..=MOST_TAGS as u16).map(|number| Tag::new(1 + number % 248, MAXBIT, if number % 248 < 8 { 30 } else { 1 })).collect();
    let largest = largest(1);
    vec![
        Tagged { name: "bits_behind_decoys", circuit: bits_behind_decoys(), sheet: write_sheet(&bits) },
        sums_over_tagged_inputs(),
        Tagged { name: "largest", sheet: obeyed_sheet(&largest), circuit: largest.circuit },
    ]
}

/// 128 inputs with two tags each, and a chain of 128 sums, the last one first in the file: each is the one before plus 61 inputs. Without the tags no bound
/// falls; with them each waits for the one before. Fixed.
fn sums_over_tagged_inputs() -> Tagged {
    let (mut draft, inputs) = (Draft::new(P, 256, 128, 128), 128u16);
    for sum in (inputs + 1..=256).rev() {
        let before = if sum == inputs + 1 { 1 } else { sum - 1 };
        let input = |index: u16| 2 + (sum * 5 + index) % (inputs - 1);
        let mut b: Terms = vec![(sum, -1), (before, 1)];
        b.extend((0..30).map(|index| (input(index), i64::from(index) + 1)));
        let c: Terms = (30..61).map(|index| (input(index), -i64::from(index) - 1)).collect();
        draft.add(&[(0, 1)], &b, &c);
    }
    let tags: Vec<Tag> = (1..=inputs).flat_map(|input| [Tag::new(input, MAXBIT, 8), Tag::new(input, BINARY, 0)]).collect();
    Tagged { name: "sums_over_tagged_inputs", circuit: draft.bytes(), sheet: write_sheet(&tags) }
}

/// 256 tags on the inputs in turn, each with the value that the planted runs have there as its limit.
pub fn obeyed_sheet(planted: &Planted) -> Vec<u8> {
    let inputs = usize::from(number16(&planted.circuit, 11));
    let tags: Vec<Tag> = (0..MOST_TAGS).map(|index| Tag::new((index % inputs) as u16 + 1, MAXVALUE, planted.first[index % inputs])).collect();
    write_sheet(&tags)
}

pub(crate) fn bit(draft: &mut Draft, signal: u16) {
    draft.add(&[(signal, 1)], &[(signal, 1), (0, -1)], &[]);
}

fn equation(draft: &mut Draft, terms: &[(u16, i64)]) {
    draft.add(&[(0, 1)], terms, &[]);
}

/// Input 1 as the sum of so many bits (at most 30) with weights 1, 2, 4 and so on: all outputs, fixed.
pub fn bits_and_long_sum(bits: u16) -> Vec<u8> {
    let mut draft = Draft::new(P, bits + 1, 1, bits);
    let mut terms: Terms = vec![(1, -1)];
    for index in 0..bits {
        bit(&mut draft, index + 2);
        terms.push((index + 2, 1 << index));
    }
    equation(&mut draft, &terms);
    draft.bytes()
}

/// 8 inputs and the 30 bits of each; before the sums that settle them, 264 sums of equal weights that settle nothing. Fixed.
pub fn bits_behind_decoys() -> Vec<u8> {
    numbers_behind_decoys(8)
}

/// The same with fewer inputs (2 to 8), and fewer sums in proportion: about 7,400 bytes for each input.
pub fn numbers_behind_decoys(inputs: u16) -> Vec<u8> {
    let (first, bits) = (inputs + 1, 30 * inputs);
    let mut draft = Draft::new(P, inputs + bits, inputs, bits);
    for decoy in 0..33 * inputs {
        let terms: Terms = (0..32).map(|index| (first + (decoy * 7 + index * 11) % bits, 1)).collect();
        equation(&mut draft, &terms);
    }
    (first..first + bits).for_each(|signal| bit(&mut draft, signal));
    for input in 0..inputs {
        let mut terms: Terms = vec![(input + 1, -1)];
        terms.extend((0..30).map(|index| (first + input * 30 + index, 1i64 << index)));
        equation(&mut draft, &terms);
    }
    draft.bytes()
}

/// 248 bits and 264 sums of 32 of them with equal weights, a few numbers among them: bounds fall, no mark is found. Open.
pub fn equal_weights() -> Vec<u8> {
    let mut draft = Draft::new(P, 256, 0, 1);
    (9..=256).for_each(|signal| bit(&mut draft, signal));
    for number in 0..264u16 {
        let mut terms: Terms = vec![(1 + number % 8, -1)];
        terms.extend((0..31).map(|index| (9 + (number * 5 + index * 13) % 248, 1)));
        equation(&mut draft, &terms);
    }
    draft.bytes()
}

/// 6 inputs and the 30 bits of each, behind 126 sums of 62 bits with random weights, half of them in C: as bits are marked one by one, every signal of
/// every sum is tried as a reference again and again, and none will do. Fixed.
pub fn different_weights() -> Vec<u8> {
    let (mut draft, mut rng) = (Draft::new(P, 186, 6, 180), Random::new(1));
    for sum in 0..126u16 {
        let mut half =
            |from: u16| -> Terms { (from..from + 31).map(|index| (7 + (sum * 7 + index * 7) % 180, rng.range(1, P as usize - 1) as i64)).collect() };
        let (b, c) = (half(0), half(31));
        draft.add(&[(0, 1)], &b, &c);
    }
    (7..=186).for_each(|signal| bit(&mut draft, signal));
    for input in 0..6u16 {
        let mut terms: Terms = vec![(input + 1, -1)];
        terms.extend((0..30).map(|index| (7 + input * 30 + index, 1i64 << index)));
        equation(&mut draft, &terms);
    }
    draft.bytes()
}

/// 16 zero signals, then a chain in which each signal is the next one plus 1 plus zeros, each sum given twice: every bound waits for the one
/// before. Fixed.
pub fn sum_chain() -> Vec<u8> {
    let (n, zeros) = (256u16, 16u16);
    let mut draft = Draft::new(P, n, 0, n);
    for number in (zeros + 1..n).chain(zeros + 1..n) {
        let mut terms: Terms = vec![(number, -1), (number + 1, 1), (0, 1)];
        terms.extend((1..=zeros).map(|zero| (zero, i64::from(zero))));
        equation(&mut draft, &terms);
    }
    for zero in (1..=zeros).chain([n]) {
        draft.add(&[(zero, 1)], &[(zero, 1)], &[]);
    }
    draft.bytes()
}

/// Products that mark from the last signal down to the middle; below, bits in sums that are digits but for equal weights at the end, whichever
/// signal scales them, because powers of 2 rotate modulo p. Open.
pub fn mark_chain_backward() -> Vec<u8> {
    let mut draft = Draft::new(P, 256, 0, 128);
    for sum in 0..256u16 {
        let mut weights: Vec<i64> = (0..26).map(|index| 1 << index).collect();
        weights.extend([1 << 25; 6]);
        let terms: Terms = (0..).zip(weights).map(|(index, weight)| (1 + (sum * 3 + index * 5) % 128, weight)).collect();
        equation(&mut draft, &terms);
    }
    (1..=128).for_each(|signal| bit(&mut draft, signal));
    draft.add(&[(256, 1)], &[(256, 1)], &[]);
    for signal in (129..=255).rev() {
        draft.add(&[(signal + 1, 1)], &[(signal + 1, 1)], &[(signal, 1)]);
    }
    draft.bytes()
}

/// Numbers of 29 bits each, where every number but the last hangs on a bit of the next one: digits are found from the last number down. Fixed.
pub fn digit_chain_backward() -> Vec<u8> {
    let (numbers, bits) = (8u16, 29u16);
    let n = numbers * (bits + 1);
    let mut draft = Draft::new(P, n, 0, n);
    let (number, digit) = (|k: u16| k * (bits + 1) + 1, |k: u16, index: u16| k * (bits + 1) + 2 + index);
    for decoy in 0..240u16 {
        let terms: Terms = (0..26).map(|index| (1 + (decoy * 3 + index * 7) % n, 1)).collect();
        equation(&mut draft, &terms);
    }
    for k in 0..numbers {
        let mut terms: Terms = vec![(number(k), -1)];
        terms.extend((0..bits).map(|index| (digit(k, index), 1i64 << index)));
        equation(&mut draft, &terms);
        (0..bits).for_each(|index| bit(&mut draft, digit(k, index)));
    }
    for k in 0..numbers - 1 {
        let bit = digit(k + 1, bits - 1);
        draft.add(&[(bit, 1)], &[(bit, 1), (0, 5)], &[(number(k), 1)]);
    }
    draft.add(&[(0, 1)], &[(number(numbers - 1), 1), (0, -77)], &[]);
    draft.bytes()
}

/// 144 sums whose reduced form names up to 63 signals, half in B and half in C, most of them zero, while the others' bounds fall one by one. Fixed.
pub fn wide_sums() -> Vec<u8> {
    let (n, zeros, sums) = (256u16, 160u16, 144u16);
    let mut draft = Draft::new(P, n, 0, n);
    for sum in 0..sums {
        let target = zeros + 1 + sum % (n - zeros - 1);
        let mut b: Terms = vec![(target, -1), (target + 1, 2), (0, 1)];
        b.extend((0..29).map(|index| (1 + (sum * 3 + index) % zeros, i64::from(index) + 3)));
        let c: Terms = (0..32).map(|index| (1 + (sum * 3 + 29 + index) % zeros, -i64::from(index) - 40)).collect();
        draft.add(&[(0, 1)], &b, &c);
    }
    for zero in (1..=zeros).chain([n]) {
        draft.add(&[(zero, 1)], &[(zero, 1)], &[]);
    }
    draft.bytes()
}

/// The product of two signals is 1.
fn inverses(draft: &mut Draft, one: u16, other: u16) {
    draft.add(&[(one, 1)], &[(other, 1)], &[(0, 1)]);
}

/// 256 signals, the first an input, each the inverse of the one before: every signal gets a nonzero mark, and one after the other is marked as a quotient. The
/// last constraint of the file marks the first of them. Fixed.
pub fn division_chain() -> Vec<u8> {
    let mut draft = Draft::new(P, 256, 1, 255);
    (1..256).rev().for_each(|signal| inverses(&mut draft, signal, signal + 1));
    draft.bytes()
}

/// 254 is 1, and from there down to 1 each signal is the inverse of the one above it; 255 is the inverse of 1, and 256 that of 255. Before these, 138 divisions
/// by 254 whose B and C name 32 signals each, 64 together, all marked early but for the last of each, 255 and 256: after each mark the quotient 255 and the
/// product 256 are tried anew, and neither will do before the other is marked. Fixed; in the only run all signals are 1.
pub fn divisions_behind_decoys() -> Vec<u8> {
    let mut draft = Draft::new(P, 256, 0, 256);
    for decoy in 0..138 {
        let form =
            |first: u16, last: u16| -> Terms { (0..31).map(|index| (first + index, i64::from(1 + index + decoy))).chain([(last, 1)]).collect() };
        draft.add(&[(254, 1)], &form(224, 255), &form(193, 256));
    }
    draft.add(&[(0, 1)], &[(254, 1)], &[(0, 1)]);
    let chain: Vec<u16> = (1..=254).rev().chain([255, 256]).collect();
    chain.windows(2).rev().for_each(|two| inverses(&mut draft, two[0], two[1]));
    draft.bytes()
}

/// 59,999 bytes, the largest length that a circuit can have: n = 256, m = 512; 8 numbers and their bits, sums, products, and 319 random
/// constraints of about 28 terms, with two planted runs.
pub fn largest(seed: u64) -> Planted {
    let mut rng = Random::new(seed);
    // A coefficient may come out as 0 and drop out, which makes the file shorter.
    loop {
        let planted = nearly_largest(&mut rng);
        if planted.circuit.len() == 59_999 {
            return planted;
        }
    }
}

fn nearly_largest(rng: &mut Random) -> Planted {
    let mut draft = Draft::new(P, 256, 8, 8);
    let first = computed_run(rng, &mut draft);
    let mut second = first.clone();
    for signal in (16..96).filter(|&signal| signal == 16 || signal > 32) {
        second[signal - 1] = (first[signal - 1] + rng.range(1, P as usize - 1) as u32) % P;
    }
    let mut terms = (59_999 - 17 - 3 * 512) / 6 - draft.constraints.iter().flatten().map(Vec::len).sum::<usize>();
    while draft.constraints.len() < 512 {
        let count = terms / (512 - draft.constraints.len());
        let counts = if rng.once_in(4) { [1, count / 2, count - 3 - count / 2] } else { [count / 3, count / 3, count - 2 - 2 * (count / 3)] };
        bent_constraint(rng, &mut draft, [&first, &second], counts);
        terms -= count;
    }
    Planted { circuit: draft.bytes(), q: 16, first, second }
}

/// The computing part of `largest`: 8 inputs of 20 bits (signals 97 to 256), sums 17 to 32, outputs 9 to 15; and a run that satisfies it.
fn computed_run(rng: &mut Random, draft: &mut Draft) -> Vec<u32> {
    let mut run: Vec<u32> = (0..256).map(|_| rng.below(P as usize) as u32).collect();
    for input in 0..8u16 {
        let bits: Vec<u16> = (0..20).map(|index| 97 + input * 20 + index).collect();
        let mut terms: Terms = vec![(input + 1, -1)];
        run[usize::from(input)] = 0;
        for (index, &signal) in bits.iter().enumerate() {
            bit(draft, signal);
            terms.push((signal, 1 << index));
            run[usize::from(signal) - 1] = rng.below(2) as u32;
            run[usize::from(input)] += run[usize::from(signal) - 1] << index;
        }
        equation(draft, &terms);
    }
    for sum in 17..=32u16 {
        let (x, y) = (sum - 16, if sum == 17 { 97 } else { sum - 1 });
        equation(draft, &[(sum, -1), (x.min(8), 1), (y, 1), (0, 3)]);
        run[usize::from(sum) - 1] = run[usize::from(x.min(8)) - 1] + run[usize::from(y) - 1] + 3;
    }
    for output in 9..=15u16 {
        draft.add(&[(output - 8, 1)], &[(output - 7, 1)], &[(output, 1)]);
        let product = u64::from(run[usize::from(output) - 9]) * u64::from(run[usize::from(output) - 8]);
        run[usize::from(output) - 1] = (product % u64::from(P)) as u32;
    }
    run
}
