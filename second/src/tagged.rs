//! Calls with tags: where a tag counts and where it doesn't, limits at and about what they are held against, and sheets at and beyond their limits.

use crate::compose::Maker;
use crate::marker::write_steps;
use crate::pair::write_pair;
use crate::rules::{Step, DIGITS, ROOT, SUM, ZERO};
use crate::sheet::{write_sheet, Tag, BINARY, MAXBIT, MAXVALUE, MOST_TAGS, NO_TAGS};
use crate::solver::longest;
use crate::vectors::{DERIVATION, PAIR, RENEW, SOLVE};
use crate::writer::{Draft, Terms};

/// A signal with a limit, as a tag of the third kind.
fn most(signal: u16, limit: u32) -> Tag {
    Tag::new(signal, MAXVALUE, limit)
}

/// A circuit over p with n signals and i inputs, all others outputs; each list of terms has the sum 0.
fn sums(p: u32, n: u16, i: u16, lists: &[&[(u16, i64)]]) -> Draft {
    lists.iter().fold(Draft::new(p, n, i, n - i), |draft, terms| draft.with(&[(0, 1)], terms, &[]))
}

/// Circuits in which bounds hang on those of tagged inputs, with sheets.
fn lowering() -> Vec<(Draft, Vec<Vec<Tag>>)> {
    let pair = |x: u32, y: u32| vec![most(1, x), most(2, y)];
    let root = |signal: u16, larger: i64| [vec![(signal, 1)], vec![(signal, 1), (0, -larger)], Terms::new()];
    let mut bit = sums(13, 2, 1, &[&[(1, 1), (2, -1)]]);
    bit.constraints.push(root(2, 1));
    let mut by_root = sums(13, 2, 1, &[&[(1, 1), (2, -1)]]);
    by_root.constraints.push(root(1, 3));
    let mut difference = sums(13, 3, 2, &[&[(1, 1), (2, 1), (3, -1)]]);
    difference.constraints.push(root(3, 4));
    let mut digits = sums(7, 5, 2, &[&[(2, 1), (3, 1), (4, -1)], &[(4, 1), (5, 3), (1, -1)]]);
    digits.constraints.extend([root(3, 1), root(5, 1)]);
    let one = |limits: &[u32]| -> Vec<Vec<Tag>> { limits.iter().map(|&limit| vec![most(1, limit)]).collect() };
    vec![
        // Three times input 1 and input 2, together below p - 1, equal to it, and p: the sum is met only thanks to the tags.
        (sums(13, 3, 2, &[&[(1, 3), (2, 1), (3, -1)]]), vec![pair(1, 8), pair(1, 9), pair(1, 10), pair(4, 0), pair(3, 2), vec![most(1, 1)]]),
        // The input's own bound is lowered further by a sum, or it lowers the other; by a root; by a sum in which the other input is 0.
        (bit, one(&[12, 11, 5, 2, 1, 0])),
        (by_root, one(&[12, 5, 4, 3, 2, 0])),
        (difference, vec![pair(6, 0), pair(4, 0), pair(3, 0), pair(6, 1), vec![most(1, 9), Tag::new(2, MAXBIT, 0)], pair(0, 0)]),
        // A chain over inputs: 2 is twice 1 and 1 more, 3 is their sum.
        (
            sums(31, 3, 2, &[&[(1, 2), (0, 1), (2, -1)], &[(1, 1), (2, 1), (3, -1)]]),
            vec![pair(2, 11), pair(2, 5), pair(2, 4), pair(14, 30), pair(15, 30)],
        ),
        (sums(31, 3, 2, &[&[(1, 1), (2, 1), (3, -1)], &[(2, 1), (3, -1)]]), vec![pair(0, 9), pair(1, 9), pair(9, 0)]),
        // Twice 2^30 - 1 is p - 1 of the largest prime.
        (
            sums(2_147_483_647, 2, 1, &[&[(1, 2), (2, -1)]]),
            vec![
                vec![Tag::new(1, MAXBIT, 30)],
                vec![Tag::new(1, MAXBIT, 29)],
                vec![most(1, 1 << 30)],
                vec![most(1, (1 << 30) - 2), Tag::new(1, MAXBIT, 30)],
            ],
        ),
        // Digits 4 and 5 of input 1 are told apart only because 4, which is input 2 and a bit, is small enough.
        (digits, vec![pair(6, 0), pair(6, 1), pair(6, 2), pair(5, 1), pair(2, 1), vec![most(2, 5)]]),
    ]
}

/// Signal 2 equals input 1: its last bound is the first bound of the input, and tags on it say which it is.
fn first_bounds() -> Vec<(Vec<u8>, Vec<Tag>)> {
    let mut result = Vec::new();
    for p in [3, 5, 7, 13, 31, 127, 65_537, 2_147_483_647] {
        let circuit = sums(p, 2, 1, &[&[(1, 1), (2, -1)]]).bytes();
        let bits = 32 - (p - 1).leading_zeros();
        let mut tags = vec![Tag::new(1, BINARY, 0)];
        tags.extend([0, 1, 2, bits - 1, bits, bits + 1, 30].map(|v| Tag::new(1, MAXBIT, v.min(30))));
        tags.extend([0, 1, 2, p - 2, p - 1].map(|v| most(1, v)));
        tags.dedup();
        for tag in tags {
            let bound = tag.limit().min(u64::from(p) - 1) as u32;
            let told = [most(2, bound), tag, most(2, bound.saturating_sub(1)), Tag::new(2, MAXBIT, bits - 1)];
            result.push((circuit.clone(), told.to_vec()));
        }
    }
    result
}

/// Several tags on the input of the same circuit, in every order, others between them; and on its output.
fn duplicates() -> Vec<(Vec<u8>, Vec<Tag>)> {
    let circuit = sums(31, 2, 1, &[&[(1, 1), (2, -1)]]).bytes();
    let (bits, small, large, other) = (Tag::new(1, MAXBIT, 3), most(1, 4), most(1, 22), Tag::new(2, BINARY, 0));
    let at = [most(2, 4), most(2, 4), most(2, 3), most(2, 4), most(2, 3)];
    let orders = [[0, 1, 2], [0, 2, 1], [1, 0, 2], [1, 2, 0], [2, 0, 1], [2, 1, 0]];
    let mut sheets: Vec<Vec<Tag>> = orders.iter().map(|order| order.iter().map(|&index| [bits, small, large][index]).collect()).collect();
    sheets.extend(orders.iter().map(|order| order.iter().flat_map(|&index| [[bits, small, large][index], other]).chain(at).collect()));
    sheets.push([&[small, small][..], &at].concat());
    sheets.push([&at[..], &[large, small, small]].concat());
    sheets.into_iter().map(|sheet| (circuit.clone(), sheet)).collect()
}

/// Output 2 is a bit, 3 is one of four values, inner signal 4 has any value, 5 is 0: what is shown, what isn't, and which of them comes first.
fn shown() -> Vec<(Vec<u8>, Vec<Tag>)> {
    let mut draft = Draft::new(31, 5, 1, 2).with(&[(2, 1)], &[(2, 1), (0, -1)], &[]).with(&[(0, 1)], &[(2, 1), (0, 2), (3, -1)], &[]);
    draft.add(&[(5, 1)], &[(5, 1)], &[]);
    let circuit = draft.bytes();
    let (bit, four, any, zero) = (Tag::new(2, BINARY, 0), Tag::new(3, MAXBIT, 2), most(4, 30), Tag::new(5, MAXBIT, 0));
    let (no_bit, three, less, input) = (Tag::new(2, MAXBIT, 0), most(3, 2), most(4, 29), most(1, 0));
    let sheets: [&[Tag]; 18] = [
        &[bit],
        &[no_bit],
        &[four],
        &[three],
        &[any],
        &[less],
        &[zero],
        &[Tag::new(4, MAXBIT, 4), Tag::new(4, MAXBIT, 5), Tag::new(4, MAXBIT, 30)],
        &[bit, four, any, zero],
        &[no_bit, four, any, zero],
        &[bit, three, any, zero],
        &[bit, four, zero, less],
        &[no_bit, three, less],
        &[input, bit, input, three, less],
        &[input, input, input],
        &[bit, input, four, input, any],
        &[less, less, bit, bit, bit],
        &[bit, bit, input, less, four, less],
    ];
    sheets.iter().map(|sheet| (circuit.clone(), sheet.to_vec())).collect()
}

/// Tags on circuits without inputs and on signal 256; sheets of 256 entries, none of which is shown, one, the last, all but the last.
fn sizes() -> Vec<(Vec<u8>, Vec<Tag>)> {
    let (none, square) = (Draft::new(5, 2, 0, 1), Draft::new(5, 1, 0, 1).with(&[(1, 1)], &[(1, 1)], &[]));
    let wide = |i: u16| sums(13, 256, i, &[&[(1, 1), (256, -1)]]);
    let full = |one: Tag, last: Tag| [vec![one; MOST_TAGS - 1], vec![last]].concat();
    let ladder: Vec<Tag> = (0..MOST_TAGS as u32).map(|number| Tag::new(1 + number as u16, MAXVALUE, 12 - number % 13)).collect();
    let equal = sums(257, 2, 1, &[&[(1, 1), (2, -1)]]);
    vec![
        (none.bytes(), vec![most(1, 3), most(2, 4), Tag::new(1, BINARY, 0)]),
        (square.bytes(), vec![Tag::new(1, MAXBIT, 0), most(1, 0), Tag::new(1, BINARY, 0)]),
        (wide(1).bytes(), vec![most(1, 5), most(256, 5), most(256, 4), most(255, 12)]),
        (wide(255).bytes(), vec![most(256, 12), most(255, 3), most(1, 7), most(256, 7), most(256, 6)]),
        (wide(0).bytes(), vec![most(256, 3), most(1, 3), most(256, 12)]),
        (equal.bytes(), full(most(2, 9), most(1, 9))),
        (equal.bytes(), full(most(1, 9), most(2, 8))),
        (equal.bytes(), full(most(2, 256), most(2, 255))),
        (equal.bytes(), (0..MOST_TAGS as u32).map(|number| most(2 - number as u16 % 2, 256 - number)).collect()),
        (wide(128).bytes(), ladder),
    ]
}

/// Derivations with tags that a solver wouldn't write: sums that lower nothing, or are met only after others; zero of a tagged input.
fn derivations() -> Vec<(Vec<u8>, Vec<Tag>, Vec<Step>)> {
    let circuit = sums(13, 3, 2, &[&[(1, 3), (2, 1), (3, -1)]]).bytes();
    let (three, one) = (Step::new(SUM, 3, 1, 0), Step::new(SUM, 1, 1, 0));
    let mut result = Vec::new();
    for (x, y) in [(1, 8), (1, 9), (1, 10), (0, 12), (0, 0), (3, 3), (3, 4), (4, 0), (4, 1)] {
        let tags = vec![most(1, x), most(2, y), most(3, 11)];
        result.push((circuit.clone(), tags.clone(), vec![three]));
        result.push((circuit.clone(), tags, vec![Step::new(ZERO, 1, 0, 0), Step::new(DIGITS, 3, 1, 3), three]));
    }
    result.push((circuit.clone(), vec![most(3, 0), most(2, 0)], vec![three]));
    result.push((circuit.clone(), vec![Tag::new(1, MAXBIT, 0), Tag::new(2, BINARY, 0)], vec![three, three, Step::new(ZERO, 1, 0, 0)]));
    result.push((circuit, vec![Tag::new(1, MAXBIT, 0), Tag::new(3, BINARY, 0)], vec![one]));
    let square = Draft::new(13, 2, 1, 1).with(&[(1, 1)], &[(1, 1), (0, -5)], &[]).bytes();
    for limit in [4, 5, 6] {
        result.push((square.clone(), vec![most(1, limit), most(2, limit)], vec![Step::new(ROOT, 1, 1, 0)]));
    }
    result
}

impl Maker {
    /// All of the above, and the sheets below.
    pub fn tagged_calls(&mut self) {
        for (draft, sheets) in lowering() {
            let last = draft.n;
            for tags in sheets {
                let about = [0, 1, 5, draft.p - 2].map(|limit| most(last, limit));
                self.solve_and_mark_with(&draft.bytes(), &[&tags[..], &about].concat());
            }
        }
        for (index, (circuit, tags)) in first_bounds().into_iter().enumerate() {
            match index % 3 {
                0 => self.solve_and_mark_with(&circuit, &tags),
                _ => self.call_with(SOLVE, &circuit, &write_sheet(&tags), &[], 49),
            }
        }
        for (circuit, tags) in [duplicates(), shown(), sizes()].concat() {
            self.solve_and_mark_with(&circuit, &tags);
        }
        for (circuit, tags, steps) in derivations() {
            self.mark_and_renew(&circuit, &write_sheet(&tags), &write_steps(&steps), 3);
        }
        for (circuit, tags) in [shown(), duplicates()].concat() {
            self.call_with(DERIVATION, &circuit, &write_sheet(&tags), &write_steps(&[]), 5);
        }
        self.tagged_pairs();
        self.sheet_lengths();
        self.entries();
    }

    /// Runs with input values at a limit and one above it, with several tags on one input and tags on other signals.
    fn tagged_pairs(&mut self) {
        let circuit = Draft::new(31, 5, 3, 1).bytes();
        let sheets: [&[Tag]; 11] = [
            &[Tag::new(1, MAXBIT, 2), Tag::new(2, BINARY, 0), most(3, 5)],
            &[most(3, 5), Tag::new(2, BINARY, 0), Tag::new(1, MAXBIT, 2)],
            &[most(1, 3), most(1, 30), most(1, 12)],
            &[most(1, 30), most(1, 12), most(1, 3)],
            &[most(2, 30), most(2, 1), most(2, 12), most(4, 0)],
            &[most(4, 0), most(5, 0), Tag::new(4, MAXBIT, 0), Tag::new(5, BINARY, 0)],
            &[most(4, 0), most(3, 4), most(3, 5)],
            &[Tag::new(1, MAXBIT, 0), Tag::new(2, MAXBIT, 0), Tag::new(3, MAXBIT, 0)],
            &[Tag::new(3, MAXBIT, 3), Tag::new(3, MAXBIT, 30), Tag::new(1, MAXBIT, 5)],
            &[most(1, 30), most(2, 30), most(3, 30)],
            &[],
        ];
        for (x, y, z) in [(0, 0, 0), (3, 1, 5), (4, 1, 5), (3, 2, 5), (3, 1, 6), (4, 2, 6), (3, 2, 8), (30, 30, 30)] {
            for sheet in sheets {
                self.call_with(PAIR, &circuit, &write_sheet(sheet), &write_pair(4, &[x, y, z, 1, 9], &[x, y, z, 2, 9]), 0);
            }
        }
        // One input after the other; and those from there on, the tags in falling order.
        let (inputs, tags) = (Draft::new(7, 8, 7, 1).bytes(), (1..=8).map(|signal| Tag::new(signal, BINARY, 0)).collect::<Vec<Tag>>());
        for at in 0..7 {
            let (mut one, mut many) = ([1; 8], [1; 8]);
            one[at] = 2;
            many[at..7].fill(6);
            self.call_with(PAIR, &inputs, &write_sheet(&tags), &write_pair(8, &one, &[&one[..7], &[2]].concat()), 0);
            self.call_with(
                PAIR,
                &inputs,
                &write_sheet(&tags.iter().rev().copied().collect::<Vec<Tag>>()),
                &write_pair(8, &many, &[&many[..7], &[2]].concat()),
                0,
            );
        }
        // An input that breaks its tag before one that differs.
        for at in [0, 2, 5] {
            let mut first = [1; 8];
            first[at] = 3;
            let mut second = first;
            (second[6], second[7]) = (0, 2);
            self.call_with(PAIR, &inputs, &write_sheet(&tags), &write_pair(8, &first, &second), 0);
        }
        // Without inputs no tag is broken.
        self.call_with(PAIR, &Draft::new(5, 1, 0, 1).bytes(), &write_sheet(&[most(1, 0)]), &write_pair(1, &[3], &[4]), 0);
    }

    /// The four calls that take a sheet, on a circuit of 4 signals without constraints.
    fn with_sheet(&mut self, p: u32, sheet: &[u8]) {
        let circuit = Draft::new(p, 4, 2, 1).bytes();
        self.call_with(DERIVATION, &circuit, sheet, &write_steps(&[]), 4);
        self.call_with(PAIR, &circuit, sheet, &write_pair(3, &[0; 4], &[0, 0, 1, 0]), 0);
        self.call_with(SOLVE, &circuit, sheet, &[], longest(4));
        self.call_with(RENEW, &circuit, sheet, &write_steps(&[]), 7);
    }

    /// Sheets that are cut, extended, have another mark, version or count; 255, 256 and 257 entries.
    fn sheet_lengths(&mut self) {
        let good = write_sheet(&[most(1, 5), most(3, 6), Tag::new(4, BINARY, 0)]);
        let put = |at: usize, byte: u8| {
            let mut bytes = good.clone();
            bytes[at] = byte;
            bytes
        };
        (0..=7).for_each(|length| self.with_sheet(13, &NO_TAGS[..length]));
        [8, 13, 14, 21, 27, 28].iter().for_each(|&length| self.with_sheet(13, &good[..length]));
        (1..9).step_by(3).for_each(|more| self.with_sheet(13, &[&good[..], &[0; 9][..more]].concat()));
        for (at, byte) in [(0, b'D'), (1, b'q'), (2, b'P'), (3, 0), (3, 2), (4, 1), (5, 0), (5, 2), (5, 4), (6, 1), (6, 255)] {
            self.with_sheet(13, &put(at, byte));
        }
        for (count, entries) in [(255, 255), (256, 256), (257, 257), (256, 255), (256, 257), (0, 256)] {
            let mut bytes = write_sheet(&vec![most(3, 6); entries]);
            bytes[5..7].copy_from_slice(&u16::to_le_bytes(count));
            self.call_with(SOLVE, &Draft::new(13, 4, 2, 1).bytes(), &bytes, &[], longest(4));
        }
    }

    /// Entries with each field at and beyond its limits, first, among others and last.
    fn entries(&mut self) {
        let good = [most(2, 0), Tag::new(4, BINARY, 0)];
        for p in [3, 13, 2_147_483_647] {
            let mut tags: Vec<Tag> = [0, 1, 4, 5, 257, 65_535].map(|signal| Tag::new(signal, BINARY, 0)).to_vec();
            tags.extend([0, 4, 255].map(|kind| Tag::new(1, kind, 0)));
            tags.extend([1, 256, 1 << 24].map(|number| Tag::new(3, BINARY, number)));
            tags.extend([0, 30, 31, 32, 256, u32::MAX].map(|number| Tag::new(3, MAXBIT, number)));
            tags.extend([0, p - 1, p, p + 1, u32::MAX].map(|number| Tag::new(3, MAXVALUE, number)));
            for (index, &tag) in tags.iter().enumerate() {
                let at = index % 3;
                let sheet = write_sheet(&[&good[..at], &[tag], &good[at..]].concat());
                match p {
                    13 => self.with_sheet(p, &sheet),
                    _ => self.call_with(SOLVE, &Draft::new(p, 4, 2, 1).bytes(), &sheet, &[], longest(4)),
                }
            }
        }
        // Two wrong ones, and one in the last of 256 entries.
        self.with_sheet(13, &write_sheet(&[good[0], most(5, 0), most(3, 13), good[1]]));
        self.with_sheet(13, &write_sheet(&[good[0], most(3, 13), good[1], Tag::new(0, BINARY, 0)]));
        let last = [vec![good[1]; MOST_TAGS - 1], vec![most(3, 13)]].concat();
        self.call_with(SOLVE, &Draft::new(13, 4, 2, 1).bytes(), &write_sheet(&last), &[], longest(4));
    }
}
