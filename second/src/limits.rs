//! The fixed calls of a file of test vectors: the cases of document 01, everything at and beyond its limits, and what comes first.

use crate::cases::{case_a, case_b, case_c, case_e, case_f, case_g};
use crate::compose::Maker;
use crate::damage::{Layout, NOT_PRIMES};
use crate::falling::Falling;
use crate::generate::PRIMES;
use crate::hand_in::padded;
use crate::marker::{write_steps, MOST_STEPS};
use crate::pair::write_pair;
use crate::planted::Planted;
use crate::reader::read_circuit;
use crate::rules::{Step, DIGITS, QUOTIENT, STEPS, ZERO};
use crate::sheet::NO_TAGS;
use crate::solver::{derive, longest};
use crate::two_faults::{self, Pair};
use crate::vectors::{DERIVATION, PAIR, READ, RENEW, SOLVE};
use crate::writer::Draft;
use crate::{falling, ties, worst};

/// The kinds of calls but those that list runs.
const OTHERS: [u8; 5] = [READ, DERIVATION, PAIR, SOLVE, RENEW];

/// Numbers n, i, o, m at and beyond their limits.
#[rustfmt::skip]
const SIZES: [[u16; 4]; 21] = [
    [1, 0, 1, 0], [256, 0, 256, 0], [256, 255, 1, 0], [256, 128, 128, 0], [257, 0, 1, 0], [0, 0, 1, 0], [0, 0, 0, 0],
    [4, 2, 3, 0], [4, 4, 1, 0], [4, 3, 0, 0], [4, 0, 5, 0], [1, 65_535, 2, 0], [4, 65_535, 3, 0], [4, 3, 65_535, 0],
    [1, 0, 1, 512], [1, 0, 1, 513], [1, 0, 1, 65_535], [65_535, 0, 1, 0], [256, 0, 257, 0], [256, 256, 1, 0], [256, 256, 0, 0],
];

/// Circuits of one signal with about 512 constraints of no terms, some with a byte too few or too many.
pub fn empty_constraints() -> Vec<Vec<u8>> {
    let mut circuit = Draft::new(13, 1, 0, 1).bytes();
    let mut with = |m: u16, length: usize| {
        circuit[15..17].copy_from_slice(&m.to_le_bytes());
        [&circuit[..], &vec![0; length]].concat()
    };
    [(511, 1533), (512, 1535), (512, 1536), (512, 1537), (513, 1536), (513, 1539)].map(|(m, length)| with(m, length)).into()
}

impl Maker {
    /// All fixed calls but those that list runs; the long ones first, so that files can be filled up.
    pub fn fixed_calls(&mut self) {
        self.largest();
        self.too_long(&OTHERS);
        self.many_steps();
        self.document_cases();
        self.header_limits();
        self.size_limits();
        self.form_limits();
        self.buffer_limits();
        self.every_step();
        self.every_field();
        self.fields_of_met_steps();
        self.every_value();
        self.every_two_faults(&OTHERS);
        ties::circuits().iter().for_each(|circuit| self.solve(circuit));
        self.tagged_calls();
        self.idle_calls();
        self.division_calls();
    }

    /// Every kind of call but those that list runs, with a derivation without steps, a pair of runs of zeros, and buffers that are long enough for n signals.
    pub fn every_kind(&mut self, circuit: &[u8], n: usize) {
        let zeros = vec![0; n];
        self.call(READ, circuit, &[], 0);
        self.call(DERIVATION, circuit, &write_steps(&[]), n);
        self.call(PAIR, circuit, &write_pair(1, &zeros, &zeros), 0);
        self.call(SOLVE, circuit, &[], longest(n));
        self.call(RENEW, circuit, &write_steps(&[]), 7);
    }

    /// Cases a to j of document 01.
    fn document_cases(&mut self) {
        let (a, b, c, d, f) = (case_a(), case_b(), case_c(13), case_c(7), case_f());
        for circuit in [&a, &b, &c, &d, &case_e(), &f, &case_g()] {
            self.solve_and_mark(circuit);
        }
        self.call(PAIR, &b, &write_pair(2, &[0, 1, 0], &[0, 2, 1]), 0);
        self.call(PAIR, &d, &write_pair(2, &[0, 0, 0, 0], &[0, 1, 1, 1]), 0);
        self.call(PAIR, &f, &write_pair(1, &[0], &[1]), 0);
        self.call(SOLVE, &c[..112], &[], longest(4));
        self.call(SOLVE, &[&c[..], &[0]].concat(), &[], longest(4));
        for step in [Step::new(4, 2, 1, 0), Step::new(9, 2, 1, 0), Step::new(4, 0, 1, 0)] {
            self.mark_and_renew(&a, NO_TAGS, &write_steps(&[step]), 2);
        }
        self.mark_and_renew(&c, NO_TAGS, &write_steps(&[Step::new(4, 2, 4, 0)]), 4);
    }

    /// Numbers of the header at and beyond their limits.
    fn header_limits(&mut self) {
        let header = |p: u32, n: u16, i: u16, o: u16, m: u16| {
            let mut bytes = Draft::new(p, n, i, o).bytes();
            bytes[15..17].copy_from_slice(&m.to_le_bytes());
            bytes
        };
        for p in NOT_PRIMES.into_iter().chain(PRIMES).chain([2_147_483_587, 1_073_741_789, 46_337]) {
            self.call(READ, &header(p, 1, 0, 1, 0), &[], 0);
        }
        for [n, i, o, m] in SIZES {
            self.call(READ, &header(13, n, i, o, m), &[], 0);
        }
        self.call(READ, &[&header(13, 1, 0, 1, 512)[..], &[0; 3 * 512]].concat(), &[], 0);
        for length in 0..17 {
            self.call_any_kind(&header(13, 1, 0, 1, 0)[..length]);
        }
        for (at, byte) in [(0, b'D'), (1, b'q'), (2, 0), (3, 0), (3, 2), (4, 1), (4, 255)] {
            let mut bytes = header(13, 1, 0, 1, 0);
            bytes[at] = byte;
            self.call_any_kind(&bytes);
        }
    }

    /// n of 256 and 257, m of 512 and 513, t of 32 and 33, each in every call but those that list runs.
    fn size_limits(&mut self) {
        for n in [255, 256, 257] {
            self.every_kind(&Draft::new(13, n, 0, 1).bytes(), usize::from(n));
            self.call(READ, &Draft::new(13, n, n - 1, 1).bytes(), &[], 0);
            self.call(READ, &Draft::new(13, n, 0, n).bytes(), &[], 0);
            for signal in [256, 257] {
                self.call(READ, &Draft::new(13, n, 0, 1).with(&[(signal, 1)], &[], &[]).bytes(), &[], 0);
            }
        }
        empty_constraints().iter().for_each(|circuit| self.every_kind(circuit, 1));
        let terms = |count: u16| -> Vec<(u16, i64)> { (0..count).map(|signal| (signal, 1)).collect() };
        for count in [31, 32, 33] {
            let draft = Draft::new(13, 33, 0, 1);
            let drafts =
                [draft.clone().with(&terms(count), &[], &[]), draft.clone().with(&[], &terms(count), &[]), draft.with(&[], &[], &terms(count))];
            drafts.iter().for_each(|draft| self.every_kind(&draft.bytes(), 33));
        }
    }

    /// Buffers for marks of n - 1, n and n + 1 bytes, and for the solver of 7 + 21 n - 1 bytes and more.
    fn buffer_limits(&mut self) {
        let chain = worst::bits_and_long_sum(9);
        for (circuit, n) in [(case_f(), 1), (case_a(), 2), (case_c(13), 4), (chain, 10), (Draft::new(13, 256, 3, 1).bytes(), 256)] {
            let steps = write_steps(&derive(&read_circuit(&circuit).expect("a valid circuit"), &[]).0);
            for lent in [n - 1, n, n + 1] {
                self.call(DERIVATION, &circuit, &steps, lent);
                self.call(DERIVATION, &circuit, &write_steps(&[Step::new(3, 1, 0, 0)]), lent);
            }
            for lent in [6, 7, 7 + 14 * n - 1, 7 + 14 * n, longest(n) - 1, longest(n), longest(n) + 1] {
                self.call(SOLVE, &circuit, &[], lent);
            }
        }
    }

    /// Case c cut at every length, and its forms at the limits of count, signal and coefficient.
    fn form_limits(&mut self) {
        let c = case_c(13);
        (17..c.len()).step_by(2).for_each(|length| self.call_any_kind(&c[..length]));
        let full: Vec<(u16, i64)> = (1..=32).map(|signal| (signal, 1)).collect();
        let most = Draft::new(13, 40, 1, 39).with(&full, &full, &full).bytes();
        self.solve_and_mark(&most);
        for at in Layout::of(&most).counts {
            let mut bytes = most.clone();
            bytes[at] = 33;
            self.call(READ, &bytes, &[], 0);
            bytes.truncate(at + 1);
            self.call(READ, &bytes, &[], 0);
        }
        for (at, number) in [(18, 0u16), (18, 40), (18, 41), (24, 0), (24, 1), (24, 2), (24, 3), (24, 65_535)] {
            let mut bytes = Draft::new(13, 40, 1, 39).with(&[(1, 12), (2, 1)], &[], &[]).bytes();
            bytes[at..at + 2].copy_from_slice(&number.to_le_bytes());
            self.call(READ, &bytes, &[], 0);
            bytes[at + 2..at + 6].copy_from_slice(&13u32.to_le_bytes());
            self.call(READ, &bytes, &[], 0);
        }
    }

    /// A derivation of 13 steps with a fault at each of them, and with two faults.
    fn every_step(&mut self) {
        let circuit = worst::bits_and_long_sum(6);
        let read = read_circuit(&circuit).expect("a valid circuit");
        let steps = derive(&read, &[]).0;
        for at in 0..steps.len() {
            let fault = |change: &dyn Fn(&mut Step)| {
                let mut faulty = steps.clone();
                change(&mut faulty[at]);
                write_steps(&faulty)
            };
            let kind = self.rng.pick(&[0, 8, 9, 255]);
            let number = self.rng.pick(&[0, 8, 65_535]);
            self.mark_and_renew(&circuit, NO_TAGS, &fault(&|step| step.kind = kind), 7);
            self.mark_and_renew(&circuit, NO_TAGS, &fault(&|step| step.target = number), 7);
            self.mark_and_renew(&circuit, NO_TAGS, &fault(&|step| *step = Step::new(4, 2, 7, 0)), 7);
        }
    }

    /// Steps of each kind with each field at and beyond its limits.
    fn every_field(&mut self) {
        let circuit = case_g();
        for kind in STEPS {
            let (constraint, reference) = (u16::from(kind != ZERO), u16::from([DIGITS, QUOTIENT].contains(&kind)));
            let mut steps: Vec<Step> = [0, 1, 3, 4, 258].map(|target| Step::new(kind, target, constraint, reference)).to_vec();
            steps.extend([0, 1, 2, 3, 257].map(|number| Step::new(kind, 2, number, reference)));
            steps.extend([0, 1, 3, 4, 257].map(|number| Step::new(kind, 2, constraint, number)));
            steps.iter().for_each(|&step| self.mark_and_renew(&circuit, NO_TAGS, &write_steps(&[step]), 3));
        }
    }

    /// Steps that would be met but for a field: zero steps that name a constraint or a reference, digits steps by reference 0, by a signal without
    /// a coefficient, and of a target without one.
    fn fields_of_met_steps(&mut self) {
        let roots = [Step::new(1, 2, 1, 0), Step::new(1, 3, 2, 0)];
        for p in [5, 13, 2_147_483_647] {
            // 2 and 3 are 0; 4 equals input 1, and 3 is in that equation with a coefficient that becomes 0; 5 is in none.
            let draft = Draft::new(p, 5, 1, 4).with(&[(2, 1)], &[(2, 1)], &[]).with(&[(3, 2)], &[(3, 1)], &[]);
            let circuit = draft.with(&[(0, 1)], &[(1, 1), (3, 1), (4, -1)], &[(3, 1)]).bytes();
            let zeros = [(2, 0, 0), (2, 1, 0), (2, 3, 0), (2, 0, 1), (2, 0, 2), (3, 1, 1), (3, 0, 5), (3, 2, 3)];
            let digits = [(4, 3, 4), (4, 3, 0), (4, 3, 2), (4, 3, 3), (4, 3, 5), (3, 3, 4), (5, 3, 4), (3, 3, 3), (1, 3, 0), (5, 3, 5)];
            let of_kind = |kind: u8, fields: &[(u16, u16, u16)]| -> Vec<Step> { fields.iter().map(|&(t, c, r)| Step::new(kind, t, c, r)).collect() };
            for step in [of_kind(3, &zeros), of_kind(5, &digits)].concat() {
                self.mark_and_renew(&circuit, NO_TAGS, &write_steps(&[&roots[..], &[step]].concat()), 5);
            }
        }
    }

    /// Pairs with a fault at each value, input, output and constraint.
    fn every_value(&mut self) {
        let (inputs, outputs) = (Draft::new(7, 6, 5, 1).bytes(), Draft::new(7, 6, 0, 6).bytes());
        for at in 0..12 {
            let mut values = [1; 12];
            values[at] = 7;
            self.call(PAIR, &outputs, &write_pair(6, &values[..6], &values[6..]), 0);
        }
        for at in 0..6 {
            let mut second = [1; 6];
            second[at] = 2;
            self.call(PAIR, &inputs, &write_pair(6, &[1; 6], &second), 0);
            self.call(PAIR, &outputs, &write_pair(at as u16 + 1, &second, &second), 0);
        }
        for q in 0..8 {
            self.call(PAIR, &Draft::new(7, 6, 2, 2).bytes(), &write_pair(q, &[1; 6], &[1, 1, 2, 2, 2, 2]), 0);
        }
        for at in 0..8 {
            let mut values = [0; 8];
            values[if at % 4 == 3 { at - 3 } else { at + 1 }] = 2;
            self.call(PAIR, &case_c(7), &write_pair(2, &values[..4], &values[4..]), 0);
        }
    }

    /// Derivations with 4,095 and 4,096 steps and with one more, some with a fault in a step: c's own steps again and again, and steps of which none is idle.
    fn many_steps(&mut self) {
        let c = case_c(13);
        let steps = derive(&read_circuit(&c).expect("a valid circuit"), &[]).0;
        let full = padded(&mut self.rng, &steps, MOST_STEPS);
        let unmet = [Step::new(4, 2, 4, 0)];
        let lists = [
            full[..MOST_STEPS - 1].to_vec(),
            full.clone(),
            [&full[..MOST_STEPS - 1], &unmet].concat(),
            [&full[..], &steps[..1]].concat(),
            [&unmet, &full[..]].concat(),
        ];
        for (steps, marks) in lists.iter().zip([4, 4, 4, 4, 3]) {
            self.call(DERIVATION, &c, &write_steps(steps), marks);
            self.call(RENEW, &c, &write_steps(steps), 7 + 7 * steps.len());
        }
        let Falling { circuit, derivation } = falling::chain();
        self.call(DERIVATION, &circuit, &derivation, 64);
        self.call(RENEW, &circuit, &derivation, derivation.len() + 1);
        // All idle but the first, renewed into every sort of buffer.
        let square = write_steps(&[Step::new(4, 2, 1, 0); MOST_STEPS]);
        self.call(DERIVATION, &case_a(), &square, 2);
        for lent in [0, 14, square.len() - 1, square.len(), square.len() + 1] {
            self.call(RENEW, &case_a(), &square, lent);
        }
    }

    /// A circuit of 59,999 bytes, which is the most; and files of 60,000 and 60,001 bytes.
    fn largest(&mut self) {
        let seed = self.rng.draw();
        let Planted { circuit, q, first, second } = worst::largest(seed);
        self.solve_and_mark(&circuit);
        self.call(SOLVE, &circuit, &[], longest(256) - 1);
        self.call(DERIVATION, &circuit, &write_steps(&[]), 255);
        self.call(PAIR, &circuit, &write_pair(q, &first, &second), 0);
        let mut broken = second.clone();
        broken[50] = (broken[50] + 1) % 2_147_483_647;
        self.call(PAIR, &circuit, &write_pair(q, &first, &broken), 0);
        self.every_kind(&[&circuit[..], &[7]].concat(), 256);
        self.every_kind(&[&circuit[..], &[7, 7]].concat(), 256);
    }

    /// A circuit that is too long, and has all other faults that it may have, with good and bad hand-ins.
    pub fn too_long(&mut self, kinds: &[u8]) {
        let long = two_faults::long_circuit();
        for &kind in kinds {
            let calls = two_faults::beyond_circuit(kind).map(|fault| two_faults::with(kind, fault)).chain([two_faults::good(kind)]);
            calls.for_each(|call| self.call_with(kind, &long, &call.sheet, &call.hand_in, call.lent));
        }
    }

    /// Calls of these kinds with every two faults.
    pub fn every_two_faults(&mut self, kinds: &[u8]) {
        for Pair { call, .. } in two_faults::pairs().into_iter().filter(|pair| kinds.contains(&pair.call.kind)) {
            self.call_with(call.kind, &call.circuit, &call.sheet, &call.hand_in, call.lent);
        }
    }
}
