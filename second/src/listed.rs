//! Calls that list runs: as many candidates as may be and more, given runs and buffers at and beyond their limits, whole lists, every given run of the smallest
//! circuits, and circuits that nothing satisfies. With them two circuits of two faults that no table of faults has.

use crate::brute::satisfying_runs;
use crate::cases::{case_a, case_b, case_c, case_e, case_f, case_g};
use crate::compose::Maker;
use crate::limits::empty_constraints;
use crate::reader::{read_circuit, Circuit};
use crate::records::pair_length;
use crate::runs::is_small;
use crate::vectors::{bytes_of, FIRST_RUN, LISTING, NEXT_RUN, WATCH};
use crate::worst::bit;
use crate::worst_runs::{at_last, sparse};
use crate::writer::{Draft, Terms};

/// p and n with at most 65,536 candidates: for each n the most, and few.
const SMALL: [(u32, u16); 11] = [(3, 10), (3, 9), (3, 8), (3, 7), (5, 6), (7, 5), (13, 4), (37, 3), (251, 2), (65_521, 1), (3, 1)];

/// p and n with more: for each n of `SMALL` the fewest; the largest; and those whose power is small modulo 2^32.
#[rustfmt::skip]
const LARGE: [(u32, u16); 18] = [
    (65_537, 1), (65_539, 1), (2_147_483_647, 1), (257, 2), (41, 3), (17, 4), (11, 5), (7, 6), (5, 7), (5, 8), (5, 9), (5, 10), (3, 11), (3, 12),
    (2_147_483_647, 2), (2_147_483_647, 4), (3, 256), (2_147_483_647, 256),
];

/// Circuits that nothing satisfies: by a constraint without signals, by the first signal, by the last one alone and after a choice of the others, by two
/// constraints that exclude each other, and by a square that is none.
fn unsatisfied() -> Vec<Vec<u8>> {
    let draft = |p: u32, n: u16| Draft::new(p, n, 0, n);
    let drafts = [
        draft(5, 1).with(&[(0, 1)], &[(0, 1)], &[]),
        draft(3, 10).with(&[(0, 1)], &[(0, 1)], &[]),
        draft(3, 3).with(&[(1, 1)], &[], &[]).with(&[], &[], &[(0, 2)]),
        draft(7, 3).with(&[(1, 1)], &[(1, 1)], &[(0, 3)]),
        draft(13, 2).with(&[(2, 1)], &[(2, 1)], &[(0, 5)]),
        draft(3, 10).with(&[(0, 1)], &[(10, 1)], &[(0, 1)]).with(&[(10, 1)], &[(10, 1)], &[]),
        draft(5, 4).with(&[(1, 1)], &[(4, 1)], &[(0, 1)]).with(&[], &[(3, 1)], &[(1, 1)]),
        draft(65_521, 1).with(&[(0, 1)], &[(1, 1)], &[]).with(&[(0, 1)], &[(1, 1), (0, -1)], &[]),
        draft(251, 2).with(&[(1, 1)], &[(2, 1)], &[(0, 1)]).with(&[(0, 1)], &[(1, 1)], &[]),
    ];
    drafts.iter().map(Draft::bytes).collect()
}

/// Circuits whose whole lists are stored: no constraints; bits with a product and with a sum; a chain of equal signals; runs at the first and the last
/// candidates; a value of each signal that only the last one settles.
fn listed() -> Vec<Vec<u8>> {
    let draft = |p: u32, n: u16| Draft::new(p, n, 0, n);
    let mut product = draft(5, 3).with(&[(1, 1)], &[(2, 1)], &[(3, 1)]);
    (1..=2).for_each(|signal| bit(&mut product, signal));
    let mut sum = draft(7, 4).with(&[(0, 1)], &[(1, 1), (2, 2), (3, 4), (4, -1)], &[]);
    (1..=3).for_each(|signal| bit(&mut sum, signal));
    let mut chain = draft(3, 10);
    (1..10).for_each(|signal| chain.add(&[(0, 1)], &[(signal, 1)], &[(signal + 1, 1)]));
    let ends = |p: u32, n: u16| (1..=n).fold(draft(p, n), |draft, s| draft.with(&[(s, 1)], &[(s, 1), (0, 1)], &[]));
    let drafts = [draft(3, 2), draft(7, 1), product, sum, chain, ends(65_521, 1), ends(251, 2), ends(13, 3)];
    let cases = [case_a(), case_b(), case_c(13), case_c(7), case_e(), case_f(), case_g()];
    cases.into_iter().chain(drafts.iter().map(Draft::bytes)).chain([sparse(3, 10, at_last).bytes()]).collect()
}

/// Circuits with at most 27 candidates, some of which satisfy.
fn smallest() -> Vec<Vec<u8>> {
    let draft = |p: u32, n: u16| Draft::new(p, n, n - 1, 1);
    let drafts = [
        draft(3, 3).with(&[(1, 1)], &[(2, 1)], &[(3, 1)]),
        draft(3, 3).with(&[(1, 1), (0, 1)], &[(3, 1)], &[(2, 1)]),
        draft(3, 3).with(&[(3, 1)], &[(3, 1), (0, -1)], &[]).with(&[(0, 1)], &[(1, 1), (2, 1), (0, 1)], &[]),
        draft(5, 2).with(&[(1, 1)], &[(1, 1)], &[(2, 1), (0, 3)]),
        draft(5, 2).with(&[(2, 1)], &[(2, 1), (0, 2)], &[(1, 2)]),
        draft(13, 1).with(&[(1, 1)], &[(1, 1)], &[(0, 10)]),
    ];
    drafts.iter().map(Draft::bytes).collect()
}

/// Every run of a small circuit, satisfying or not, in their order.
fn candidates(circuit: &Circuit) -> Vec<Vec<u32>> {
    satisfying_runs(&Circuit { constraints: Vec::new(), ..circuit.clone() })
}

/// A form of 33 terms, each of which stands there, and a byte after the last constraint: 7 and 10. There are 32 signals.
pub fn crowded_form_and_more() -> Vec<u8> {
    let all: Terms = (0..=32).map(|signal| (signal, 1)).collect();
    let mut circuit = Draft::new(3, 32, 1, 1).with(&[], &all, &[]).bytes();
    circuit.push(0);
    circuit
}

impl Maker {
    /// All fixed calls that list runs, and those that watch on circuits that are too long.
    pub fn run_calls(&mut self) {
        self.too_long(&[FIRST_RUN, NEXT_RUN, WATCH]);
        self.too_long_at_the_end();
        self.crowded_form_and_more();
        self.every_two_faults(&LISTING);
        for circuit in empty_constraints() {
            self.first_run(&circuit, 1);
            self.next_run(&circuit, &[0], 1);
        }
        LARGE.iter().for_each(|&(p, n)| self.too_many(p, usize::from(n)));
        for (p, n) in SMALL {
            let circuit = Draft::new(p, n, n / 2, 1).bytes();
            self.buffers(&circuit, usize::from(n));
            self.values(&circuit, p, usize::from(n));
        }
        self.nothing_satisfies();
        listed().iter().for_each(|circuit| self.whole_list(circuit));
        for circuit in smallest() {
            let read = read_circuit(&circuit).expect("a valid circuit");
            self.first_run(&circuit, read.signals.into());
            candidates(&read).iter().for_each(|given| self.next_run(&circuit, given, given.len()));
        }
    }

    /// A file that is too long by bytes after its last constraint: 1 and 10. The calls that neither list nor watch have it of the largest circuit.
    fn too_long_at_the_end(&mut self) {
        let mut circuit = Draft::new(3, 2, 1, 1).with(&[(0, 1)], &[(1, 1)], &[(2, 1)]).bytes();
        circuit.resize(60_001, 0);
        self.first_run(&circuit, 2);
        self.next_run(&circuit, &[0; 2], 2);
        self.watch(&circuit, &[0; 8], 0, pair_length(2));
    }

    /// A form with too many terms and a byte too many, for every call but watching. With 32 signals 30 is met too.
    fn crowded_form_and_more(&mut self) {
        let circuit = crowded_form_and_more();
        self.every_kind(&circuit, 32);
        self.first_run(&circuit, 32);
        self.next_run(&circuit, &[0; 32], 32);
    }

    /// The first run, with a buffer of so many values.
    pub fn first_run(&mut self, circuit: &[u8], lent: usize) {
        self.call(FIRST_RUN, circuit, &[], lent);
    }

    /// The next run after a given one, with a buffer of so many values.
    pub fn next_run(&mut self, circuit: &[u8], given: &[u32], lent: usize) {
        self.call(NEXT_RUN, circuit, &bytes_of(given), lent);
    }

    /// More than 65,536 candidates, with and without a fault of a length or a value besides; with a byte after the last constraint: 10.
    fn too_many(&mut self, p: u32, n: usize) {
        let circuit = Draft::new(p, n as u16, 0, 1).bytes();
        if n < 4 {
            self.first_run(&[&circuit[..], &[0]].concat(), n);
        }
        self.first_run(&circuit, n);
        self.first_run(&circuit, n - 1);
        let mut given = vec![0; n];
        [n, n + 1].iter().for_each(|&lent| self.next_run(&circuit, &given, lent));
        given[n - 1] = p;
        self.next_run(&circuit, &given, n);
        self.next_run(&circuit, &given[..n - 1], n);
    }

    /// Given runs and buffers of n values, one fewer, one more and none, in some of them with a value that is too large.
    fn buffers(&mut self, circuit: &[u8], n: usize) {
        [n, n - 1, n + 1, 0].iter().for_each(|&lent| self.first_run(circuit, lent));
        for given in [n - 1, n + 1, 0] {
            self.next_run(circuit, &vec![0; given], n);
            self.next_run(circuit, &vec![u32::MAX; given], n);
            self.next_run(circuit, &vec![0; given], given);
        }
        for lent in [n - 1, n + 1, 0] {
            self.next_run(circuit, &vec![0; n], lent);
            self.next_run(circuit, &vec![u32::MAX; n], lent);
        }
    }

    /// Values of p - 1, p and more at the first, the middle and the last signal, and at two of them; the last run and the last but one.
    fn values(&mut self, circuit: &[u8], p: u32, n: usize) {
        let places = [0, n / 2, n - 1];
        let distinct = if n < 3 { &places[..n] } else { &places };
        for &at in distinct {
            for value in [p - 1, p, u32::MAX] {
                let mut given = vec![0; n];
                given[at] = value;
                self.next_run(circuit, &given, n);
                if at + 1 < n {
                    given[n - 1] = p;
                    self.next_run(circuit, &given, n);
                }
            }
        }
        let mut last = vec![p - 1; n];
        self.next_run(circuit, &last, n);
        last[n - 1] -= 1;
        self.next_run(circuit, &last, n);
    }

    /// Circuits that nothing satisfies, with the least and the largest run given, and with a fault of a length or a value.
    fn nothing_satisfies(&mut self) {
        for circuit in unsatisfied() {
            let read = read_circuit(&circuit).expect("a valid circuit");
            let (n, p) = (usize::from(read.signals), read.field.prime() as u32);
            [n, n + 1].iter().for_each(|&lent| self.first_run(&circuit, lent));
            [0, p - 2, p - 1, p].iter().for_each(|&value| self.next_run(&circuit, &vec![value; n], n));
            self.next_run(&circuit, &vec![0; n], n - 1);
        }
    }

    /// The first run and each next one, to the end.
    fn whole_list(&mut self, circuit: &[u8]) {
        let read = read_circuit(circuit).expect("a valid circuit");
        let n = usize::from(read.signals);
        self.first_run(circuit, n);
        satisfying_runs(&read).iter().for_each(|run| self.next_run(circuit, run, n));
    }

    /// Lists runs of a circuit that may be too large: the first, and the next after a run that satisfies, one beside it, or any; now and then with a fault.
    pub fn runs_of(&mut self, circuit: &[u8], read: &Circuit) {
        let n = usize::from(read.signals);
        if self.rng.once_in(3) {
            let lent = self.exactly(n);
            self.first_run(circuit, lent);
        }
        for _ in 0..self.rng.range(1, 2) {
            let mut given = self.given_run(read);
            if self.rng.once_in(6) {
                let p = read.field.prime() as u32;
                let at = self.rng.below(n);
                given[at] = self.rng.pick(&[p, p + 1, 2 * p, given[at] + p, 0x8000_0000, u32::MAX]);
            }
            let length = self.exactly(n);
            given.resize(length, 0);
            let lent = self.exactly(n);
            self.next_run(circuit, &given, lent);
        }
    }

    /// A run to be given: one that satisfies, if there is such and the circuit is small, as it is or with a value changed; or a random one.
    fn given_run(&mut self, read: &Circuit) -> Vec<u32> {
        let p = read.field.prime() as usize;
        let found = if is_small(read) && !self.rng.once_in(4) { satisfying_runs(read) } else { Vec::new() };
        if found.is_empty() {
            return read.all_signals().map(|_| self.rng.below(p) as u32).collect();
        }
        let mut run = found[self.rng.below(found.len())].clone();
        if self.rng.once_in(2) {
            let at = self.rng.below(run.len());
            run[at] = self.rng.below(p) as u32;
        }
        run
    }

    /// A length that must be exact, and mostly is.
    fn exactly(&mut self, needed: usize) -> usize {
        match self.rng.below(24) {
            0 => needed - 1,
            1 => needed + 1,
            2 => self.rng.below(2 * needed + 2),
            _ => needed,
        }
    }
}
