//! Fills files of test vectors: fixed calls for the limits, then random circuits until the files are as long as wished.

use crate::damage::damaged;
use crate::edge::{any_edge, listed_edges, tied, Edge};
use crate::generate::{any, small, tiny, PRIMES};
use crate::grow::grown;
use crate::hand_in::{damaged_derivation, damaged_pair, damaged_sheet, faulty_derivation, faulty_pair};
use crate::hand_in::{padded, random_derivation, random_step, random_tags, small_pairs, tags_about, with_changed_fields, with_idle_steps};
use crate::marker::write_steps;
use crate::pair::{values, write_pair};
use crate::planted::{planted, Planted};
use crate::random::Random;
use crate::reader::{read_circuit, Circuit};
use crate::rules::Rules;
use crate::runs::is_small;
use crate::sheet::{read_sheet, write_sheet, Tag, NO_TAGS};
use crate::solver::{derive, longest};
use crate::vectors::{Record, DERIVATION, PAIR, READ, RENEW, SOLVE, WITH_SHEET};
use crate::{renew, worst};

/// The usual length of all files together, but for the last random calls and those that list or watch runs.
pub const USUAL_SIZE: usize = 1_520_000;

/// How many random circuits at the edge of a rule there always are.
const EDGES: usize = 60;

/// How many circuits with ties.
const TIES: usize = 40;

/// How many circuits with derivations into which idle steps are strewn.
const IDLE: usize = 120;

/// How many small circuits that are solved and nothing else.
const SOLVED: usize = 400;

/// How many small circuits of which runs are listed and nothing else.
const LISTED: usize = 160;

/// Of every so many records one whose circuit has runs listed too.
const SAMPLED: usize = 90;

/// From this length of all files together on all worst circuits are among the records.
pub const WITH_WORST: usize = 1_800_000;

/// The records of files of about this length together, with all fixed calls; those that list or watch runs come on top.
pub fn compose(seed: u64, size: usize) -> Vec<Record> {
    let mut maker = Maker::new(seed);
    maker.fixed_calls();
    if size >= WITH_WORST {
        worst::all().iter().for_each(|(_, circuit)| maker.solve_and_mark(circuit));
        worst::tagged().iter().for_each(|tagged| maker.solve_and_mark_under(&tagged.circuit, &tagged.sheet));
    }
    listed_edges(&mut maker.rng).iter().for_each(|edge| maker.edge(edge, true));
    maker.random_calls(size);
    maker.run_calls();
    maker.random_runs();
    maker.watch_calls();
    maker.random_watches();
    maker.records
}

/// The records of files of about this length without the fixed calls, and some that watch long files.
pub fn compose_random(seed: u64, size: usize) -> Vec<Record> {
    let mut maker = Maker::new(seed);
    maker.random_calls(size);
    maker.random_runs();
    maker.random_watches();
    maker.long_watches();
    maker.records
}

/// The records so far, and how many bytes they take.
pub struct Maker {
    pub rng: Random,
    records: Vec<Record>,
    size: usize,
}

impl Maker {
    fn new(seed: u64) -> Maker {
        Maker { rng: Random::new(seed), records: Vec::new(), size: 9 }
    }

    /// Random calls until all take so many bytes; then some more.
    fn random_calls(&mut self, size: usize) {
        (0..EDGES).for_each(|_| self.random_edge());
        (0..TIES).for_each(|_| self.ties());
        while self.size < size {
            self.random_circuit();
        }
        (0..IDLE).for_each(|_| self.idle());
        (0..SOLVED).for_each(|_| self.solved());
    }

    /// Runs listed of random circuits, and of a sample of those that the records so far have.
    fn random_runs(&mut self) {
        let circuits = self.records.iter().map(|record| &record.circuit).filter(|circuit| circuit.len() < 400);
        let sample: Vec<Vec<u8>> = circuits.step_by(SAMPLED).cloned().collect();
        for circuit in sample {
            match read_circuit(&circuit) {
                Ok(read) => self.runs_of(&circuit, &read),
                Err(_) => self.next_run(&circuit, &[0; 3], 3),
            }
        }
        (0..LISTED).for_each(|_| self.listed());
    }

    /// Adds a call without tags, with its answer.
    pub fn call(&mut self, kind: u8, circuit: &[u8], hand_in: &[u8], lent: usize) {
        self.call_with(kind, circuit, if WITH_SHEET.contains(&kind) { NO_TAGS } else { &[] }, hand_in, lent);
    }

    /// Adds a call with a sheet, with its answer.
    pub fn call_with(&mut self, kind: u8, circuit: &[u8], sheet: &[u8], hand_in: &[u8], lent: usize) {
        let record = Record::answered(kind, circuit, sheet, hand_in, lent);
        self.size += record.size(self.records.last());
        self.records.push(record);
    }

    /// A derivation, marked with a buffer of this length and renewed, by turns only where the marker's refusal is the renewal's too; and marked without its
    /// idle steps, where it has such and no other fault.
    pub fn mark_and_renew(&mut self, circuit: &[u8], sheet: &[u8], derivation: &[u8], marks: usize) {
        self.call_with(DERIVATION, circuit, sheet, derivation, marks);
        let refusal = self.records.last().map_or(0, |record| record.answer.number);
        if ![0, 14, 29].contains(&refusal) && !self.records.len().is_multiple_of(3) {
            return;
        }
        let output = self.output(derivation.len());
        self.call_with(RENEW, circuit, sheet, derivation, output);
        let mut renewed = vec![0; derivation.len()];
        if let (29, Ok(length)) = (refusal, renew(circuit, sheet, derivation, &mut renewed)) {
            self.call_with(DERIVATION, circuit, sheet, &renewed[..length], marks);
        }
    }

    /// Adds a call; a derivation is renewed too.
    fn call_and_renew(&mut self, kind: u8, circuit: &[u8], sheet: &[u8], hand_in: &[u8], lent: usize) {
        match kind {
            DERIVATION => self.mark_and_renew(circuit, sheet, hand_in, lent),
            _ => self.call_with(kind, circuit, sheet, hand_in, lent),
        }
    }

    /// The length of a renewal's buffer: that of the derivation mostly, and by turns one byte more, many more, one fewer, and none.
    fn output(&self, needed: usize) -> usize {
        match self.records.len() % 13 {
            0 | 1 => needed + 1,
            2 => needed + 30,
            3 => needed.saturating_sub(1),
            4 => 0,
            _ => needed,
        }
    }

    /// The call of any kind with hand-ins that are good if the circuit is, or bad too.
    pub fn call_any_kind(&mut self, circuit: &[u8]) {
        let kind = self.rng.pick(&[READ, READ, DERIVATION, PAIR, SOLVE]);
        let good = self.rng.once_in(2);
        let hand_in = match kind {
            DERIVATION if good => write_steps(&[]),
            PAIR if good => write_pair(1, &[0], &[0]),
            DERIVATION | PAIR => b"no hand-in"[..self.rng.below(10)].to_vec(),
            _ => Vec::new(),
        };
        let lent = if kind.is_multiple_of(2) { self.rng.below(60) } else { 0 };
        let sheet = if good { NO_TAGS } else { &b"no sheet"[..self.rng.below(8)] };
        self.call_and_renew(kind, circuit, if kind == READ { &[] } else { sheet }, &hand_in, lent);
    }

    /// The solver and its own derivation, followed by the marker.
    pub fn solve_and_mark(&mut self, circuit: &[u8]) {
        let read = read_circuit(circuit).expect("a valid circuit");
        let n = usize::from(read.signals);
        self.call(READ, circuit, &[], 0);
        self.call(SOLVE, circuit, &[], longest(n));
        self.mark_and_renew(circuit, NO_TAGS, &write_steps(&derive(&read, &[]).0), n);
    }

    /// The solver and its own derivation with these tags.
    pub fn solve_and_mark_with(&mut self, circuit: &[u8], tags: &[Tag]) {
        self.solve_and_mark_under(circuit, &write_sheet(tags));
    }

    /// The solver and its own derivation with a sheet.
    fn solve_and_mark_under(&mut self, circuit: &[u8], sheet: &[u8]) {
        let read = read_circuit(circuit).expect("a valid circuit");
        let (n, tags) = (usize::from(read.signals), read_sheet(&read, sheet).expect("a valid sheet"));
        self.call_with(SOLVE, circuit, sheet, &[], longest(n));
        self.call_with(DERIVATION, circuit, sheet, &write_steps(&derive(&read, &tags).0), n);
    }

    /// A random circuit with some calls on it and on damaged versions of it.
    fn random_circuit(&mut self) {
        match self.rng.below(24) {
            0 | 1 => return self.planted_pair(),
            2 => return self.random_edge(),
            3 => return self.ties(),
            _ => (),
        }
        let circuit = self.any_circuit();
        let read = read_circuit(&circuit).expect("generated circuits are valid");
        let tags = self.tags(&read);
        if self.rng.once_in(6) {
            self.call(READ, &circuit, &[], 0);
        }
        if self.rng.once_in(2) {
            let (lent, sheet) = (self.lent(longest(read.signals.into())), self.sheet(&read, &tags));
            self.call_with(SOLVE, &circuit, &sheet, &[], lent);
        }
        if self.rng.once_in(2) {
            self.derivations(&circuit, &read, &tags);
        }
        if is_small(&read) && self.rng.once_in(4) {
            self.pairs(&circuit, &read, &tags);
        }
        for _ in 0..self.rng.pick(&[0, 0, 1, 2]) {
            self.faulty_call(&circuit, &read, &tags);
        }
    }

    /// No tags, or random ones.
    fn tags(&mut self, read: &Circuit) -> Vec<Tag> {
        match self.rng.once_in(3) {
            true => Vec::new(),
            false => random_tags(&mut self.rng, read),
        }
    }

    /// The sheet with these tags, now and then with a fault.
    fn sheet(&mut self, read: &Circuit, tags: &[Tag]) -> Vec<u8> {
        match self.rng.once_in(14) {
            true => damaged_sheet(&mut self.rng, read, tags),
            false => write_sheet(tags),
        }
    }

    /// Any call with a damaged circuit, mostly, and with a sheet, a hand-in and a buffer that have faults as well, or not.
    fn faulty_call(&mut self, good: &[u8], read: &Circuit, tags: &[Tag]) {
        let rng = &mut self.rng;
        let circuit = if rng.once_in(4) { good.to_vec() } else { damaged(rng, good) };
        let kind = rng.pick(&[READ, DERIVATION, PAIR, SOLVE]);
        let n = usize::from(read.signals);
        let hand_in = match kind {
            DERIVATION => faulty_derivation(rng, read, tags),
            PAIR => faulty_pair(rng, read),
            _ => Vec::new(),
        };
        let sheet = match kind {
            READ => Vec::new(),
            _ if rng.once_in(3) => damaged_sheet(rng, read, tags),
            _ => write_sheet(tags),
        };
        let lent = match kind {
            DERIVATION => self.lent(n),
            SOLVE => self.lent(longest(n)),
            _ => 0,
        };
        self.call_and_renew(kind, &circuit, &sheet, &hand_in, lent);
    }

    /// Idle steps among the solver's, some of them with a fault or two in the steps too, or in the first bytes, the sheet or a buffer.
    fn idle(&mut self) {
        let circuit = self.any_circuit();
        let read = read_circuit(&circuit).expect("generated circuits are valid");
        let (rules, tags) = (Rules::new(&read), self.tags(&read));
        let rng = &mut self.rng;
        let mut steps = with_idle_steps(rng, &rules, &tags, &derive(&read, &tags).0);
        if rng.once_in(4) {
            steps = with_changed_fields(rng, &read, &steps);
        }
        let mut derivation = write_steps(&steps);
        if rng.once_in(12) {
            derivation = damaged_derivation(rng, &derivation);
        }
        let (lent, sheet) = (self.lent(usize::from(read.signals)), self.sheet(&read, &tags));
        self.mark_and_renew(&circuit, &sheet, &derivation, lent);
    }

    /// The solver alone.
    pub fn solve(&mut self, circuit: &[u8]) {
        let n = usize::from(read_circuit(circuit).expect("a valid circuit").signals);
        self.call(SOLVE, circuit, &[], longest(n));
    }

    /// The solver on a small circuit, perhaps from tags.
    fn solved(&mut self) {
        let circuit = if self.rng.once_in(3) { small(&mut self.rng) } else { tiny(&mut self.rng) };
        let read = read_circuit(&circuit).expect("generated circuits are valid");
        let tags = self.tags(&read);
        self.call_with(SOLVE, &circuit, &write_sheet(&tags), &[], longest(read.signals.into()));
    }

    /// Runs of a small circuit, now and then of a damaged one.
    fn listed(&mut self) {
        let circuit = if self.rng.once_in(3) { small(&mut self.rng) } else { tiny(&mut self.rng) };
        let read = read_circuit(&circuit).expect("generated circuits are valid");
        let called = if self.rng.once_in(8) { damaged(&mut self.rng, &circuit) } else { circuit };
        self.runs_of(&called, &read);
    }

    /// The solver where many steps are on offer, perhaps from tags.
    fn ties(&mut self) {
        let circuit = tied(&mut self.rng);
        let read = read_circuit(&circuit).expect("circuits with ties are valid");
        let tags = self.tags(&read);
        self.call_with(SOLVE, &circuit, &write_sheet(&tags), &[], longest(read.signals.into()));
    }

    fn random_edge(&mut self) {
        let edge = any_edge(&mut self.rng);
        let solve = self.rng.once_in(3);
        self.edge(&edge, solve);
    }

    /// Derivations at the edge of a rule, and perhaps the solver on their circuit.
    fn edge(&mut self, edge: &Edge, solve: bool) {
        let (n, sheet) = (usize::from(read_circuit(&edge.circuit).expect("edge circuits are valid").signals), write_sheet(&edge.tags));
        for steps in &edge.derivations {
            self.mark_and_renew(&edge.circuit, &sheet, &write_steps(steps), n);
        }
        if solve {
            self.call_with(SOLVE, &edge.circuit, &sheet, &[], longest(n));
        }
    }

    /// A circuit of any sort, mostly tiny.
    fn any_circuit(&mut self) -> Vec<u8> {
        let rng = &mut self.rng;
        let p = rng.pick(&PRIMES);
        match rng.below(120) {
            0..=74 => tiny(rng),
            75..=99 => small(rng),
            100..=104 => any(rng, 12),
            105..=118 => {
                let most = rng.range(2, 10) as u16;
                grown(rng, p, most)
            }
            _ => grown(rng, p, 60),
        }
    }

    /// A buffer length: the one needed, longer or shorter.
    pub fn lent(&mut self, needed: usize) -> usize {
        match self.rng.below(20) {
            0 => needed - 1,
            1 => self.rng.below(needed),
            2..=4 => needed + 1,
            5..=7 => needed + self.rng.below(40),
            _ => needed,
        }
    }

    /// One or two derivations: the solver's, or a random one, as it is or changed.
    fn derivations(&mut self, circuit: &[u8], read: &Circuit, tags: &[Tag]) {
        let rules = Rules::new(read);
        for _ in 0..self.rng.range(1, 2) {
            let rng = &mut self.rng;
            let found = if rng.once_in(2) { derive(read, tags).0 } else { random_derivation(rng, &rules, tags, 40) };
            let steps = match rng.below(6) {
                0 => padded(rng, &found, (found.len() + 5).min(30)),
                1 => {
                    let mut steps = found;
                    rng.shuffle(&mut steps);
                    steps
                }
                2 => with_changed_fields(rng, read, &found),
                3 => {
                    let mut steps = found;
                    steps.extend(random_step(rng, read));
                    steps
                }
                _ => found,
            };
            let mut derivation = write_steps(&steps);
            if rng.once_in(6) {
                derivation = damaged_derivation(rng, &derivation);
            }
            let (lent, sheet) = (self.lent(usize::from(read.signals)), self.sheet(read, tags));
            self.mark_and_renew(circuit, &sheet, &derivation, lent);
        }
    }

    fn pairs(&mut self, circuit: &[u8], read: &Circuit, tags: &[Tag]) {
        for pair in small_pairs(&mut self.rng, read) {
            let pair = if self.rng.once_in(4) { damaged_pair(&mut self.rng, read, &pair) } else { pair };
            if self.rng.below(3) > 0 {
                let sheet = match self.rng.once_in(2) && pair.len() == 7 + 8 * usize::from(read.signals) {
                    true => write_sheet(&tags_about(&mut self.rng, read, &values(&pair))),
                    false => self.sheet(read, tags),
                };
                self.call_with(PAIR, circuit, &sheet, &pair, 0);
            }
        }
    }

    /// A circuit over any prime with two planted runs, handed in well and badly.
    fn planted_pair(&mut self) {
        let rng = &mut self.rng;
        let (p, n, constraints) = (rng.pick(&PRIMES), rng.range(1, 6) as u16, rng.below(5));
        let Planted { circuit, q, first, second } = planted(rng, p, n, constraints, 3);
        let read = read_circuit(&circuit).expect("planted circuits are valid");
        let pair = write_pair(q, &first, &second);
        let broken = damaged_pair(rng, &read, &pair);
        let reversed = damaged_pair(rng, &read, &write_pair(q, &second, &first));
        let tags = if rng.once_in(3) { random_tags(rng, &read) } else { tags_about(rng, &read, &first) };
        for pair in [pair, broken, reversed] {
            let sheet = self.sheet(&read, &tags);
            self.call_with(PAIR, &circuit, &sheet, &pair, 0);
        }
        self.derivations(&circuit, &read, &tags);
    }
}
