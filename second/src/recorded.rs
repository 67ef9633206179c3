//! Calls that watch recorded runs: windows and distances at and beyond their limits, what makes a pair and what comes close, which pair is answered, lengths,
//! values and buffers, and random files with and without faults.

use crate::brute::satisfying_runs;
use crate::compose::Maker;
use crate::damage::damaged;
use crate::generate::{small, tiny, PRIMES};
use crate::listed::crowded_form_and_more;
use crate::planted::{planted, Planted};
use crate::random::Random;
use crate::reader::{read_circuit, Circuit};
use crate::records::{meant, pair_length};
use crate::vectors::{bytes_of, WATCH};
use crate::worst::bit;
use crate::writer::Draft;

/// How many random files of runs are among the records.
const RANDOM: usize = 200;

/// How many long ones there are where nothing is stored.
const LONG: usize = 60;

/// Windows that aren't any: next to the limits, and those that are some in 8 or 16 bits.
const NO_WINDOWS: [u32; 12] = [1, 257, 258, 320, 512, 65_535, 65_536, 65_538, 65_600, 1 << 31, u32::MAX - 1, u32::MAX];

/// Input 1, output 2, and signal 3, which is a bit: a record with a greater one breaks the constraint.
fn gated() -> Vec<u8> {
    let mut draft = Draft::new(13, 3, 1, 1);
    bit(&mut draft, 3);
    draft.bytes()
}

/// A run of `gated`.
type Run = [u32; 3];

const A: Run = [1, 5, 0];

/// As A, but for the signal that is neither input nor output.
const A1: Run = [1, 5, 1];

/// Pairs with A and A1.
const B: Run = [1, 6, 0];

/// Pairs with A, A1 and B.
const C: Run = [1, 7, 1];

/// Another input, with the output of A and with another one.
const D: Run = [2, 5, 0];
const E: Run = [2, 6, 0];

/// A third input.
const F: Run = [0, 5, 0];

/// As A and B, but they break the constraint.
const A_BROKEN: Run = [1, 5, 2];
const B_BROKEN: Run = [1, 6, 12];

/// Files of `gated`, each watched with some small windows.
#[rustfmt::skip]
const SHORT: [&[Run]; 36] = [
    &[A, B], &[B, A], &[A, A], &[A, A1], &[A, D], &[A, E], &[A1, B], &[A, C],
    // The nearest of several.
    &[A, A, B], &[A, A1, B], &[A1, A, B], &[A, A1, A, C], &[A, D, A, E], &[A, D, A, B], &[A, A, D, B], &[A, A, D, D, B],
    // The nearest agrees.
    &[A, B, B], &[A, D, F, B, B], &[A, D, B, B], &[A, D, F, B, B, A],
    // Records between that don't count, and one that would be nearest.
    &[A, B_BROKEN, B], &[A, A_BROKEN, B], &[A, B_BROKEN, B_BROKEN, B], &[A, D, B], &[A, D, A_BROKEN, B], &[A, A_BROKEN, B_BROKEN, D, B],
    // Nothing but what breaks the constraint.
    &[A, B_BROKEN], &[A_BROKEN, B], &[A_BROKEN, B_BROKEN], &[A_BROKEN, B, B_BROKEN, B],
    // Several pairs.
    &[A, B, C], &[A, D, E, B], &[D, A, B, E], &[A, D, F, E, B], &[A, B, D, E], &[F, D, A, E, B, F],
];

const SMALL_WINDOWS: [u32; 5] = [2, 3, 4, 5, 0];

/// How far apart the two records of a pair are, about every limit.
const DISTANCES: [usize; 12] = [1, 2, 3, 4, 62, 63, 64, 65, 254, 255, 256, 257];

/// Two runs of a circuit with inputs 1 and 2, outputs 3 to 5 and one more signal: where they differ, and so at which output, or none.
const DIFFERING: [&[usize]; 18] = [
    &[],
    &[6],
    &[3],
    &[4],
    &[5],
    &[3, 4],
    &[4, 5],
    &[3, 5],
    &[3, 4, 5],
    &[4, 5, 6],
    &[5, 6],
    &[1],
    &[2],
    &[1, 2],
    &[1, 3],
    &[2, 3],
    &[2, 5],
    &[1, 2, 3, 4, 5, 6],
];

/// Inputs that are no others', though a sum, a product or an exclusive or of theirs is.
const INPUTS: [[[u32; 2]; 2]; 6] = [[[1, 2], [2, 1]], [[0, 3], [3, 0]], [[0, 0], [4, 4]], [[1, 2], [3, 0]], [[0, 1], [0, 5]], [[1, 0], [5, 0]]];

/// Last inputs that, after those before them, a table by the hash of all has in one place. Each value is added to the hash, which is then multiplied by 2^64
/// over the golden ratio, as in Fibonacci hashing; the high eight bits are the place.
pub fn colliding(before: &[u32]) -> impl Iterator<Item = u32> {
    let mixed = |hash: u64, value: u32| hash.wrapping_add(u64::from(value)).wrapping_mul(0x9e37_79b9_7f4a_7c15);
    let start = before.iter().fold(0, |hash, &value| mixed(hash, value));
    (1u32..).filter(move |&last| mixed(start, last) >> 56 == 0)
}

/// Input 1 and output 2, which is a bit.
pub fn narrow() -> Vec<u8> {
    let mut draft = Draft::new(13, 2, 1, 1);
    bit(&mut draft, 2);
    draft.bytes()
}

/// A run of `narrow`.
type Narrow = [u32; 2];

const ZERO: Narrow = [1, 0];
const ONE: Narrow = [1, 1];
const BROKEN: Narrow = [1, 2];

/// So many records of `narrow`, at some places, from 1, these, and at all others the filling.
fn placed(count: usize, filling: impl Fn(usize) -> Narrow, places: &[(usize, Narrow)]) -> Vec<Narrow> {
    let mut records: Vec<Narrow> = (1..=count).map(filling).collect();
    places.iter().for_each(|&(place, run)| records[place - 1] = run);
    records
}

impl Maker {
    /// All fixed calls that watch, but those on circuits that are too long.
    pub fn watch_calls(&mut self) {
        self.every_two_faults(&[WATCH]);
        self.watch(&crowded_form_and_more(), &[0; 4 * 32], 0, pair_length(32));
        for records in SHORT {
            SMALL_WINDOWS.iter().for_each(|&window| self.watched(&gated(), records, window));
        }
        self.bytes_after_the_circuit();
        self.distances();
        self.long_files();
        self.one_bucket();
        self.outputs_and_inputs();
        self.every_constraint();
        self.no_window();
        self.lengths();
        self.high_values();
        self.large_values();
        self.room();
        self.without_inputs();
        self.most_signals();
        self.most_inputs();
    }

    /// Watches records, with a buffer of so many bytes.
    pub fn watch(&mut self, circuit: &[u8], records: &[u8], window: u32, lent: usize) {
        self.call_with(WATCH, circuit, &window.to_le_bytes(), records, lent);
    }

    /// Watches records of a circuit with as many signals, into just enough room.
    fn watched<const N: usize>(&mut self, circuit: &[u8], records: &[[u32; N]], window: u32) {
        self.watch(circuit, &bytes_of(records.as_flattened()), window, pair_length(N));
    }

    /// Bytes after the last constraint, and a fault of the records, the window or the buffer: 10 comes first.
    fn bytes_after_the_circuit(&mut self) {
        for more in [1, 2] {
            let circuit = [&gated()[..], &vec![0; more]].concat();
            [11, 23].iter().for_each(|&length| self.watch(&circuit, &[0; 24][..length], 2, pair_length(3)));
            [13, u32::MAX].iter().for_each(|&value| self.watched(&circuit, &[A, [1, value, 0]], 2));
            [1, 257].iter().for_each(|&window| self.watched(&circuit, &[A, B], window));
            self.watch(&circuit, &bytes_of(&A), 2, pair_length(3) - 1);
        }
    }

    /// A pair at every distance, with a window that lets it be just so far, and one that just doesn't; between the two other inputs, or records that break the
    /// constraint and share theirs; before and after them nothing, or some more.
    fn distances(&mut self) {
        for distance in DISTANCES {
            let other = |place: usize| [2 + place as u32 % 11, 0];
            let (far, near, end) = (distance as u32 + 1, distance as u32, distance + 1);
            let files = [
                placed(end, other, &[(1, ZERO), (end, ONE)]),
                placed(end, |_| BROKEN, &[(1, ONE), (end, ZERO)]),
                placed(end + 3, other, &[(3, ZERO), (end + 2, ONE), (end + 3, ZERO)]),
            ];
            for records in files {
                [far, near, 0].iter().for_each(|&window| self.watched(&narrow(), &records, window));
            }
        }
    }

    /// Files of several hundred records: nothing in them, a pair at their end, at the widest distance and beyond it, once and again.
    fn long_files(&mut self) {
        let turning = |place: usize| [[3, 1], BROKEN, [2, 0], [4, 1], BROKEN][place % 5];
        let files: [&[(usize, Narrow)]; 5] = [
            &[],
            &[(4, ZERO), (259, ZERO), (515, ONE)],
            &[(4, ZERO), (259, ZERO), (515, ONE), (520, ZERO)],
            &[(1, ZERO), (257, ONE), (513, ZERO)],
            &[(265, ONE), (519, BROKEN), (520, ZERO)],
        ];
        for places in files {
            let records = placed(520, turning, places);
            [256, 255, 0].iter().for_each(|&window| self.watched(&narrow(), &records, window));
        }
    }

    /// Inputs that a table by their hash has in one place, the pair's own among them: as far apart as the widest window lets them be, and one place more.
    fn one_bucket(&mut self) {
        let circuit = Draft::new(2_147_483_647, 2, 1, 1).bytes();
        for count in [255, 256] {
            let mut records: Vec<[u32; 2]> = colliding(&[]).take(count).map(|input| [input, 0]).collect();
            records.push([records[0][0], 1]);
            records.push([records[count / 2][0], 2]);
            [256, 255].iter().for_each(|&window| self.watched(&circuit, &records, window));
        }
    }

    /// Two records that differ at some outputs or none, and share their inputs or don't.
    fn outputs_and_inputs(&mut self) {
        let circuit = Draft::new(13, 6, 2, 3).bytes();
        for places in DIFFERING {
            let first = [3, 0, 12, 5, 5, 1];
            let mut second = first;
            places.iter().for_each(|&signal| second[signal - 1] = (second[signal - 1] + signal as u32) % 13);
            self.watched(&circuit, &[first, second], 0);
        }
        for [[a, b], [c, d]] in INPUTS {
            self.watched(&circuit, &[[a, b, 1, 1, 1, 1], [c, d, 2, 2, 2, 2]], 0);
            self.watched(&circuit, &[[a, b, 1, 1, 1, 1], [c, d, 2, 2, 2, 2], [a, b, 1, 1, 3, 1]], 0);
        }
    }

    /// A record that breaks one constraint alone, each in turn; and a circuit that nothing satisfies.
    fn every_constraint(&mut self) {
        let mut draft = Draft::new(7, 6, 1, 5);
        (2..=6).for_each(|signal| bit(&mut draft, signal));
        let circuit = draft.bytes();
        for signal in 2..=6 {
            let (first, mut second) = ([3, 0, 0, 0, 0, 0], [3, 0, 0, 0, 0, 0]);
            second[signal - 1] = 2;
            self.watched(&circuit, &[first, second], 2);
            self.watched(&circuit, &[second, first], 2);
            self.watched(&circuit, &[first, second, [3, 0, 0, 0, 1, 1]], 3);
        }
        let nothing = Draft::new(13, 3, 1, 1).with(&[], &[], &[(0, 1)]).bytes();
        [2, 3, 0].iter().for_each(|&window| self.watched(&nothing, &[A, B], window));
    }

    /// Windows that aren't any, with a pair in the file, with none, and with no records.
    fn no_window(&mut self) {
        for window in NO_WINDOWS {
            self.watched(&gated(), &[A, B], window);
            self.watched(&gated(), &[A, D, A], window);
            self.watched::<3>(&gated(), &[], window);
        }
        [2, 256, 0].iter().for_each(|&window| self.watched::<3>(&gated(), &[], window));
        self.watched(&gated(), &[A], 2);
        self.watched(&gated(), &[A_BROKEN], 0);
    }

    /// Files that aren't whole records, by single bytes and by whole values, with a pair in them and without; and files that are.
    fn lengths(&mut self) {
        for (n, all) in
            [(1, &[0, 1, 2, 3, 4, 5, 6, 7, 8, 12][..]), (2, &[4, 7, 8, 15, 16, 17, 20, 23, 24]), (3, &[4, 8, 11, 12, 20, 24, 25, 26, 28, 32, 36])]
        {
            let circuit = Draft::new(13, n as u16, 0, 1).bytes();
            let records: Vec<u32> = (0..4 * n).map(|at| (at / n) as u32).collect();
            for &length in all {
                self.watch(&circuit, &bytes_of(&records)[..length], 2, pair_length(n));
                self.watch(&circuit, &vec![0; length], 2, pair_length(n));
            }
        }
    }

    /// p at each place of five records, of which the second and the third make a pair; two such values; and p - 1, which may be.
    fn high_values(&mut self) {
        let circuit = Draft::new(13, 2, 1, 1).bytes();
        let good = [1, 1, 2, 2, 2, 3, 4, 4, 5, 5];
        let with = |places: &[(usize, u32)]| {
            let mut values = good;
            places.iter().for_each(|&(at, value)| values[at] = value);
            bytes_of(&values)
        };
        for at in 0..good.len() {
            [13, 12].iter().for_each(|&value| self.watch(&circuit, &with(&[(at, value)]), 3, pair_length(2)));
            self.watch(&circuit, &with(&[(at, u32::MAX), (good.len() - 1, 13)]), 0, pair_length(2));
        }
        for window in [1, 257] {
            self.watch(&circuit, &with(&[(9, 13)]), window, pair_length(2));
        }
        self.watch(&circuit, &with(&[(9, 13)]), 3, pair_length(2) - 1);
        self.watch(&circuit, &with(&[(6, 13)])[..39], 3, pair_length(2));
        self.watch(&circuit, &with(&[(6, 13)])[..36], 3, pair_length(2));
    }

    /// Values about the largest p.
    fn large_values(&mut self) {
        let p = 2_147_483_647;
        for circuit in [Draft::new(p, 2, 1, 1), Draft::new(p, 2, 1, 1).with(&[(1, 1)], &[(1, 1)], &[(1, -1)])] {
            for value in [p - 2, p - 1, p, p + 1, u32::MAX] {
                self.watched(&circuit.bytes(), &[[p - 1, 0], [p - 1, value]], 0);
                self.watched(&circuit.bytes(), &[[p - 1, p - 2], [value, p - 1]], 0);
            }
        }
    }

    /// Buffers about 7 + 8·n bytes, and much longer ones, with a pair and with none.
    fn room(&mut self) {
        for n in [1, 3, 40] {
            let circuit = Draft::new(13, n as u16, 0, n as u16).bytes();
            let needed = pair_length(n);
            for records in [[[1].repeat(n), [2].repeat(n)].concat(), [1].repeat(2 * n), Vec::new()] {
                let lengths = [0, 7, 7 + 4 * n, needed - 1, needed, needed + 1, needed + 50];
                lengths.iter().for_each(|&lent| self.watch(&circuit, &bytes_of(&records), 2, lent));
            }
        }
    }

    /// Circuits without inputs, whose records all share theirs.
    fn without_inputs(&mut self) {
        let draft = || Draft::new(13, 2, 0, 1);
        for circuit in [draft().bytes(), draft().with(&[(2, 1)], &[(2, 1), (0, -1)], &[]).bytes()] {
            for records in [[[1, 0], [1, 1], [2, 0]], [[1, 0], [1, 1], [1, 2]], [[1, 2], [2, 2], [2, 1]], [[4, 0], [5, 7], [6, 1]]] {
                [2, 3, 0].iter().for_each(|&window| self.watched(&circuit, &records, window));
            }
        }
    }

    /// 256 signals: inputs 1 to 200, 50 outputs; records that differ at the last input, the outputs next to the limits, or beyond them.
    fn most_signals(&mut self) {
        let circuit = Draft::new(65_537, 256, 200, 50).with(&[(256, 1)], &[(256, 1)], &[(256, 1)]).bytes();
        let first = [1; 256];
        for signal in [200, 201, 251] {
            let mut second = first;
            second[signal - 1] = 65_536;
            self.watched(&circuit, &[first, second], 2);
        }
        let mut second = first;
        (240..=256).for_each(|signal| second[signal - 1] = 0);
        self.watched(&circuit, &[first, second], 0);
        for (length, lent) in [(1020, 2055), (1025, 2055), (1024, 2054), (1024, 2055), (1024, 2056)] {
            self.watch(&circuit, &bytes_of(&first.repeat(2))[..length], 2, lent);
        }
    }

    /// 256 signals, of which 255 are inputs: records that differ at the output alone, at the last input too, though it shares its bucket, or nowhere.
    fn most_inputs(&mut self) {
        let circuit = Draft::new(65_537, 256, 255, 1).bytes();
        let lasts: Vec<u32> = colliding(&[1; 254]).take(2).collect();
        let record = |last, output| {
            let mut run = [1; 256];
            (run[254], run[255]) = (last, output);
            run
        };
        let records = [record(lasts[0], 1), record(lasts[1], 65_536), record(lasts[0], 0)];
        [3, 2].iter().for_each(|&window| self.watched(&circuit, &records, window));
        self.watched(&circuit, &[records[0]; 2], 0);
    }

    /// Random files of runs.
    pub fn random_watches(&mut self) {
        (0..RANDOM).for_each(|_| self.random_watch());
    }

    /// Long files, too many bytes to be stored.
    pub fn long_watches(&mut self) {
        for _ in 0..LONG {
            let window = any_window(&mut self.rng);
            let records = far_apart(&mut self.rng, window);
            self.watch(&narrow(), &records, window, pair_length(2));
        }
    }

    /// A random file of runs, half of them with a fault or two, now and then one of the buffer or the circuit besides.
    fn random_watch(&mut self) {
        let Recording { mut circuit, read, records } = recording(&mut self.rng, 12);
        let (mut bytes, mut window) = (bytes_of(&records.concat()), any_window(&mut self.rng));
        let lent = self.lent(pair_length(read.signals.into()));
        let rng = &mut self.rng;
        for _ in 0..rng.pick(&[0, 0, 1, 2]) {
            match rng.below(3) {
                0 => cut_or_extended(rng, &mut bytes),
                1 => with_high_value(rng, &read, &mut bytes),
                _ => window = rng.pick(&NO_WINDOWS),
            }
        }
        if rng.once_in(12) {
            circuit = damaged(rng, &circuit);
        }
        self.watch(&circuit, &bytes, window, lent);
    }
}

/// A long file of `narrow`: most records break the constraint, and the others have one of few inputs and are about as far apart as the window lets them be.
pub fn far_apart(rng: &mut Random, window: u32) -> Vec<u8> {
    let reach = meant(window) as usize;
    let count = reach + rng.range(1, 2 * reach);
    let mut records: Vec<Narrow> = (0..count).map(|_| [rng.below(3) as u32, rng.range(2, 12) as u32]).collect();
    let mut at = rng.below(reach);
    while at < count {
        records[at] = [rng.pick(&[0, 0, 1]), rng.below(2) as u32];
        at += rng.pick(&[1, 2, reach - 2, reach - 1, reach - 1, reach, reach, reach + 1]).max(1);
    }
    bytes_of(records.as_flattened())
}

/// A circuit and records of it.
pub struct Recording {
    pub circuit: Vec<u8>,
    pub read: Circuit,
    pub records: Vec<Vec<u32>>,
}

/// A window, mostly a narrow one.
pub fn any_window(rng: &mut Random) -> u32 {
    rng.pick(&[2, 2, 3, 3, 4, 5, 6, 0, 0, 63, 64, 65, 255, 256])
}

/// A circuit and up to so many records drawn from a few runs, most of which satisfy it; one time in three no two of these runs make a pair.
pub fn recording(rng: &mut Random, most: usize) -> Recording {
    let (circuit, mut runs) = circuit_and_runs(rng);
    let read = read_circuit(&circuit).expect("generated circuits are valid");
    if rng.once_in(3) {
        let (inputs, outputs) = (usize::from(read.inputs), usize::from(read.outputs));
        let kept = runs.clone();
        runs.retain(|run| {
            kept.iter().find(|other| other[..inputs] == run[..inputs]).is_some_and(|first| first[..inputs + outputs] == run[..inputs + outputs])
        });
    }
    let count = rng.below(most + 1);
    let records = (0..count).map(|_| record(rng, &read, &runs));
    Recording { records: records.collect(), circuit, read }
}

/// A circuit and up to six of its satisfying runs, in twos that share their inputs; or one over any prime with two.
fn circuit_and_runs(rng: &mut Random) -> (Vec<u8>, Vec<Vec<u32>>) {
    if rng.once_in(4) {
        let (p, n, constraints) = (rng.pick(&PRIMES), rng.range(1, 6) as u16, rng.below(4));
        let Planted { circuit, first, second, .. } = planted(rng, p, n, constraints, 2);
        return (circuit, vec![first, second]);
    }
    let circuit = if rng.once_in(3) { small(rng) } else { tiny(rng) };
    let read = read_circuit(&circuit).expect("generated circuits are valid");
    let (all, inputs) = (satisfying_runs(&read), usize::from(read.inputs));
    let mut runs: Vec<Vec<u32>> = Vec::new();
    for _ in 0..if all.is_empty() { 0 } else { rng.range(1, 3) } {
        let run = &all[rng.below(all.len())];
        let alike: Vec<&Vec<u32>> = all.iter().filter(|other| other[..inputs] == run[..inputs]).collect();
        runs.extend([run.clone(), rng.pick(&alike).clone()]);
    }
    (circuit, runs)
}

/// One of the runs, mostly as it is, and else with a value changed; or a random one where there are none.
fn record(rng: &mut Random, read: &Circuit, runs: &[Vec<u32>]) -> Vec<u32> {
    let p = read.field.prime() as usize;
    if runs.is_empty() {
        return read.all_signals().map(|_| rng.below(p.min(3)) as u32).collect();
    }
    let mut run = runs[rng.below(runs.len())].clone();
    if rng.once_in(5) {
        let at = rng.below(run.len());
        run[at] = rng.below(p) as u32;
    }
    run
}

/// A file that is no longer whole records, or is so still: some bytes or values fewer or more.
fn cut_or_extended(rng: &mut Random, bytes: &mut Vec<u8>) {
    let by = rng.pick(&[1, 2, 3, 4, 4, 8, 12]);
    let length = if rng.once_in(2) { bytes.len() + by } else { bytes.len().saturating_sub(by) };
    bytes.resize(length, 0);
}

/// A value of p or more in place of any, if there is any.
fn with_high_value(rng: &mut Random, read: &Circuit, bytes: &mut [u8]) {
    let p = read.field.prime() as u32;
    let values = bytes.len() / 4;
    if values > 0 {
        let at = 4 * rng.below(values);
        bytes[at..at + 4].copy_from_slice(&rng.pick(&[p, p, p + 1, 1 << 31, u32::MAX]).to_le_bytes());
    }
}
