//! The watching call: against rule 6.14 by its words, every two records compared, on many thousand random files; and each way in which it could be read wrongly
//! gives another answer than at least three stored vectors.

use std::cmp::Reverse;

use second::compose::{compose, USUAL_SIZE};
use second::pair::write_pair;
use second::random::Random;
use second::reader::{number32, numbers32, Circuit};
use second::recorded::{any_window, far_apart, narrow, recording, Recording};
use second::sheet::NO_TAGS;
use second::vectors::{answer, bytes_of, Answer, Record, WATCH};
use second::{check_pair, read_circuit};

/// What a call is asked. Records are numbered from 1 everywhere here, as signals are; values that make no whole record are left out of them.
struct Asked {
    circuit: Circuit,
    records: Vec<Vec<u32>>,
    values: Vec<u32>,
    /// The file's length in bytes.
    length: usize,
    window: u32,
    lent: usize,
}

/// Two records, the earlier first.
type Two = (usize, usize);

impl Asked {
    fn of(circuit: &Circuit, file: &[u8], window: u32, lent: usize) -> Asked {
        let values = numbers32(file);
        let records = values.chunks_exact(circuit.signals.into()).map(<[u32]>::to_vec).collect();
        Asked { circuit: circuit.clone(), records, values, length: file.len(), window, lent }
    }

    fn n(&self) -> usize {
        self.circuit.signals.into()
    }

    fn p(&self) -> u64 {
        self.circuit.field.prime()
    }

    fn record(&self, number: usize) -> &[u32] {
        &self.records[number - 1]
    }

    fn value(&self, record: usize, signal: u16) -> u32 {
        self.record(record)[usize::from(signal) - 1]
    }

    /// Whether two records have equal values at some signals.
    fn agree(&self, (j, k): Two, mut signals: impl Iterator<Item = u16>) -> bool {
        signals.all(|signal| self.value(j, signal) == self.value(k, signal))
    }

    fn share_inputs(&self, two: Two) -> bool {
        self.agree(two, 1..=self.circuit.inputs)
    }

    fn satisfies(&self, record: usize) -> bool {
        self.circuit.constraints.iter().all(|constraint| constraint.satisfied(self.circuit.field, self.record(record)))
    }

    fn outputs(&self) -> std::ops::RangeInclusive<u16> {
        self.circuit.inputs + 1..=self.circuit.inputs + self.circuit.outputs
    }
}

/// How the call is read.
#[derive(Clone, Copy)]
struct Reading {
    /// 32.
    partial: fn(&Asked) -> bool,
    /// The place of 33, if it is met.
    high: fn(&Asked) -> Option<usize>,
    /// 34.
    unfit: fn(&Asked) -> bool,
    /// The order of these.
    order: [u16; 3],
    /// Whether a pair before the record of 33 is answered all the same.
    until_found: bool,
    /// What the window stands for.
    meant: fn(u32) -> usize,
    /// Whether a record counts.
    counts: fn(&Asked, usize) -> bool,
    /// Whether two that count are near enough for a window.
    near: fn(&Asked, Two, usize) -> bool,
    /// Whether they are compared, as records that share their inputs.
    compared: fn(&Asked, Two) -> bool,
    /// The signals at which a difference makes a pair.
    telling: fn(&Asked) -> std::ops::RangeInclusive<u16>,
    /// Which pair is answered: that with the least of these.
    least: fn(Two) -> (usize, usize, Reverse<usize>),
    /// Which of the signals at which its records differ.
    q: fn(&Asked, &[u16]) -> u16,
    /// What is answered and written, given q and the pair.
    told: fn(&Asked, u16, Two) -> Answer,
}

const RIGHT: Reading = Reading {
    partial: |asked| !asked.length.is_multiple_of(4 * asked.n()),
    high: |asked| high_by(asked, |value, p| value >= p),
    unfit: |asked| wrong_window(asked.window) || short(asked),
    order: [32, 33, 34],
    until_found: false,
    meant: |window| if window == 0 { 64 } else { window as usize },
    counts: Asked::satisfies,
    near: |_, (j, k), window| k - j < window,
    compared: Asked::share_inputs,
    telling: Asked::outputs,
    least: |(j, k)| (k, 0, Reverse(j)),
    q: |_, differing| differing[0],
    told: |asked, q, (j, k)| told(q, (j, k), [asked.record(j), asked.record(k)]),
};

fn told(q: u16, (earlier, later): Two, [first, second]: [&[u32]; 2]) -> Answer {
    Answer { values: [q.into(), earlier as u32, later as u32, 0, 0], written: write_pair(q, first, second), ..Answer::default() }
}

/// The record of the first such value, compared with p.
fn high_by(asked: &Asked, is_high: fn(u64, u64) -> bool) -> Option<usize> {
    first_high(asked, is_high).map(|at| at / asked.n() + 1)
}

fn first_high(asked: &Asked, is_high: fn(u64, u64) -> bool) -> Option<usize> {
    asked.values.iter().position(|&value| is_high(value.into(), asked.p()))
}

fn wrong_window(window: u32) -> bool {
    window == 1 || window > 256
}

fn short(asked: &Asked) -> bool {
    asked.lent < 7 + 8 * asked.n()
}

/// Every two records that make a pair.
fn pairs(asked: &Asked, reading: Reading) -> Vec<Two> {
    let window = (reading.meant)(asked.window);
    let counting: Vec<usize> = (1..=asked.records.len()).filter(|&record| (reading.counts)(asked, record)).collect();
    let twos = counting.iter().flat_map(|&k| counting.iter().take_while(move |&&j| j < k).map(move |&j| (j, k)));
    let makes_pair = |&two: &Two| (reading.near)(asked, two, window) && (reading.compared)(asked, two) && !asked.agree(two, (reading.telling)(asked));
    twos.filter(makes_pair).collect()
}

/// A call's answer by a reading.
fn answered(asked: &Asked, reading: Reading) -> Answer {
    let met = |&number: &u16| {
        let place = match number {
            32 => (reading.partial)(asked).then_some(0),
            33 => (reading.high)(asked),
            _ => (reading.unfit)(asked).then_some(0),
        };
        place.map(|place| (number, place))
    };
    let refusal = reading.order.iter().find_map(met);
    let pair = match refusal {
        Some((number, _)) if number != 33 || !reading.until_found => None,
        _ => pairs(asked, reading).into_iter().min_by_key(|&two| (reading.least)(two)),
    };
    match (refusal, pair) {
        (None, Some(two)) => answer_of(asked, reading, two),
        (Some((_, place)), Some(two)) if two.1 < place => answer_of(asked, reading, two),
        (Some((number, place)), _) => Answer { number, place: place as u32, ..Answer::default() },
        (None, None) => Answer::default(),
    }
}

fn answer_of(asked: &Asked, reading: Reading, two: Two) -> Answer {
    let differing: Vec<u16> = (reading.telling)(asked).filter(|&signal| !asked.agree(two, [signal].into_iter())).collect();
    (reading.told)(asked, (reading.q)(asked, &differing), two)
}

/// The call's own answer is the one by the words; a pair is accepted by the pair call.
fn assert_as_worded(circuit: &[u8], read: &Circuit, file: &[u8], window: u32, lent: usize) -> Answer {
    let own = answer(WATCH, circuit, &window.to_le_bytes(), file, lent);
    assert_eq!(own, answered(&Asked::of(read, file, window, lent), RIGHT), "{circuit:?} {file:?} {window} {lent}");
    if !own.written.is_empty() {
        assert_eq!(check_pair(circuit, NO_TAGS, &own.written).map(u32::from), Ok(own.values[0]));
    }
    own
}

#[test]
fn random_files_are_watched_as_worded() {
    let mut rng = Random::new(6001);
    let (mut found, mut none, mut refused) = (0, 0, 0);
    for _ in 0..30_000 {
        let most = rng.pick(&[4, 12, 12, 30]);
        let Recording { circuit, read, records } = recording(&mut rng, most);
        let mut file = bytes_of(&records.concat());
        if rng.once_in(8) && !file.is_empty() {
            let at = rng.below(file.len());
            file[at] = rng.below(256) as u8;
        }
        let kept = file.len() - if rng.once_in(12) { rng.below(file.len().min(20) + 1) } else { 0 };
        let needed = 7 + 8 * usize::from(read.signals);
        let (window, lent) = match rng.below(20) {
            0 => (rng.pick(&[1, 257, 300, u32::MAX]), needed),
            1 => (any_window(&mut rng), needed - 1),
            _ => (any_window(&mut rng), needed + rng.below(3)),
        };
        let own = assert_as_worded(&circuit, &read, &file[..kept], window, lent);
        *if own.number > 0 {
            &mut refused
        } else if own.values[0] > 0 {
            &mut found
        } else {
            &mut none
        } += 1;
    }
    assert!(found > 5_000 && none > 5_000 && refused > 3_000, "{found} {none} {refused}");
}

#[test]
fn long_files_are_watched_as_worded() {
    let (circuit, mut rng) = (narrow(), Random::new(6002));
    let read = read_circuit(&circuit).unwrap();
    let (mut farthest, mut none) = (0, 0);
    for _ in 0..6_000 {
        let window = any_window(&mut rng);
        let own = assert_as_worded(&circuit, &read, &far_apart(&mut rng, window), window, 23);
        farthest += usize::from(own.values[0] > 0 && (own.values[2] - own.values[1] + 1) as usize == (RIGHT.meant)(window));
        none += usize::from(own.values[0] == 0);
    }
    assert!(farthest > 500 && none > 500, "{farthest} {none}");
}

/// The stored calls that watch and don't fail on their circuit.
fn stored() -> Vec<(Record, Asked)> {
    let records = compose(1, USUAL_SIZE).into_iter().filter(|record| record.kind == WATCH);
    let asked = records.filter_map(|record| {
        let circuit = read_circuit(&record.circuit).ok()?;
        let asked = Asked::of(&circuit, &record.hand_in, number32(&record.sheet, 0), record.lent as usize);
        Some((record, asked))
    });
    asked.collect()
}

/// Each of the readings is told by three stored calls or more.
fn assert_told(readings: &[(&str, Reading)]) {
    let stored = stored();
    for &(name, reading) in readings {
        let count = stored.iter().filter(|(record, asked)| answered(asked, reading) != record.answer).count();
        assert!(count >= 3, "{name}: {count}");
    }
}

#[test]
fn the_right_reading_gives_every_stored_answer() {
    let stored = stored();
    assert!(stored.len() > 700, "{}", stored.len());
    for (record, asked) in &stored {
        assert_eq!(answered(asked, RIGHT), record.answer, "{record:?}");
        let own = assert_as_worded(&record.circuit, &asked.circuit, &record.hand_in, asked.window, asked.lent);
        assert_eq!(own, record.answer);
    }
}

#[test]
fn wrong_windows_are_told() {
    let near = |near: fn(&Asked, Two, usize) -> bool| Reading { near, ..RIGHT };
    let meant = |meant: fn(u32) -> usize| Reading { meant, ..RIGHT };
    let both = |unfit: fn(&Asked) -> bool, meant: fn(u32) -> usize| Reading { unfit, meant, ..RIGHT };
    assert_told(&[
        ("W places apart", near(|_, (j, k), window| k - j <= window)),
        ("fewer than W - 1 places apart", near(|_, (j, k), window| k - j + 1 < window)),
        ("as far apart as they like", near(|_, _, _| true)),
        ("broken records take no place", near(|asked, (j, k), window| (j + 1..=k).filter(|&record| asked.satisfies(record)).count() < window)),
        (
            "records with other inputs take no place",
            near(|asked, (j, k), window| (j + 1..=k).filter(|&x| asked.share_inputs((x, k))).count() < window),
        ),
        ("only neighbours", near(|_, (j, k), _| k - j == 1)),
        ("only neighbours among those that satisfy", near(|asked, (j, k), _| (j + 1..k).all(|between| !asked.satisfies(between)))),
        ("in blocks of W records", near(|_, (j, k), window| (j - 1) / window == (k - 1) / window)),
        ("distances modulo 256", near(|_, (j, k), window| (k - j) % 256 < window)),
        ("0 is 256", meant(|window| if window == 0 { 256 } else { window as usize })),
        ("0 is no limit", meant(|window| if window == 0 { usize::MAX } else { window as usize })),
        ("0 is 63", meant(|window| if window == 0 { 63 } else { window as usize })),
        ("0 is 65", meant(|window| if window == 0 { 65 } else { window as usize })),
        ("0 is 0", meant(|window| window as usize)),
        ("0 is refused", Reading { unfit: |asked| asked.window == 0 || wrong_window(asked.window) || short(asked), ..RIGHT }),
        ("1 is a window", both(|asked| asked.window > 256 || short(asked), RIGHT.meant)),
        ("257 is a window", both(|asked| asked.window == 1 || asked.window > 257 || short(asked), RIGHT.meant)),
        ("256 isn't", both(|asked| asked.window > 255 || wrong_window(asked.window) || short(asked), RIGHT.meant)),
        ("2 isn't", both(|asked| asked.window == 2 || wrong_window(asked.window) || short(asked), RIGHT.meant)),
        ("any above 256 is 256", both(|asked| asked.window == 1 || short(asked), |window| (RIGHT.meant)(window.min(256)))),
        ("modulo 2^16", both(|asked| wrong_window(asked.window % 65_536) || short(asked), |window| (RIGHT.meant)(window % 65_536))),
        ("modulo 2^8", both(|asked| wrong_window(asked.window % 256) || short(asked), |window| (RIGHT.meant)(window % 256))),
        ("with a sign", both(|asked| asked.window as i32 == 1 || asked.window as i32 > 256 || short(asked), |window| (RIGHT.meant)(window.min(256)))),
    ]);
}

#[test]
fn wrong_pairs_are_told() {
    let counts = |counts: fn(&Asked, usize) -> bool| Reading { counts, ..RIGHT };
    let compared = |compared: fn(&Asked, Two) -> bool| Reading { compared, ..RIGHT };
    let telling = |telling: fn(&Asked) -> std::ops::RangeInclusive<u16>| Reading { telling, ..RIGHT };
    assert_told(&[
        ("broken records too", counts(|_, _| true)),
        ("the earlier may be broken", Reading { compared: |asked, (j, k)| asked.satisfies(k) && asked.share_inputs((j, k)), ..counts(|_, _| true) }),
        ("the later may be broken", Reading { compared: |asked, (j, k)| asked.satisfies(j) && asked.share_inputs((j, k)), ..counts(|_, _| true) }),
        ("none that satisfies", counts(|asked, record| !asked.satisfies(record))),
        ("the first record left out", counts(|asked, record| record > 1 && asked.satisfies(record))),
        ("the last record left out", counts(|asked, record| record < asked.records.len() && asked.satisfies(record))),
        ("inputs not compared", compared(|_, _| true)),
        ("the first input not compared", compared(|asked, two| asked.agree(two, 2..=asked.circuit.inputs))),
        ("the last input not compared", compared(|asked, two| asked.agree(two, 1..=asked.circuit.inputs.saturating_sub(1)))),
        ("the first output compared as an input", compared(|asked, two| asked.agree(two, 1..=asked.circuit.inputs + 1))),
        ("inputs compared by their sum", compared(|asked, (j, k)| input_sum(asked, j) == input_sum(asked, k))),
        ("nothing without inputs", compared(|asked, two| asked.circuit.inputs > 0 && asked.share_inputs(two))),
        ("only the first record of its inputs, though it may be out of reach", compared(is_with_first)),
        ("the nearest of its inputs decides, though it may be broken", compared(is_with_nearest)),
        ("inner signals as outputs", telling(|asked| asked.circuit.inputs + 1..=asked.circuit.signals)),
        ("inputs as outputs", Reading { compared: |_, _| true, ..telling(|asked| 1..=asked.circuit.inputs + asked.circuit.outputs) }),
        ("the first output alone", telling(|asked| asked.circuit.inputs + 1..=asked.circuit.inputs + 1)),
        ("the last output alone", telling(|asked| *asked.outputs().end()..=*asked.outputs().end())),
        ("the last output left out", telling(|asked| asked.circuit.inputs + 1..=asked.circuit.inputs + asked.circuit.outputs - 1)),
        ("the first output left out", telling(|asked| asked.circuit.inputs + 2..=asked.circuit.inputs + asked.circuit.outputs)),
    ]);
}

fn input_sum(asked: &Asked, record: usize) -> u64 {
    asked.record(record)[..asked.circuit.inputs.into()].iter().map(|&value| u64::from(value)).sum()
}

/// Whether no record before the earlier one satisfies and shares its inputs.
fn is_with_first(asked: &Asked, (j, k): Two) -> bool {
    asked.share_inputs((j, k)) && !(1..j).any(|before| asked.satisfies(before) && asked.share_inputs((before, j)))
}

/// Whether no record between the two shares their inputs.
fn is_with_nearest(asked: &Asked, (j, k): Two) -> bool {
    asked.share_inputs((j, k)) && !(j + 1..k).any(|between| asked.share_inputs((between, k)))
}

#[test]
fn wrong_choices_among_pairs_are_told() {
    let least = |least: fn(Two) -> (usize, usize, Reverse<usize>)| Reading { least, ..RIGHT };
    let told_as = |told: fn(&Asked, u16, Two) -> Answer| Reading { told, ..RIGHT };
    assert_told(&[
        ("the farthest earlier record", least(|(j, k)| (k, j, Reverse(0)))),
        ("the first earlier record", least(|(j, k)| (j, k, Reverse(0)))),
        ("the first earlier record and the farthest later one", least(|(j, k)| (j, 0, Reverse(k)))),
        ("the last pair", least(|(j, k)| (0, usize::MAX - k, Reverse(j)))),
        ("the nearest pair", least(|(j, k)| (k - j, k, Reverse(0)))),
        ("the highest output", Reading { q: |_, differing| differing[differing.len() - 1], ..RIGHT }),
        ("q counted among the outputs", Reading { q: |asked, differing| differing[0] - asked.circuit.inputs, ..RIGHT }),
        ("q from 0", Reading { q: |_, differing| differing[0] - 1, ..RIGHT }),
        ("the later record as the first run", told_as(|asked, q, (j, k)| told(q, (j, k), [asked.record(k), asked.record(j)]))),
        ("one record as both runs", told_as(|asked, q, (j, k)| told(q, (j, k), [asked.record(k); 2]))),
        ("records from 0", told_as(|asked, q, (j, k)| told(q, (j - 1, k - 1), [asked.record(j), asked.record(k)]))),
        ("later and earlier", told_as(|asked, q, (j, k)| told(q, (k, j), [asked.record(j), asked.record(k)]))),
        ("nothing written", told_as(|asked, q, two| Answer { written: Vec::new(), ..(RIGHT.told)(asked, q, two) })),
    ]);
}

#[test]
fn wrong_lengths_values_and_room_are_told() {
    let partial = |partial: fn(&Asked) -> bool| Reading { partial, ..RIGHT };
    let high = |high: fn(&Asked) -> Option<usize>| Reading { high, ..RIGHT };
    let unfit = |unfit: fn(&Asked) -> bool| Reading { unfit, ..RIGHT };
    assert_told(&[
        ("any length", partial(|_| false)),
        ("whole values", partial(|asked| !asked.length.is_multiple_of(4))),
        ("whole bytes of records", partial(|asked| !asked.length.is_multiple_of(asked.n()))),
        ("no empty file", partial(|asked| asked.length == 0 || (RIGHT.partial)(asked))),
        ("no single record", partial(|asked| asked.length == 4 * asked.n() || (RIGHT.partial)(asked))),
        ("no value asked", high(|_| None)),
        ("the value p passes", high(|asked| high_by(asked, |value, p| value > p))),
        ("the value p - 1 doesn't", high(|asked| high_by(asked, |value, p| value + 1 >= p))),
        ("only values of 2^31 on", high(|asked| high_by(asked, |value, _| value >= 1 << 31))),
        ("the place counted in values", high(|asked| first_high(asked, |value, p| value >= p).map(|at| at + 1))),
        ("the place in bytes", high(|asked| first_high(asked, |value, p| value >= p).map(|at| 4 * at))),
        ("places from 0", high(|asked| (RIGHT.high)(asked).map(|place| place - 1))),
        ("no place", high(|asked| (RIGHT.high)(asked).map(|_| 0))),
        ("the signal for a place", high(|asked| first_high(asked, |value, p| value >= p).map(|at| at % asked.n() + 1))),
        ("the last record", high(|asked| asked.values.iter().rposition(|&value| u64::from(value) >= asked.p()).map(|at| at / asked.n() + 1))),
        ("only inputs asked", high(|asked| first_record(asked, 1..=asked.circuit.inputs))),
        ("only the first signal asked", high(|asked| first_record(asked, 1..=1))),
        ("the last signal not asked", high(|asked| first_record(asked, 1..=asked.circuit.signals - 1))),
        ("the last record not asked", high(|asked| (RIGHT.high)(asked).filter(|&place| place < asked.records.len()))),
        ("the first record not asked", high(|asked| (RIGHT.high)(asked).filter(|&place| place > 1))),
        ("only up to the first pair", Reading { until_found: true, ..RIGHT }),
        ("no room asked", unfit(|asked| wrong_window(asked.window))),
        ("no window asked", unfit(short)),
        ("just so much room", unfit(|asked| wrong_window(asked.window) || asked.lent != 7 + 8 * asked.n())),
        ("room for one run", unfit(|asked| wrong_window(asked.window) || asked.lent < 7 + 4 * asked.n())),
        ("a byte of room too few", unfit(|asked| wrong_window(asked.window) || asked.lent + 1 < 7 + 8 * asked.n())),
        ("a byte of room more", unfit(|asked| wrong_window(asked.window) || asked.lent <= 7 + 8 * asked.n())),
        ("room asked only where there is a pair", unfit(|asked| wrong_window(asked.window) || (short(asked) && !pairs(asked, RIGHT).is_empty()))),
        ("the window asked only where there are records", unfit(|asked| short(asked) || (asked.length > 0 && wrong_window(asked.window)))),
        ("32 after 33", Reading { order: [33, 32, 34], ..RIGHT }),
        ("34 before 33", Reading { order: [32, 34, 33], ..RIGHT }),
        ("34 before 32", Reading { order: [34, 32, 33], ..RIGHT }),
        ("32 last", Reading { order: [33, 34, 32], ..RIGHT }),
    ]);
}

/// The first record with a value that is too large at one of these signals.
fn first_record(asked: &Asked, signals: std::ops::RangeInclusive<u16>) -> Option<usize> {
    (1..=asked.records.len()).find(|&record| signals.clone().any(|signal| u64::from(asked.value(record, signal)) >= asked.p()))
}

/// Which constraints of a circuit aren't looked at.
type LeftOut = fn(&Circuit, usize) -> bool;

#[test]
fn constraints_left_out_are_told() {
    let stored = stored();
    let leaves_out: [(&str, LeftOut); 4] = [
        ("the first", |_, at| at == 0),
        ("the last", |circuit, at| at + 1 == circuit.constraints.len()),
        ("all but the first", |_, at| at > 0),
        ("those without signals", |circuit, at| {
            let constraint = &circuit.constraints[at];
            [&constraint.a, &constraint.b, &constraint.c].iter().all(|form| form.signals().is_empty())
        }),
    ];
    for (name, left_out) in leaves_out {
        let otherwise = |(record, asked): &&(Record, Asked)| {
            let mut circuit = asked.circuit.clone();
            let kept = (0..circuit.constraints.len()).filter(|&at| !left_out(&asked.circuit, at));
            circuit.constraints = kept.map(|at| asked.circuit.constraints[at].clone()).collect();
            answered(&Asked::of(&circuit, &record.hand_in, asked.window, asked.lent), RIGHT) != record.answer
        };
        let count = stored.iter().filter(otherwise).count();
        assert!(count >= 3, "{name}: {count}");
    }
}

/// Each limit is told from its neighbours by several vectors, each result occurs often.
#[test]
fn no_limit_of_watching_hangs_on_one_vector() {
    let stored = stored();
    let several = |what: &str, least: usize, test: &dyn Fn(&Record, &Asked) -> bool| {
        let count = stored.iter().filter(|(record, asked)| test(record, asked)).count();
        assert!(count >= least, "{what}: {count}");
    };
    let distance = |r: &Record| r.answer.values[2] - r.answer.values[1];
    for window in [0, 2, 3, 63, 64, 65, 255, 256] {
        let widest = (RIGHT.meant)(window) as u32 - 1;
        several("a pair at the widest distance", 3, &|r, asked| asked.window == window && r.answer.values[0] > 0 && distance(r) == widest);
        several("none, though a window of one more has a pair", 2, &|r, asked| {
            let wider = Reading { near: |_, (j, k), window| k - j <= window, ..RIGHT };
            asked.window == window && r.answer == Answer::default() && answered(asked, wider).values[0] > 0
        });
    }
    for window in [1, 257, 1 << 31, u32::MAX] {
        several("no window", 3, &|r, asked| asked.window == window && r.answer.number == 34);
    }
    for (more, number) in [(-1, 34), (0, 0), (1, 0)] {
        several("room", 5, &|r, asked| {
            asked.lent as i64 == 7 + 8 * asked.n() as i64 + more && !wrong_window(asked.window) && r.answer.number == number
        });
    }
    for (n, least) in [(1, 20), (2, 20), (256, 5)] {
        several("signals", least, &|r, asked| asked.n() == n && r.answer.number == 0);
    }
    several("the largest p", 3, &|r, asked| asked.p() == 2_147_483_647 && r.answer.number == 0);
    several("no inputs", 10, &|r, asked| asked.circuit.inputs == 0 && r.answer.values[0] > 0);
    several("an empty file", 5, &|r, asked| asked.length == 0 && r.answer == Answer::default());
    several("one record", 5, &|r, asked| asked.records.len() == 1 && r.answer == Answer::default());
    several("a longer buffer that is written to", 5, &|r, asked| r.answer.values[0] > 0 && asked.lent > r.answer.written.len());
    several("none", 150, &|r, _| r.answer == Answer::default());
    several("a pair", 150, &|r, _| r.answer.values[0] > 0);
}
