//! First and next runs: against all candidates of thousands of random circuits; and each way in which the calls could be read wrongly gives another answer than
//! at least three stored vectors.

use std::collections::BTreeMap;
use std::rc::Rc;

use second::brute::satisfying_runs;
use second::compose::{compose, USUAL_SIZE};
use second::generate::{small, tiny};
use second::random::Random;
use second::reader::{number16, number32, numbers32, Circuit};
use second::runs::is_small;
use second::vectors::{bytes_of, Answer, Record, FIRST_RUN, LISTING, NEXT_RUN};
use second::writer::Draft;
use second::{first_run, next_run, read_circuit, worst_runs, Refusal};

/// All p^n runs, counted up.
fn candidates(circuit: &Circuit) -> impl Iterator<Item = Vec<u32>> {
    let (p, n) = (circuit.field.prime(), u32::from(circuit.signals));
    (0..p.pow(n)).map(move |number| (0..n).rev().map(|digit| (number / p.pow(digit) % p) as u32).collect())
}

fn satisfies(circuit: &Circuit, run: &[u32]) -> bool {
    circuit.constraints.iter().all(|constraint| constraint.satisfied(circuit.field, run))
}

/// Rule 1.9: the smaller value at the lowest signal at which they differ.
fn comes_before(x: &[u32], y: &[u32]) -> bool {
    x.iter().zip(y).find(|(x, y)| x != y).is_some_and(|(x, y)| x < y)
}

/// What a call that isn't refused writes; with "no more" nothing.
fn written(n: usize, call: impl FnOnce(&mut [u32]) -> Result<bool, Refusal>) -> Option<Vec<u32>> {
    let mut answer = vec![u32::MAX; n];
    let found = call(&mut answer).unwrap();
    assert!(found || answer.iter().all(|&value| value == u32::MAX));
    found.then_some(answer)
}

/// The whole list: the first run, then each next one to the end.
fn whole_list(bytes: &[u8], n: usize) -> Vec<Vec<u32>> {
    let first = written(n, |answer| first_run(bytes, answer));
    std::iter::successors(first, |run| written(n, |answer| next_run(bytes, run, answer))).collect()
}

/// A given run is followed by the first satisfying one that it comes before.
fn assert_next(bytes: &[u8], satisfying: &[Vec<u32>], given: &[u32]) {
    let next = satisfying.iter().find(|run| comes_before(given, run));
    assert_eq!(written(given.len(), |answer| next_run(bytes, given, answer)).as_ref(), next, "{given:?} in {bytes:?}");
}

#[test]
fn lists_are_all_satisfying_runs_each_once_and_rising() {
    let mut rng = Random::new(3001);
    let (mut empty, mut several) = (0, 0);
    for _ in 0..1700 {
        let bytes = if rng.once_in(3) { small(&mut rng) } else { tiny(&mut rng) };
        let circuit = read_circuit(&bytes).unwrap();
        let satisfying: Vec<Vec<u32>> = candidates(&circuit).filter(|run| satisfies(&circuit, run)).collect();
        assert!(satisfying.windows(2).all(|two| comes_before(&two[0], &two[1])));
        assert_eq!(satisfying_runs(&circuit), satisfying);
        if satisfying.len() < 3000 {
            assert_eq!(whole_list(&bytes, circuit.signals.into()), satisfying);
        }
        empty += usize::from(satisfying.is_empty());
        several += usize::from(satisfying.len() > 1);
    }
    assert!(empty > 100 && several > 1000, "{empty} {several}");
}

#[test]
fn any_given_run_is_followed_by_the_next() {
    let mut rng = Random::new(3002);
    for _ in 0..1500 {
        let bytes = if rng.once_in(3) { small(&mut rng) } else { tiny(&mut rng) };
        let circuit = read_circuit(&bytes).unwrap();
        let satisfying = satisfying_runs(&circuit);
        if circuit.field.prime().pow(circuit.signals.into()) <= 200 {
            candidates(&circuit).for_each(|given| assert_next(&bytes, &satisfying, &given));
        }
        for _ in 0..20 {
            let given: Vec<u32> = circuit.all_signals().map(|_| rng.below(circuit.field.prime() as usize) as u32).collect();
            assert_next(&bytes, &satisfying, &given);
        }
    }
}

#[test]
fn the_longest_lists() {
    for (p, n) in [(3, 10), (251, 2), (65_521, 1)] {
        let circuit = Draft::new(p, n, 0, 1).bytes();
        let list = whole_list(&circuit, n.into());
        assert!(candidates(&read_circuit(&circuit).unwrap()).eq(list));
    }
}

#[test]
fn the_worst_circuits() {
    for (name, bytes) in worst_runs::all() {
        let circuit = read_circuit(&bytes).unwrap();
        assert!(is_small(&circuit));
        let last = vec![circuit.field.prime() as u32 - 1; circuit.signals.into()];
        let expected = if name.contains("nothing") { Vec::new() } else { vec![last] };
        assert_eq!(whole_list(&bytes, circuit.signals.into()), expected, "{name}");
    }
}

/// A stored call on a circuit that isn't refused, with the satisfying runs if it is small.
struct Stored {
    record: Record,
    circuit: Circuit,
    satisfying: Rc<Vec<Vec<u32>>>,
}

/// The stored calls that list runs and don't fail on their circuit.
fn stored() -> Vec<Stored> {
    let mut lists: BTreeMap<Vec<u8>, Rc<Vec<Vec<u32>>>> = BTreeMap::new();
    let records = compose(1, USUAL_SIZE).into_iter().filter(|record| LISTING.contains(&record.kind));
    let judged = records.filter_map(|record| {
        let circuit = read_circuit(&record.circuit).ok()?;
        let list = || Rc::new(if is_small(&circuit) { satisfying_runs(&circuit) } else { Vec::new() });
        let satisfying = lists.entry(record.circuit.clone()).or_insert_with(list).clone();
        Some(Stored { record, circuit, satisfying })
    });
    judged.collect()
}

/// What a call is asked.
struct Asked {
    is_first: bool,
    p: u64,
    n: usize,
    inputs: u32,
    given: Vec<u32>,
    lent: usize,
}

/// Which of the satisfying runs, which come in their order, is answered.
type Picks = fn(&[Vec<u32>], &Asked) -> Option<Vec<u32>>;

/// Which constraints of a circuit aren't looked at.
type LeftOut = fn(&Circuit, usize) -> bool;

/// How the calls are read.
#[derive(Clone, Copy)]
struct Reading {
    /// Whether there are too many candidates.
    large: fn(&Asked) -> bool,
    /// The place of 31, if it is met.
    unfit: fn(&Asked) -> Option<usize>,
    /// Whether 31 is asked before 30.
    unfit_first: bool,
    picks: Picks,
    /// Whether nothing is written with "no more"; zeros else.
    blank: bool,
}

const RIGHT: Reading = Reading { large: |asked| power(asked, asked.n as u32) > 65_536, unfit, unfit_first: false, picks: next_of, blank: true };

/// p to a power, at most 2^64 - 1.
fn power(asked: &Asked, exponent: u32) -> u64 {
    asked.p.saturating_pow(exponent)
}

fn unfit(asked: &Asked) -> Option<usize> {
    unfit_by(misfits(asked), high(asked))
}

/// 31 by the lengths, and then by the place of a value.
fn unfit_by(misfits: bool, high: Option<usize>) -> Option<usize> {
    misfits.then_some(0).or(high)
}

/// Whether a length is wrong.
fn misfits(asked: &Asked) -> bool {
    misgiven(asked) || mislent(asked)
}

fn misgiven(asked: &Asked) -> bool {
    !asked.is_first && asked.given.len() != asked.n
}

fn mislent(asked: &Asked) -> bool {
    asked.lent != asked.n
}

/// The lowest signal with a value that is too large.
fn high(asked: &Asked) -> Option<usize> {
    high_by(asked, |value, p| value >= p)
}

/// The lowest signal with such a value, compared with p.
fn high_by(asked: &Asked, is_high: fn(u64, u64) -> bool) -> Option<usize> {
    asked.given.iter().position(|&value| is_high(value.into(), asked.p)).map(|at| at + 1)
}

/// The first run, or the first that the given one comes before.
fn next_of(satisfying: &[Vec<u32>], asked: &Asked) -> Option<Vec<u32>> {
    satisfying.iter().find(|run| asked.is_first || comes_before(&asked.given, run)).cloned()
}

/// A call's answer by a reading. What a listing of too many candidates would give isn't computed, but is no refusal.
fn answered(Stored { record, circuit, satisfying }: &Stored, reading: Reading) -> Answer {
    let (given, lent) = (numbers32(&record.hand_in), record.lent as usize);
    let (n, inputs) = (usize::from(circuit.signals), u32::from(circuit.inputs));
    let asked = Asked { is_first: record.kind == FIRST_RUN, p: circuit.field.prime(), n, inputs, given, lent };
    let refused = |number: u16, place: usize| Answer { number, place: place as u32, ..Answer::default() };
    match ((reading.large)(&asked), (reading.unfit)(&asked)) {
        (true, None) => return refused(30, 0),
        (true, Some(_)) if !reading.unfit_first => return refused(30, 0),
        (_, Some(place)) => return refused(31, place),
        (false, None) => (),
    }
    if !is_small(circuit) {
        return Answer { values: [u32::MAX; 5], ..Answer::default() };
    }
    match (reading.picks)(satisfying, &asked) {
        Some(run) => Answer { values: [1, 0, 0, 0, 0], written: bytes_of(&run), ..Answer::default() },
        None => Answer { written: bytes_of(&vec![0; if reading.blank { 0 } else { n }]), ..Answer::default() },
    }
}

/// How many stored calls get another answer.
fn told(stored: &[Stored], reading: Reading) -> usize {
    stored.iter().filter(|stored| answered(stored, reading) != stored.record.answer).count()
}

/// Each of the readings is told by three stored calls or more.
fn assert_told(readings: &[(&str, Reading)]) {
    let stored = stored();
    for &(name, reading) in readings {
        let count = told(&stored, reading);
        assert!(count >= 3, "{name}: {count}");
    }
}

#[test]
fn the_right_reading_gives_every_stored_answer() {
    let stored = stored();
    assert!(stored.len() > 1000, "{}", stored.len());
    for stored in &stored {
        assert_eq!(answered(stored, RIGHT), stored.record.answer, "{:?}", stored.record);
    }
}

#[test]
fn wrong_limits_of_candidates_are_told() {
    let large = |large: fn(&Asked) -> bool| Reading { large, ..RIGHT };
    assert_told(&[
        ("never", large(|_| false)),
        ("at the largest number that is allowed", large(|asked| power(asked, asked.n as u32) > 65_520)),
        ("not at the next number above", large(|asked| power(asked, asked.n as u32) > 65_537)),
        ("from 2^15", large(|asked| power(asked, asked.n as u32) > 32_768)),
        ("from 2^17", large(|asked| power(asked, asked.n as u32) > 131_072)),
        ("by p alone", large(|asked| asked.p > 65_536)),
        ("by one signal fewer", large(|asked| power(asked, asked.n as u32 - 1) > 65_536)),
        ("by one signal more", large(|asked| power(asked, asked.n as u32 + 1) > 65_536)),
        ("by the inputs", large(|asked| power(asked, asked.inputs) > 65_536)),
        ("by the signals that aren't inputs", large(|asked| power(asked, asked.n as u32 - asked.inputs) > 65_536)),
        ("by p times n", large(|asked| asked.p * asked.n as u64 > 65_536)),
        ("n to the power p", large(|asked| (asked.n as u64).saturating_pow(asked.p as u32) > 65_536)),
        ("modulo 2^32", large(|asked| (asked.p as u32).wrapping_pow(asked.n as u32) > 65_536)),
        ("31 before 30", Reading { unfit_first: true, ..RIGHT }),
    ]);
}

#[test]
fn wrong_lengths_and_values_are_told() {
    let by = |unfit: fn(&Asked) -> Option<usize>| Reading { unfit, ..RIGHT };
    assert_told(&[
        ("no length asked", by(high)),
        ("the answer's length not asked", by(|asked| unfit_by(misgiven(asked), high(asked)))),
        ("the given run's length not asked", by(|asked| unfit_by(mislent(asked), high(asked)))),
        ("a longer answer taken", by(|asked| unfit_by(misgiven(asked) || asked.lent < asked.n, high(asked)))),
        ("a shorter answer taken", by(|asked| unfit_by(misgiven(asked) || asked.lent > asked.n, high(asked)))),
        ("a longer given run taken", by(|asked| unfit_by(mislent(asked) || (misgiven(asked) && asked.given.len() < asked.n), high(asked)))),
        ("a shorter given run taken", by(|asked| unfit_by(mislent(asked) || (misgiven(asked) && asked.given.len() > asked.n), high(asked)))),
        ("both lengths equal, and no more", by(|asked| unfit_by(!asked.is_first && asked.given.len() != asked.lent, high(asked)))),
        ("a value before the lengths", by(|asked| high(asked).or(unfit(asked)))),
        ("a value before the answer's length", by(|asked| unfit_by(misgiven(asked), high(asked)).or(unfit(asked)))),
        ("a place for the lengths", by(|asked| (misgiven(asked) || mislent(asked)).then_some(asked.n).or(high(asked)))),
        ("no value asked", by(|asked| unfit(asked).filter(|&place| place == 0))),
        ("the value p passes", by(|asked| unfit_by(misfits(asked), high_by(asked, |value, p| value > p)))),
        ("the value p - 1 doesn't", by(|asked| unfit_by(misfits(asked), high_by(asked, |value, p| value + 1 >= p)))),
        ("only values of 2^31 on", by(|asked| unfit_by(misfits(asked), high_by(asked, |value, _| value >= 1 << 31)))),
        ("places from 0", by(|asked| unfit(asked).map(|place| place.saturating_sub(1)))),
        ("no place", by(|asked| unfit(asked).map(|_| 0))),
        ("the highest signal", by(|asked| unfit_by(misfits(asked), highest(asked)))),
        ("the first signal not asked", by(|asked| unfit(asked).filter(|&place| place != 1))),
        ("the last signal not asked", by(|asked| unfit(asked).filter(|&place| place != asked.n))),
    ]);
}

/// The highest signal with a value that is too large.
fn highest(asked: &Asked) -> Option<usize> {
    asked.given.iter().rposition(|&value| u64::from(value) >= asked.p).map(|at| at + 1)
}

#[test]
fn wrong_runs_are_told() {
    let picks = |picks: Picks| Reading { picks, ..RIGHT };
    assert_told(&[
        ("the given run itself", picks(|all, asked| all.iter().find(|run| asked.is_first || **run >= asked.given).cloned())),
        ("signal n compared first", picks(backward)),
        ("signal n compared first among those after", picks(|all, asked| last_first(after(all, asked)))),
        ("the last run left out", picks(|all, asked| next_of(&all[..all.len().saturating_sub(1)], asked))),
        ("the first run left out", picks(|all, asked| next_of(all.get(1..).unwrap_or_default(), asked))),
        ("one passed over", picks(|all, asked| after(all, asked).into_iter().nth(1))),
        ("the last one", picks(|all, asked| after(all, asked).pop())),
        ("the one before", picks(|all, asked| all.iter().rev().find(|run| asked.is_first || comes_before(run, &asked.given)).cloned())),
        ("from the start again at the end", picks(|all, asked| next_of(all, asked).or_else(|| all.first().cloned()))),
        ("the first run always", picks(|all, _| all.first().cloned())),
        ("none after a run that doesn't satisfy", picks(|all, asked| next_of(all, asked).filter(|_| asked.is_first || all.contains(&asked.given)))),
        ("none after a run that satisfies", picks(|all, asked| next_of(all, asked).filter(|_| asked.is_first || !all.contains(&asked.given)))),
        ("only with another first value", picks(|all, asked| after(all, asked).into_iter().find(|run| asked.is_first || run[0] != asked.given[0]))),
        ("only with the same first value", picks(|all, asked| next_of(all, asked).filter(|run| asked.is_first || run[0] == asked.given[0]))),
        ("every value larger", picks(|all, asked| all.iter().find(|run| run.iter().zip(&asked.given).all(|(x, y)| x > y)).cloned())),
        ("the next candidate, satisfying or not", picks(|all, asked| successor(asked).or_else(|| next_of(all, asked)))),
        ("never 0 at the first signal", picks(|all, asked| after(all, asked).into_iter().find(|run| run[0] > 0))),
        ("never p - 1 at the last signal", picks(|all, asked| after(all, asked).into_iter().find(|run| u64::from(run[asked.n - 1]) < asked.p - 1))),
        ("values from the last signal to the first", picks(|all, asked| next_of(all, asked).map(|run| run.into_iter().rev().collect()))),
        ("something written with no more", Reading { blank: false, ..RIGHT }),
    ]);
}

/// All that come after the given run; for a first run all.
fn after(all: &[Vec<u32>], asked: &Asked) -> Vec<Vec<u32>> {
    all.iter().filter(|run| asked.is_first || comes_before(&asked.given, run)).cloned().collect()
}

/// The first of these runs if signal n is compared first.
fn last_first(runs: Vec<Vec<u32>>) -> Option<Vec<u32>> {
    runs.into_iter().min_by(|x, y| x.iter().rev().cmp(y.iter().rev()))
}

/// The answer if signal n is compared first throughout.
fn backward(all: &[Vec<u32>], asked: &Asked) -> Option<Vec<u32>> {
    let comes_later = |run: &&Vec<u32>| asked.is_first || run.iter().rev().gt(asked.given.iter().rev());
    last_first(all.iter().filter(comes_later).cloned().collect())
}

/// The candidate right after the given run.
fn successor(asked: &Asked) -> Option<Vec<u32>> {
    let mut run = asked.given.clone();
    let at = run.iter().rposition(|&value| u64::from(value) < asked.p - 1)?;
    run[at] += 1;
    run[at + 1..].fill(0);
    Some(run)
}

#[test]
fn constraints_left_out_are_told() {
    let stored = stored();
    let leaves_out: [(&str, LeftOut); 4] = [
        ("those without signals", has_no_signals),
        ("the first", |_, at| at == 0),
        ("the last", |circuit, at| at + 1 == circuit.constraints.len()),
        ("all", |_, _| true),
    ];
    for (name, left_out) in leaves_out {
        let otherwise = |stored: &&Stored| {
            let mut circuit = stored.circuit.clone();
            circuit.constraints =
                (0..).zip(&stored.circuit.constraints).filter(|&(at, _)| !left_out(&stored.circuit, at)).map(|(_, c)| c.clone()).collect();
            if stored.record.answer.number != 0 || circuit.constraints.len() == stored.circuit.constraints.len() {
                return false;
            }
            let satisfying = Rc::new(satisfying_runs(&circuit));
            answered(&Stored { record: stored.record.clone(), circuit, satisfying }, RIGHT) != stored.record.answer
        };
        let count = stored.iter().filter(otherwise).count();
        assert!(count >= 3, "{name}: {count}");
    }
}

/// Whether the constraint names no signal.
fn has_no_signals(circuit: &Circuit, at: usize) -> bool {
    let constraint = &circuit.constraints[at];
    [&constraint.a, &constraint.b, &constraint.c].iter().all(|form| form.signals().is_empty())
}

/// Each limit is told from its neighbours by several vectors, each result occurs often.
#[test]
fn no_limit_of_runs_hangs_on_one_vector() {
    let mut stored = compose(1, USUAL_SIZE);
    stored.retain(|record| LISTING.contains(&record.kind) && record.circuit.len() >= 17);
    let several = |what: &str, least: usize, test: &dyn Fn(&Record) -> bool| {
        let count = stored.iter().filter(|record| test(record)).count();
        assert!(count >= least, "{what}: {count}");
    };
    let size = |r: &Record| (number32(&r.circuit, 5), number16(&r.circuit, 9));
    for (p, n) in [(3, 10), (5, 6), (7, 5), (13, 4), (37, 3), (251, 2), (65_521, 1)] {
        several("allowed", 3, &|r| size(r) == (p, n) && r.answer.number == 0 && r.answer.values[0] == 1);
    }
    for (p, n) in [(3, 11), (5, 7), (7, 6), (11, 5), (17, 4), (41, 3), (257, 2), (65_537, 1), (2_147_483_647, 1), (2_147_483_647, 256), (3, 256)] {
        several("too many", 3, &|r| size(r) == (p, n) && r.answer.number == 30);
    }
    for (more, number) in [(-1, 31), (0, 0), (1, 31)] {
        let off_by = |length: usize, r: &Record| length as i64 == i64::from(size(r).1) + more && r.answer.number == number;
        several("answer of a first run", 5, &|r| r.kind == FIRST_RUN && off_by(r.lent as usize, r));
        several("answer of a next run", 5, &|r| r.kind == NEXT_RUN && off_by(r.lent as usize, r) && r.hand_in.len() == 4 * usize::from(size(r).1));
        several("given", 5, &|r| r.kind == NEXT_RUN && off_by(r.hand_in.len() / 4, r) && r.lent == u32::from(size(r).1));
    }
    for (more, number) in [(-1, 0), (0, 31)] {
        let at = |r: &Record, at: usize| numbers32(&r.hand_in).get(at).is_some_and(|&value| i64::from(value) == i64::from(size(r).0) + more);
        several("value of the first signal", 5, &|r| r.answer.number == number && at(r, 0));
        several("value of the last signal", 5, &|r| r.answer.number == number && at(r, usize::from(size(r).1) - 1));
    }
    for kind in LISTING {
        several("no more", 10, &|r| r.kind == kind && r.answer.number == 0 && r.answer.values[0] == 0);
        several("written", 60, &|r| r.kind == kind && r.answer.number == 0 && r.answer.values[0] == 1);
    }
}
