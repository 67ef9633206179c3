//! Idle steps and the renewal: what a renewal must give, on thousands of random derivations; and each way in which either could be read wrongly gives another
//! answer than at least three stored vectors.

mod literal;

use literal::calls::entries;
use literal::{Literal, Standing, Tagging};
use second::compose::{compose, USUAL_SIZE};
use second::falling::{self, Falling};
use second::generate::{any, small};
use second::grow::grown;
use second::hand_in::{padded, random_derivation, random_tags, with_idle_steps};
use second::marker::{read_steps, write_steps, MOST_STEPS};
use second::random::Random;
use second::reader::number16;
use second::rules::{Rules, Step, DIGITS, NONZERO, PRODUCT, QUOTIENT, ROOT, STEPS, SUM, ZERO};
use second::sheet::{write_sheet, Tag, NO_TAGS};
use second::solver::derive;
use second::vectors::{Answer, Record, DERIVATION, RENEW};
use second::{check_derivation, read_circuit, renew, Circuit, Refusal};

/// The numbers of the steps after which the standing is another one, and the standing at the end.
fn changing(literal: &Literal, steps: &[Step]) -> (Vec<usize>, Standing) {
    let (mut numbers, mut standing) = (Vec::new(), literal.start());
    for (number, &step) in (1..).zip(steps) {
        let next = literal.take(&standing, step).unwrap();
        if next != standing {
            numbers.push(number);
        }
        standing = next;
    }
    (numbers, standing)
}

/// What a renewal writes; what lies beyond stays.
fn renewed(bytes: &[u8], sheet: &[u8], derivation: &[u8]) -> Vec<u8> {
    let mut output = vec![9; derivation.len() + 3];
    let length = renew(bytes, sheet, derivation, &mut output).unwrap();
    assert!(output[length..].iter().all(|&byte| byte == 9));
    output.truncate(length);
    output
}

/// A derivation whose steps are all met is renewed as it must be. Answers how many steps were idle.
fn assert_renewed(bytes: &[u8], circuit: &Circuit, tags: &[Tag], steps: &[Step]) -> usize {
    let (literal, sheet, given) = (Literal::new(circuit, tags), write_sheet(tags), write_steps(steps));
    let (numbers, reached) = changing(&literal, steps);
    let kept: Vec<Step> = numbers.iter().map(|number| steps[number - 1]).collect();
    let new = renewed(bytes, &sheet, &given);
    assert_eq!(new, write_steps(&kept), "{steps:?} in {circuit:?}");
    // Equal bounds and marks, nothing idle left, accepted; and once more it stays as it is.
    assert_eq!(changing(&literal, &kept), ((1..=kept.len()).collect(), reached.clone()));
    let mut marks = vec![9; usize::from(circuit.signals)];
    let judgement = check_derivation(bytes, &sheet, &new, &mut marks).unwrap();
    assert_eq!([judgement.count, judgement.fixed.into(), judgement.shown, judgement.unshown].map(|number| number as u32), literal.judge(&reached));
    assert!((1..).zip(&marks).all(|(signal, &mark)| mark == u8::from(reached.marked.contains(&signal))));
    assert_eq!(renewed(bytes, &sheet, &new), new);
    // The given one is accepted if nothing was idle, and then comes back byte for byte; else it is refused at the first idle step.
    let first = (1..=steps.len()).find(|number| !numbers.contains(number));
    let answer = check_derivation(bytes, &sheet, &given, &mut marks);
    assert_eq!(answer, first.map_or(Ok(judgement), |number| Err(Refusal { number: 29, place: number as u32 })));
    assert_eq!(new == given, first.is_none());
    steps.len() - kept.len()
}

#[test]
fn random_derivations_are_renewed() {
    let mut rng = Random::new(2031);
    let (mut idle, mut whole, mut again) = (0, 0, 0);
    for round in 0..2000 {
        let bytes = match round % 4 {
            0 => any(&mut rng, 8),
            1 => grown(&mut rng, 31, 10),
            _ => small(&mut rng),
        };
        let circuit = read_circuit(&bytes).unwrap();
        let tags = if round % 3 == 0 { Vec::new() } else { random_tags(&mut rng, &circuit) };
        let (rules, solved) = (Rules::new(&circuit), derive(&circuit, &tags).0);
        assert_eq!(assert_renewed(&bytes, &circuit, &tags, &solved), 0, "the solver writes nothing idle");
        let steps = random_derivation(&mut rng, &rules, &tags, 40);
        let length = steps.len() + rng.below(20);
        let repeated = padded(&mut rng, &steps, length);
        let strewn = with_idle_steps(&mut rng, &rules, &tags, &solved);
        assert_eq!(renewed(&bytes, &write_sheet(&tags), &write_steps(&strewn)), write_steps(&solved));
        for steps in [&steps, &repeated, &strewn] {
            let count = assert_renewed(&bytes, &circuit, &tags, steps);
            idle += count;
            whole += usize::from(count == 0 && steps.len() > 1);
        }
        // A repeated step may lower a bound once more.
        let (once, twice) = (changing(&Literal::new(&circuit, &tags), &steps).1, changing(&Literal::new(&circuit, &tags), &repeated).1);
        assert!(
            once.marked.is_subset(&twice.marked)
                && once.nonzero.is_subset(&twice.nonzero)
                && once.bounds.iter().all(|(signal, bound)| twice.bounds[signal] <= *bound)
        );
        again += usize::from(once != twice);
    }
    assert!(idle > 10_000 && whole > 150 && again > 5, "{idle} {whole} {again}");
}

#[test]
fn four_thousand_steps_of_which_none_is_idle() {
    for (Falling { circuit, derivation }, count) in [(falling::chain(), 64), (falling::wide_chain(), 0)] {
        let n = usize::from(read_circuit(&circuit).unwrap().signals);
        assert_eq!(read_steps(&derivation).unwrap().len(), MOST_STEPS);
        assert_eq!(check_derivation(&circuit, NO_TAGS, &derivation, &mut vec![0; n]).map(|judgement| judgement.count), Ok(count));
        assert_eq!(renewed(&circuit, NO_TAGS, &derivation), derivation);
    }
}

/// The stored derivations and renewals that come to their steps, on circuits that aren't large.
fn stored(kind: u8) -> Vec<Record> {
    let mut stored = compose(1, USUAL_SIZE);
    let judged = |record: &Record| [0, 15, 16, 17, 29].contains(&record.answer.number) || (record.answer.number == 25 && kind == RENEW);
    let small = |record: &Record| record.circuit.len() < 300 && number16(&record.circuit, 9) < 20 && record.hand_in.len() < 400;
    stored.retain(|record| record.kind == kind && judged(record) && small(record));
    stored
}

/// A step where it stands.
struct At<'a> {
    step: Step,
    inputs: u16,
    start: &'a Standing,
    before: &'a Standing,
    /// The standing that the step gives, if its rule is met.
    after: Option<&'a Standing>,
    /// The bound that its rule gives, whatever bound is there.
    offered: Option<i128>,
    earlier: &'a [Step],
}

/// Whether a step is idle, rightly or not.
type Idle = fn(&At) -> bool;

/// How idle steps are read, and whether they are asked for before the rule.
#[derive(Clone, Copy)]
struct Reading {
    idle: Idle,
    before_rule: bool,
    tagging: Tagging,
}

fn is_idle(at: &At) -> bool {
    at.after.is_some_and(|after| after == at.before)
}

const RIGHT: Reading = Reading { idle: is_idle, before_rule: false, tagging: Tagging::RIGHT };

/// What the steps of a record come to: those that aren't idle and the standing at the end, or the refusal; with `lenient` idle steps pass.
fn walk(circuit: &Circuit, record: &Record, reading: Reading, lenient: bool) -> Result<(Vec<Step>, Standing), Refusal> {
    let (tags, rules) = (entries(&record.sheet), Rules::new(circuit));
    let literal = Literal::with(circuit, &tags, reading.tagging);
    let (steps, start) = (read_steps(&record.hand_in).unwrap(), literal.start());
    let (mut kept, mut standing) = (Vec::new(), start.clone());
    for (index, &step) in steps.iter().enumerate() {
        let refused = |number: u16| Err(Refusal { number, place: index as u32 + 1 });
        if !STEPS.contains(&step.kind) {
            return refused(15);
        }
        if !rules.in_range(step) {
            return refused(16);
        }
        let after = literal.take(&standing, step);
        let mut high = standing.clone();
        high.bounds.insert(step.target, i128::from(circuit.field.prime()) - 1);
        let offered = literal.take(&high, step).filter(|_| step.kind <= SUM).map(|after| after.bounds[&step.target]);
        let earlier = &steps[..index];
        let idle = (reading.idle)(&At { step, inputs: circuit.inputs, start: &start, before: &standing, after: after.as_ref(), offered, earlier });
        if reading.before_rule && idle {
            return refused(29);
        }
        let Some(after) = after else { return refused(17) };
        if idle && !lenient {
            return refused(29);
        }
        kept.extend((!idle).then_some(step));
        standing = after;
    }
    Ok((kept, standing))
}

fn refused(Refusal { number, place }: Refusal) -> Answer {
    Answer { number, place, ..Answer::default() }
}

/// The derivation call's answer by a reading.
fn marked(record: &Record, reading: Reading) -> Answer {
    let circuit = read_circuit(&record.circuit).unwrap();
    walk(&circuit, record, reading, false).map_or_else(refused, |(_, standing)| {
        let [count, fixed, shown, unshown] = Literal::new(&circuit, &entries(&record.sheet)).judge(&standing);
        let written = circuit.all_signals().map(|signal| u8::from(standing.marked.contains(&signal))).collect();
        Answer { values: [count, fixed, shown, unshown, 0], written, ..Answer::default() }
    })
}

/// A renewal's lengths: the buffer's, the given derivation's, the new one's, and n.
struct Lengths {
    lent: usize,
    given: usize,
    new: usize,
    n: usize,
}

/// How a renewal is read.
#[derive(Clone, Copy)]
struct Renewal {
    steps: Reading,
    /// Whether idle steps pass.
    lenient: bool,
    /// Whether the buffer is too short.
    short: fn(&Lengths) -> bool,
    /// All that is written, from what should be and what was given, into a buffer of this length.
    written: fn(Vec<u8>, &[u8], usize) -> Vec<u8>,
}

const RENEWAL: Renewal = Renewal { steps: RIGHT, lenient: true, short: |lengths| lengths.lent < lengths.given, written: |new, _, _| new };

/// The renewal call's answer by a reading.
fn renewal(record: &Record, reading: Renewal) -> Answer {
    let circuit = read_circuit(&record.circuit).unwrap();
    let (lent, given) = (record.lent as usize, record.hand_in.len());
    walk(&circuit, record, reading.steps, reading.lenient).map_or_else(refused, |(kept, _)| {
        let new = write_steps(&kept);
        if (reading.short)(&Lengths { lent, given, new: new.len(), n: circuit.signals.into() }) {
            return refused(Refusal { number: 25, place: 0 });
        }
        Answer { values: [new.len() as u32, 0, 0, 0, 0], written: (reading.written)(new, &record.hand_in, lent), ..Answer::default() }
    })
}

/// How many stored derivations get another answer.
fn told(stored: &[Record], reading: Reading) -> usize {
    stored.iter().filter(|record| marked(record, reading) != record.answer).count()
}

/// How many stored renewals get another answer.
fn renewed_otherwise(stored: &[Record], reading: Renewal) -> usize {
    stored.iter().filter(|record| renewal(record, reading) != record.answer).count()
}

#[test]
fn the_right_reading_gives_every_stored_answer() {
    let (marks, renewals) = (stored(DERIVATION), stored(RENEW));
    assert!(marks.len() > 1000 && renewals.len() > 800, "{} {}", marks.len(), renewals.len());
    assert_eq!(told(&marks, RIGHT), 0);
    assert_eq!(renewed_otherwise(&renewals, RENEWAL), 0);
}

/// Readings of "idle" that are wrong for the marker and for a renewal alike.
const WRONG: [(&str, Idle); 22] = [
    ("never", |_| false),
    ("no root", |at| is_idle(at) && at.step.kind != ROOT),
    ("no sum", |at| is_idle(at) && at.step.kind != SUM),
    ("no zero", |at| is_idle(at) && at.step.kind != ZERO),
    ("no product", |at| is_idle(at) && at.step.kind != PRODUCT),
    ("no digits", |at| is_idle(at) && at.step.kind != DIGITS),
    ("no nonzero", |at| is_idle(at) && at.step.kind != NONZERO),
    ("no quotient", |at| is_idle(at) && at.step.kind != QUOTIENT),
    ("not by an equal bound", |at| is_idle(at) && at.offered != Some(at.before.bounds[&at.step.target])),
    ("not by a higher bound", |at| is_idle(at) && at.offered.is_none_or(|bound| bound == at.before.bounds[&at.step.target])),
    ("no zero on a tagged input", |at| is_idle(at) && (at.step.kind != ZERO || at.step.target > at.inputs)),
    ("no mark on an input", |at| is_idle(at) && (at.step.kind <= SUM || at.step.target > at.inputs)),
    ("by bounds and marks, without nonzero marks", |at| {
        at.after.is_some_and(|after| (&after.bounds, &after.marked) == (&at.before.bounds, &at.before.marked))
    }),
    ("nonzero on a marked target", |at| is_idle(at) || (at.step.kind == NONZERO && at.before.marked.contains(&at.step.target))),
    ("nonzero on an input", |at| is_idle(at) || (at.step.kind == NONZERO && at.step.target <= at.inputs)),
    ("by the bounds alone", |at| at.after.is_some_and(|after| after.bounds == at.before.bounds)),
    ("by the marks alone", |at| at.after.is_some_and(|after| after.marked == at.before.marked)),
    ("against the start", |at| at.after.is_some_and(|after| after == at.start)),
    ("the same step again", |at| at.earlier.contains(&at.step)),
    ("the same step right before", |at| at.earlier.last() == Some(&at.step)),
    ("kind and target again", |at| at.earlier.iter().any(|step| (step.kind, step.target) == (at.step.kind, at.step.target))),
    ("a bound lowered again", |at| is_idle(at) || (at.step.kind <= SUM && at.before.bounds[&at.step.target] < at.start.bounds[&at.step.target])),
];

#[test]
fn wrong_readings_of_idle_are_told() {
    let (marks, renewals) = (stored(DERIVATION), stored(RENEW));
    for (name, idle) in WRONG {
        let count = told(&marks, Reading { idle, ..RIGHT });
        assert!(count >= 3, "{name} in derivations: {count}");
        let count = renewed_otherwise(&renewals, Renewal { steps: Reading { idle, ..RIGHT }, ..RENEWAL });
        assert!(count >= 3, "{name} in renewals: {count}");
    }
}

#[test]
fn the_rule_comes_before_idleness() {
    let marks = stored(DERIVATION);
    let readings: [(&str, Idle); 5] = [
        ("where nothing changes", |at| at.after.is_none_or(|after| after == at.before)),
        ("on a marked target", |at| is_idle(at) || (at.step.kind > SUM && at.before.marked.contains(&at.step.target))),
        ("on an input", |at| is_idle(at) || (at.step.kind > SUM && at.step.target <= at.inputs)),
        ("where the bound is 0", |at| is_idle(at) || (at.step.kind <= SUM && at.before.bounds[&at.step.target] == 0)),
        ("where the bound has fallen", |at| is_idle(at) || (at.step.kind == SUM && at.after.is_none() && at.before != at.start)),
    ];
    for (name, idle) in readings {
        let count = told(&marks, Reading { idle, before_rule: true, ..RIGHT });
        assert!(count >= 3, "29 {name}: {count}");
    }
}

/// A derivation without its nonzero steps.
fn without_nonzero(derivation: &[u8]) -> Vec<u8> {
    let mut steps = read_steps(derivation).unwrap();
    steps.retain(|step| step.kind != NONZERO);
    write_steps(&steps)
}

#[test]
fn wrong_renewals_are_told() {
    let renewals = stored(RENEW);
    let short = |short: fn(&Lengths) -> bool| Renewal { short, ..RENEWAL };
    let written = |written: fn(Vec<u8>, &[u8], usize) -> Vec<u8>| Renewal { written, ..RENEWAL };
    let tagging = Tagging { first: |most, _, _| most, ..Tagging::RIGHT };
    let readings = [
        ("refuses idle steps", Renewal { lenient: false, ..RENEWAL }),
        ("without the tags' first bounds", Renewal { steps: Reading { tagging, ..RIGHT }, ..RENEWAL }),
        ("25 by the new length", short(|lengths| lengths.lent < lengths.new)),
        ("25 by n", short(|lengths| lengths.lent < lengths.n)),
        ("25 as the solver's", short(|lengths| lengths.lent < 7 + 21 * lengths.n)),
        ("no nonzero steps", written(|new, _, _| without_nonzero(&new))),
        ("never 25", short(|_| false)),
        ("25 one too late", short(|lengths| lengths.lent + 1 < lengths.given)),
        ("25 one too early", short(|lengths| lengths.lent <= lengths.given)),
        ("the count that was given", written(|new, given, _| [&new[..5], &given[5..7], &new[7..]].concat())),
        ("zeros to the buffer's end", written(|new, _, lent| [&new[..], &vec![0; lent - new.len()]].concat())),
        ("zeros to the given length", written(|new, given, _| [&new[..], &vec![0; given.len() - new.len()]].concat())),
        ("the given bytes left behind", written(|new, given, _| [&new[..], &given[new.len()..]].concat())),
        ("steps where they stood", written(|new, given, _| if new.len() < given.len() { given.to_vec() } else { new })),
        ("no steps", written(|new, _, _| new[..7].to_vec())),
    ];
    for (name, reading) in readings {
        let count = renewed_otherwise(&renewals, reading);
        assert!(count >= 3, "{name}: {count}");
    }
}

/// Refused renewals that had something to write, and room for it: what a renewal that writes too early would have left there.
#[test]
fn renewals_that_write_before_they_refuse_are_told() {
    let renewals = stored(RENEW);
    let several = |what: &str, test: &dyn Fn(&Record) -> bool| {
        let count = renewals.iter().filter(|record| test(record)).count();
        assert!(count >= 3, "{what}: {count}");
    };
    for number in 15..=17 {
        several("a later step is refused", &|r| r.answer.number == number && r.answer.place > 2 && r.lent >= 21);
    }
    several("what is left would fit", &|r| {
        let whole = Record { lent: r.hand_in.len() as u32, ..r.clone() };
        r.answer.number == 25 && r.lent >= renewal(&whole, RENEWAL).values[0] && renewal(&whole, RENEWAL).values[0] > 7
    });
}
