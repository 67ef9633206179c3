//! Division rules read wrongly: each way that could be had by mistake gives another answer than at least three stored vectors. And the chains of divisions.

mod literal;

use literal::calls::{self, entries};
use literal::{Dividing, Division, Literal, Quotient};
use second::compose::{compose, USUAL_SIZE};
use second::pair::write_pair;
use second::reader::number16;
use second::rules::{Step, DIGITS, NONZERO, QUOTIENT, SUM};
use second::sheet::NO_TAGS;
use second::solver::{derive, longest};
use second::vectors::{Answer, Record, DERIVATION, SOLVE};
use second::{check_derivation, check_pair, read_circuit, solve, worst, Refusal};

const RIGHT: Dividing = Dividing::RIGHT;

/// The stored solver calls and derivations that come to their steps, on circuits that aren't large.
fn stored() -> Vec<Record> {
    let mut stored = compose(1, USUAL_SIZE);
    let judged = |record: &Record| [0, 15, 16, 17, 29].contains(&record.answer.number) && [DERIVATION, SOLVE].contains(&record.kind);
    let small = |record: &Record| record.circuit.len() < 250 && number16(&record.circuit, 9) < 12 && record.hand_in.len() < 300;
    stored.retain(|record| judged(record) && small(record));
    stored
}

/// The answer of the derivation call or the solver by a reading of the division rules.
fn answer(record: &Record, dividing: Dividing) -> Answer {
    let (circuit, tags) = (read_circuit(&record.circuit).unwrap(), entries(&record.sheet));
    calls::answer(record, &Literal::new(&circuit, &tags).dividing(dividing))
}

/// How many stored calls of this kind get another answer.
fn told(stored: &[Record], kind: u8, dividing: Dividing) -> usize {
    stored.iter().filter(|record| record.kind == kind && answer(record, dividing) != record.answer).count()
}

#[test]
fn the_right_reading_gives_every_stored_answer() {
    let stored = stored();
    assert!(stored.len() > 3000, "{}", stored.len());
    assert_eq!([DERIVATION, SOLVE].map(|kind| told(&stored, kind, RIGHT)), [0; 2]);
}

type Reading = fn(&Division) -> bool;

/// The target is A or B, but for a factor.
fn target_alone(at: &Division) -> bool {
    at.either(|one, _| at.alone(one, at.target))
}

/// C is a constant other than 0.
fn constant(at: &Division) -> bool {
    at.alone(2, 0)
}

/// Whether a form has no other numbers than these.
fn no_more(at: &Division, form: usize, numbers: &[u16]) -> bool {
    at.forms[form].iter().all(|number| numbers.contains(number))
}

/// Wrong readings of rule 4.8.
const NONZEROS: [(&str, Reading); 16] = [
    ("never", |_| false),
    ("C may be 0", |at| target_alone(at) && (constant(at) || at.forms[2].is_empty())),
    ("C may have signals besides its constant", |at| target_alone(at) && at.forms[2].contains(&0)),
    ("C may be one signal", |at| target_alone(at) && at.forms[2].len() == 1),
    ("C may be anything but 0", |at| target_alone(at) && !at.forms[2].is_empty()),
    ("a constant beside the target", |at| {
        constant(at) && at.either(|one, _| at.forms[one].contains(&at.target) && no_more(at, one, &[0, at.target]))
    }),
    ("signals beside the target", |at| constant(at) && at.either(|one, _| at.forms[one].contains(&at.target) && !at.forms[one].contains(&0))),
    ("anything beside the target", |at| constant(at) && at.either(|one, _| at.forms[one].contains(&at.target))),
    ("A alone", |at| constant(at) && at.alone(0, at.target)),
    ("B alone", |at| constant(at) && at.alone(1, at.target)),
    ("both", |at| constant(at) && at.alone(0, at.target) && at.alone(1, at.target)),
    ("not where the other form is a constant", |at| (RIGHT.nonzero)(at) && !at.either(|one, _| no_more(at, one, &[0]))),
    ("the other form alone too", |at| (RIGHT.nonzero)(at) && (0..2).all(|form| at.forms[form].len() == 1)),
    ("a marked target alone", |at| (RIGHT.nonzero)(at) && at.standing.marked.contains(&at.target)),
    ("an unmarked target alone", |at| (RIGHT.nonzero)(at) && !at.standing.marked.contains(&at.target)),
    ("the others marked", |at| (RIGHT.nonzero)(at) && (0..2).all(|form| at.others_marked(form))),
];

/// The rule with something more asked.
const fn more(more: Reading) -> Quotient {
    Quotient { more, ..Quotient::RIGHT }
}

/// The rule with something else asked of the other signals.
const fn others(others: Reading) -> Quotient {
    Quotient { others, ..Quotient::RIGHT }
}

/// Whether all signals of a form but target and reference are marked.
fn rest_marked(at: &Division, form: usize) -> bool {
    at.forms[form].iter().all(|signal| [0, at.target, at.reference].contains(signal) || at.standing.marked.contains(signal))
}

/// Wrong readings of rule 4.9.
const QUOTIENTS: [(&str, Quotient); 19] = [
    ("never", more(|_| false)),
    ("by a reference without a nonzero mark", Quotient { nonzero: |_| true, ..Quotient::RIGHT }),
    (
        "by a reference that has a nonzero mark alone",
        Quotient { marked: |_| true, others: |at| (0..3).all(|form| rest_marked(at, form)), ..Quotient::RIGHT },
    ),
    // So that roots are quotients.
    (
        "by its own target, marked or not",
        Quotient { other: |_| true, marked: |at| at.reference == at.target || at.standing.marked.contains(&at.reference), ..Quotient::RIGHT },
    ),
    ("the target in C too", Quotient { product: |_| true, ..Quotient::RIGHT }),
    (
        "a constant beside the reference",
        Quotient { divisor: |at, form| at.forms[form].contains(&at.reference) && no_more(at, form, &[0, at.reference]), ..Quotient::RIGHT },
    ),
    ("anything beside the reference", Quotient { divisor: |at, form| at.forms[form].contains(&at.reference), ..Quotient::RIGHT }),
    ("the reference in A", more(|at| at.alone(0, at.reference))),
    ("the reference in B", more(|at| at.alone(1, at.reference))),
    ("unmarked signals beside the target", others(|at| at.others_marked(2))),
    ("unmarked signals in C", others(|at| at.others_marked(0) && at.others_marked(1))),
    ("the target alone", more(target_alone)),
    ("C without signals", more(|at| no_more(at, 2, &[0]))),
    ("C not 0", more(|at| !at.forms[2].is_empty())),
    ("C without a constant", more(|at| !at.forms[2].contains(&0))),
    ("the reference in no other form", more(|at| at.forms.iter().filter(|form| form.contains(&at.reference)).count() == 1)),
    ("by a signal other than 1", more(|at| at.reference > 1)),
    ("by a reference below the target alone", more(|at| at.reference < at.target)),
    ("a target with a nonzero mark", more(|at| at.standing.nonzero.contains(&at.target))),
];

/// Each of these readings gives another answer than at least three stored vectors of each call.
fn all_are_told(readings: impl IntoIterator<Item = (&'static str, Dividing)>) {
    let stored = stored();
    for (name, reading) in readings {
        for kind in [DERIVATION, SOLVE] {
            let count = told(&stored, kind, reading);
            assert!(count >= 3, "{name} in call {kind}: {count}");
        }
    }
}

#[test]
fn wrong_nonzero_marks_are_told() {
    all_are_told(NONZEROS.map(|(name, nonzero)| (name, Dividing { nonzero, ..RIGHT })));
}

#[test]
fn wrong_quotients_are_told() {
    all_are_told(QUOTIENTS.map(|(name, quotient)| (name, Dividing { quotient, ..RIGHT })));
}

#[test]
fn chains_of_divisions() {
    let circuit = worst::division_chain();
    let read = read_circuit(&circuit).unwrap();
    let nonzero = |signal: u16, constraint: u16| Step::new(NONZERO, signal, constraint, 0);
    let marks: Vec<Step> = (1..=256).map(|signal| nonzero(signal, if signal < 256 { 256 - signal } else { 1 })).collect();
    let quotients: Vec<Step> = (2..=256).map(|signal| Step::new(QUOTIENT, signal, 257 - signal, signal - 1)).collect();
    // The lowest constraint that names a signal is the one that it has with the next one.
    assert_eq!(derive(&read, &[]).0, [marks, quotients].concat());
    let circuit = worst::divisions_behind_decoys();
    let (steps, standing) = derive(&read_circuit(&circuit).unwrap(), &[]);
    assert!(circuit.len() <= 60_000 && standing.count() == 256);
    // The run of ones satisfies it: a pair of it is refused only since both agree.
    assert_eq!(check_pair(&circuit, NO_TAGS, &write_pair(1, &[1; 256], &[1; 256])), Err(Refusal { number: 24, place: 1 }));
    let of_kind = |kind: u8| steps.iter().filter(|step| step.kind == kind).count();
    assert_eq!([SUM, NONZERO, DIGITS, QUOTIENT].map(of_kind), [1, 256, 1, 254]);
    let mut out = vec![0; longest(256)];
    let (judgement, length) = solve(&circuit, NO_TAGS, &mut out).unwrap();
    assert_eq!(check_derivation(&circuit, NO_TAGS, &out[..length], &mut [0; 256]), Ok(judgement));
}
