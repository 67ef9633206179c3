//! Wrong orders: each that could be had by mistake gives another answer than some stored vector. The refusals' checks in another order, the solver's ties
//! decided the other way.

mod literal;

use literal::calls::{before, entries, refusal, right, stage, Found, Order};
use literal::{Literal, Orders, Phase};
use second::compose::{compose, USUAL_SIZE};
use second::marker::write_steps;
use second::read_circuit;
use second::reader::number16;
use second::two_faults::{self, Call, Fault, Pair};
use second::vectors::{answer, Record, DERIVATION, FIRST_RUN, KINDS, LISTING, NEXT_RUN, PAIR, RENEW, SOLVE, WATCH, WITH_SHEET};

/// The vectors as they are stored.
fn stored() -> Vec<Record> {
    compose(1, USUAL_SIZE)
}

/// The numbers of the refusals that a call can meet, in the order in which they are asked.
fn numbers(kind: u8) -> Vec<u16> {
    let own: &[u16] = match kind {
        DERIVATION => &[26, 27, 11, 12, 13, 14, 15, 16, 17, 29],
        PAIR => &[26, 27, 18, 19, 20, 21, 22, 23, 28, 24],
        SOLVE => &[26, 27, 25],
        RENEW => &[26, 27, 11, 12, 13, 15, 16, 17, 25],
        FIRST_RUN | NEXT_RUN => &[30, 31],
        WATCH => &[32, 33, 34],
        _ => &[],
    };
    (1..=10).chain(own.iter().copied()).collect()
}

fn found(record: &Record) -> Found {
    (record.answer.number, record.answer.place)
}

fn answered(call: &Call) -> Found {
    let answer = answer(call.kind, &call.circuit, &call.sheet, &call.hand_in, call.lent);
    (answer.number, answer.place)
}

#[test]
fn each_fault_alone_gets_its_refusal() {
    for kind in KINDS {
        assert_eq!(answered(&two_faults::good(kind)).0, 0);
        for fault in two_faults::CIRCUIT.iter().chain(two_faults::beyond_circuit(kind)) {
            assert_eq!(answered(&two_faults::with(kind, fault)), (fault.number, fault.place));
        }
    }
}

#[test]
fn of_two_faults_the_first_is_answered_and_stored() {
    let stored = stored();
    for Pair { call, faults: [x, y] } in two_faults::pairs() {
        let first = if x.order() <= y.order() { x } else { y };
        let expected = (first.number, first.place);
        assert_eq!(answered(&call), expected, "{} and {}", x.number, y.number);
        let is_this = |r: &Record| {
            (r.kind, r.lent) == (call.kind, call.lent as u32) && r.circuit == call.circuit && r.sheet == call.sheet && r.hand_in == call.hand_in
        };
        assert!(stored.iter().any(|record| is_this(record) && found(record) == expected));
    }
}

/// Faults of which a call can't have both. 6 is the file's end: what would come after it isn't there. 1 with 6 to 10 is a file that is too long: with 6 to 9
/// in one file, with 10 in another.
fn cannot_stand_together(x: u16, y: u16) -> bool {
    [(6, 10), (1, 6), (1, 7), (1, 8), (1, 9), (1, 10)].contains(&(x, y))
}

/// Numbers with a place of which a call can have several.
const SEVERAL: [u16; 14] = [7, 8, 9, 15, 16, 17, 21, 22, 23, 27, 28, 29, 31, 33];

#[test]
fn every_two_refusals_are_there() {
    let pairs = two_faults::pairs();
    let there = |kind: u8, test: &dyn Fn(&Fault, &Fault) -> bool| {
        pairs.iter().any(|Pair { call, faults: [x, y] }| call.kind == kind && (test(x, y) || test(y, x)))
    };
    for kind in KINDS {
        for (at, &x) in numbers(kind).iter().enumerate() {
            for &y in &numbers(kind)[at + 1..] {
                assert!(cannot_stand_together(x, y) || there(kind, &|a, b| (a.number, b.number) == (x, y)), "{x} and {y} in call {kind}");
            }
            let several = SEVERAL.contains(&x) && (kind, x) != (FIRST_RUN, 31);
            assert!(!several || there(kind, &|a, b| a.number == x && b.number == x), "{x} twice in call {kind}");
        }
        // Of 7, 8 and 9 each comes first, and each is followed by 6; a term that is cut off may have an 8 too.
        for (x, y) in [(7, 6), (7, 8), (7, 9), (8, 6), (8, 7), (8, 9), (9, 6), (9, 7), (9, 8)] {
            assert!(there(kind, &|a, b| (a.number, b.number) == (x, y) && a.place < b.place), "{x} before {y}");
        }
        assert!(there(kind, &|a, b| (a.number, b.number) == (6, 8) && a.place == b.place));
        assert!(there(kind, &|a, b| (a.number, b.number) == (8, 9) && a.place == b.place));
    }
    // Within one step, and in two steps either way. A kind that there isn't has no rule, and a rule that isn't met no idle step.
    let (both, marked) = ([DERIVATION, RENEW], [DERIVATION]);
    for (x, y, kinds, in_one) in [
        (15, 16, &both[..], true),
        (15, 17, &both, true),
        (16, 17, &both, true),
        (15, 29, &marked, false),
        (16, 29, &marked, true),
        (17, 29, &marked, false),
    ] {
        for &kind in kinds {
            assert!(!in_one || there(kind, &|a, b| (a.number, b.number) == (x, y) && a.place == b.place), "{x} and {y} in one step");
            assert!(there(kind, &|a, b| (a.number, b.number) == (x, y) && a.place < b.place), "{x} before {y}");
            assert!(there(kind, &|a, b| (a.number, b.number) == (x, y) && a.place > b.place), "{y} before {x}");
        }
    }
    // Inputs that differ before one that breaks its tag, and after it.
    assert!(there(PAIR, &|a, b| (a.number, b.number) == (23, 28) && a.place < b.place));
    assert!(there(PAIR, &|a, b| (a.number, b.number) == (23, 28) && a.place > b.place));
    // A wrong length of either and a wrong value, and two wrong values.
    let unfit = |a: &Fault, b: &Fault| (a.number, b.number) == (31, 31) && a.place < b.place;
    assert!(there(NEXT_RUN, &|a, b| unfit(a, b) && a.place == 0));
    assert!(there(NEXT_RUN, &|a, b| unfit(a, b) && a.place > 0));
    for kind in LISTING {
        assert!(there(kind, &|a, b| (a.number, b.number) == (30, 31) && b.place == 0));
    }
    assert!(there(NEXT_RUN, &|a, b| (a.number, b.number) == (30, 31) && b.place > 0));
}

#[test]
fn a_circuit_that_is_too_long_has_every_other_fault() {
    let stored = stored();
    let told = |kind: u8, numbers: &[u16]| {
        let has = |record: &&Record| numbers.iter().all(|&y| refusal(record, |found| before(found, y, 1)) == refusal_of(record, y));
        stored.iter().filter(|record| record.kind == kind && record.circuit.len() == 60_001 && found(record) == (1, 0)).any(|record| has(&record))
    };
    for kind in KINDS {
        assert!(told(kind, &[2, 3, 4, 5, 6, 7, 8, 9]));
        assert!(told(kind, &[10]));
    }
    let beyond = [(DERIVATION, 11..=16), (PAIR, 18..=21), (SOLVE, 25..=25), (RENEW, 11..=13), (RENEW, 15..=16), (RENEW, 25..=25)];
    for (kind, numbers) in beyond.into_iter().chain([(FIRST_RUN, 30..=31), (NEXT_RUN, 30..=31), (WATCH, 32..=34)]) {
        numbers.for_each(|number| assert!(told(kind, &[number]), "{number}"));
    }
    for kind in WITH_SHEET {
        (26..=27).for_each(|number| assert!(told(kind, &[number]), "{number}"));
    }
}

#[test]
fn a_form_with_too_many_terms_and_a_byte_too_many() {
    let both = |record: &&Record| found(record) == (7, 18) && refusal(record, |found| before(found, 10, 7)).0 == 10;
    let stored = stored();
    for kind in KINDS {
        assert!(stored.iter().filter(|record| record.kind == kind).any(|record| both(&record)), "call {kind}");
    }
}

/// The first fault of this number, which there is.
fn refusal_of(record: &Record, number: u16) -> Found {
    let found = refusal(record, |found| if found.0 == number { (0, found.1, 0) } else { (1, 0, 0) });
    if found.0 == number {
        found
    } else {
        (number, u32::MAX)
    }
}

#[test]
fn the_right_order_gives_every_stored_refusal() {
    for record in stored() {
        assert_eq!(refusal(&record, right), found(&record), "{record:?}");
    }
}

/// How many stored vectors another order of refusals would answer otherwise.
fn told(stored: &[Record], order: impl Fn(&Record, Found) -> Order) -> usize {
    stored.iter().filter(|record| refusal(record, |found| order(record, found)) != found(record)).count()
}

#[test]
fn wrong_orders_of_refusals_are_told() {
    let stored = stored();
    let of = |test: &dyn Fn(&Record, Found) -> Order| told(&stored, test);
    let wrong = [
        ("2 before 1 on a long file", of(&|record, found| if record.circuit.len() > 60_000 { before(found, 2, 1) } else { right(found) })),
        ("3 before 2", of(&|_, found| before(found, 3, 2))),
        ("4 before 3", of(&|_, found| before(found, 4, 3))),
        ("5 before 4", of(&|_, found| before(found, 5, 4))),
        ("all kinds before any rule", of(&|_, found| before(found, 15, 15))),
        ("all fields before any rule", of(&|_, found| if found.0 == 16 { before(found, 16, 15) } else { before(found, 15, 15) })),
        ("16 before 15 in a step", of(&|_, found| if found.0 == 16 { (stage(15), found.1, 14) } else { right(found) })),
        ("17 before 16 in a step", of(&|_, found| if found.0 == 17 { (stage(15), found.1, 15) } else { right(found) })),
        ("22 by constraint over both runs", of(&|record, found| if found.0 == 22 { by_constraint(record, found) } else { right(found) })),
        ("22 in the second run first", of(&|_, found| if found.0 == 22 { (stage(22), u32::MAX - found.1, 22) } else { right(found) })),
        ("9 before 8 at a term", of(&|_, found| if found.0 == 9 { (stage(6), found.1, 7) } else { right(found) })),
        ("26 before 10", of(&|_, found| before(found, 26, 10))),
        ("26 after 11", of(&|_, found| before(found, 11, 26))),
        ("26 after 18", of(&|_, found| before(found, 18, 26))),
        ("26 after 25", of(&|_, found| before(found, 25, 26))),
        ("27 before 26", of(&|_, found| before(found, 27, 26))),
        ("27 after 11", of(&|_, found| before(found, 11, 27))),
        ("27 after 14", of(&|_, found| before(found, 14, 27))),
        ("27 after 18", of(&|_, found| before(found, 18, 27))),
        ("27 after 25", of(&|_, found| before(found, 25, 27))),
        ("the last entry of 27", of(&|_, found| if found.0 == 27 { (stage(27), u32::MAX - found.1, 27) } else { right(found) })),
        ("28 before 23", of(&|_, found| before(found, 28, 23))),
        ("28 with 23, input by input", of(&|_, found| if found.0 == 28 { (stage(23), found.1, 28) } else { right(found) })),
        ("28 after 24", of(&|_, found| before(found, 24, 28))),
        ("28 before 22", of(&|_, found| before(found, 28, 22))),
        ("28 with the sheet", of(&|_, found| before(found, 28, 18))),
        ("the highest input of 28", of(&|_, found| if found.0 == 28 { (stage(28), u32::MAX - found.1, 28) } else { right(found) })),
        ("29 before 16 in a step", of(&|_, found| if found.0 == 29 { (stage(15), found.1, 15) } else { right(found) })),
        ("29 before 14", of(&|_, found| before(found, 29, 14))),
        ("29 before any 15", of(&|_, found| before(found, 29, 15))),
        ("29 after all steps", of(&|_, found| if found.0 == 29 { (stage(15) + 1, found.1, 29) } else { right(found) })),
        ("the last step of 29", of(&|_, found| if found.0 == 29 { (stage(15) + 1, u32::MAX - found.1, 29) } else { right(found) })),
        ("25 before 11", of(&|record, found| if record.kind == RENEW { before(found, 25, 11) } else { right(found) })),
        ("25 before 15", of(&|record, found| if record.kind == RENEW { before(found, 25, 15) } else { right(found) })),
        ("25 before 17 at the last step", of(&|record, found| if record.kind == RENEW { before_last(record, found) } else { right(found) })),
        ("30 before 10", of(&|_, found| before(found, 30, 10))),
        ("30 with the header", of(&|_, found| if found.0 == 30 { (stage(5) + 1, 0, 30) } else { right(found) })),
        ("31 before 30", of(&|_, found| before(found, 31, 30))),
        ("31 before 10", of(&|_, found| before(found, 31, 10))),
        ("values before lengths", of(&|_, found| if found.0 == 31 && found.1 > 0 { (stage(31) - 1, found.1, 31) } else { right(found) })),
        ("lengths before 30, values after it", of(&|_, found| if found == (31, 0) { (stage(30) - 1, 0, 31) } else { right(found) })),
        (
            "values before 30, lengths after it",
            of(&|_, found| if found.0 == 31 && found.1 > 0 { (stage(30) - 1, found.1, 31) } else { right(found) }),
        ),
        ("the highest signal of 31", of(&|_, found| if found.0 == 31 { (stage(31), found.1.wrapping_neg(), 31) } else { right(found) })),
        ("32 before 10", of(&|_, found| before(found, 32, 10))),
        ("33 before 10", of(&|_, found| before(found, 33, 10))),
        ("34 before 10", of(&|_, found| before(found, 34, 10))),
        ("34 with the header", of(&|_, found| if found.0 == 34 { (stage(5) + 1, 0, 34) } else { right(found) })),
        ("33 before 32", of(&|_, found| before(found, 33, 32))),
        ("34 before 32", of(&|_, found| before(found, 34, 32))),
        ("34 before 33", of(&|_, found| before(found, 34, 33))),
        ("the last record of 33", of(&|_, found| if found.0 == 33 { (stage(33), found.1.wrapping_neg(), 33) } else { right(found) })),
        ("8 before 6 at a term", of(&|_, found| if found.0 == 8 { (stage(6), found.1, 5) } else { right(found) })),
    ];
    for (name, count) in wrong {
        assert!(count >= 3, "{name}: {count}");
    }
}

/// 25 right before the rule of the last step.
fn before_last(record: &Record, found: Found) -> Order {
    match found.0 {
        25 => (stage(15), (record.hand_in.len() as u32 / 7).saturating_sub(1), 16),
        _ => right(found),
    }
}

/// A constraint in the first run, then in the second, then the next constraint.
fn by_constraint(record: &Record, (_, place): Found) -> Order {
    let m = read_circuit(&record.circuit).unwrap().constraints.len() as u32;
    (stage(22), (place - 1) % m, place)
}

/// Numbers of which one is moved before another without a vector that could tell: the file's end comes last in it; a rule or a run is judged only on a
/// circuit.
fn cannot_be_told(x: u16, y: u16) -> bool {
    [(6, 7), (6, 9), (6, 10)].contains(&(x, y)) || (x <= 10 && [17, 22, 29].contains(&y))
}

#[test]
fn every_number_moved_up_is_told_in_every_call() {
    let stored = stored();
    for kind in KINDS {
        let of_kind: Vec<Record> = stored.iter().filter(|record| record.kind == kind && record.answer.number != 0).cloned().collect();
        for (at, &x) in numbers(kind).iter().enumerate() {
            for &y in &numbers(kind)[at + 1..] {
                let count = told(&of_kind, |_, found| before(found, y, x));
                assert!(count > 0 || cannot_be_told(x, y), "{y} before {x} in call {kind}");
            }
        }
    }
}

/// How many stored vectors the solver would answer otherwise with other orders.
fn solved_otherwise(stored: &[Record], orders: &Orders) -> usize {
    let otherwise = |record: &&Record| {
        let circuit = read_circuit(&record.circuit).unwrap();
        write_steps(&Literal::new(&circuit, &entries(&record.sheet)).solve_by(orders).0) != record.answer.written
    };
    stored.iter().filter(otherwise).count()
}

#[test]
fn wrong_ties_of_the_solver_are_told() {
    let mut stored = stored();
    let small = |record: &Record| record.circuit.len() < 250 && number16(&record.circuit, 9) < 20;
    stored.retain(|record| record.kind == SOLVE && record.answer.number == 0 && small(record));
    assert_eq!(solved_otherwise(&stored, &Orders::RIGHT), 0);
    let in_bounds = |name: &'static str, bounds| (name, Orders { bounds, ..Orders::RIGHT });
    let in_marks = |name: &'static str, marks| (name, Orders { marks, ..Orders::RIGHT });
    let in_nonzero = |name: &'static str, nonzero| (name, Orders { nonzero, ..Orders::RIGHT });
    let in_phases = |name: &'static str, phases| (name, Orders { phases, ..Orders::RIGHT });
    let wrong = [
        in_phases("nonzero marks first", &[Phase::Nonzero, Phase::Bounds, Phase::Marks]),
        in_phases("nonzero marks last", &[Phase::Bounds, Phase::Marks, Phase::Nonzero]),
        in_phases("no nonzero marks", &[Phase::Bounds, Phase::Marks]),
        in_phases("marks of both sorts together", &[Phase::Bounds, Phase::Both]),
        in_nonzero("the highest target to be never 0 first", |[target, kind, constraint, reference]| [-target, kind, constraint, reference]),
        in_nonzero("constraint before target", |[target, kind, constraint, reference]| [constraint, target, kind, reference]),
        in_nonzero("the highest constraint with an inverse first", |[target, kind, constraint, reference]| [target, kind, -constraint, reference]),
        in_marks("quotient before digits", |[target, kind, constraint, reference]| [target, moved(kind, 7, 5), constraint, reference]),
        in_marks("quotient before product", |[target, kind, constraint, reference]| [target, moved(kind, 7, 4), constraint, reference]),
        in_marks("quotient before zero", |[target, kind, constraint, reference]| [target, moved(kind, 7, 3), constraint, reference]),
        in_bounds("the largest bound first", |[new, target, kind, constraint]| [-new, target, kind, constraint]),
        in_bounds("target before bound", |[new, target, kind, constraint]| [target, new, kind, constraint]),
        in_bounds("the highest target first", |[new, target, kind, constraint]| [new, -target, kind, constraint]),
        in_bounds("kind before target", |[new, target, kind, constraint]| [new, kind, target, constraint]),
        in_bounds("sum before root", |[new, target, kind, constraint]| [new, target, -kind, constraint]),
        in_bounds("constraint before kind", |[new, target, kind, constraint]| [new, target, constraint, kind]),
        in_bounds("the highest constraint first", |[new, target, kind, constraint]| [new, target, kind, -constraint]),
        in_marks("the highest target to be marked first", |[target, kind, constraint, reference]| [-target, kind, constraint, reference]),
        in_marks("kind before target to be marked", |[target, kind, constraint, reference]| [kind, target, constraint, reference]),
        in_marks("product before zero", |[target, kind, constraint, reference]| [target, moved(kind, 4, 3), constraint, reference]),
        in_marks("digits before product", |[target, kind, constraint, reference]| [target, moved(kind, 5, 4), constraint, reference]),
        in_marks("digits before zero", |[target, kind, constraint, reference]| [target, moved(kind, 5, 3), constraint, reference]),
        in_marks("constraint before kind of mark", |[target, kind, constraint, reference]| [target, constraint, kind, reference]),
        in_marks("the highest constraint that marks first", |[target, kind, constraint, reference]| [target, kind, -constraint, reference]),
        in_marks("reference before constraint", |[target, kind, constraint, reference]| [target, kind, reference, constraint]),
        in_marks("the highest reference first", |[target, kind, constraint, reference]| [target, kind, constraint, -reference]),
    ];
    for (name, orders) in wrong {
        let count = solved_otherwise(&stored, &orders);
        assert!(count >= 3, "{name}: {count}");
    }
}

/// The kinds' order, but that one comes right before another.
fn moved(kind: i128, from: i128, to: i128) -> i128 {
    2 * if kind == from { to } else { kind } - i128::from(kind == from)
}
