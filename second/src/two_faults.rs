//! Calls with two faults at once: a table of faults, each of which breaks one good call, and every two of them that can stand together.
//! A new refusal is a row, or two where its place counts.

use std::collections::BTreeSet;

use crate::marker::write_steps;
use crate::pair::write_pair;
use crate::records::pair_length;
use crate::rules::{Step, DIGITS, NONZERO, PRODUCT, QUOTIENT, ROOT, SUM, ZERO};
use crate::sheet::{write_sheet, Tag, BINARY, MAXBIT, MAXVALUE};
use crate::solver::longest;
use crate::vectors::{bytes_of, DERIVATION, FIRST_RUN, KINDS, LISTING, NEXT_RUN, PAIR, READ, RENEW, SOLVE, WATCH, WITH_SHEET};
use crate::writer::Draft;

/// A call: its kind, its circuit, the sheet or the window, what is handed in, and the length of the buffer.
#[derive(Clone, Debug, PartialEq, Eq)]
pub struct Call {
    pub kind: u8,
    pub circuit: Vec<u8>,
    pub sheet: Vec<u8>,
    pub hand_in: Vec<u8>,
    pub lent: usize,
}

/// A fault of the good call: the refusal's number and place, and how it comes about.
pub struct Fault {
    pub number: u16,
    pub place: u32,
    pub breaks: fn(&mut Call),
}

impl Fault {
    /// Least first is the checking order: 6 to 9 by place in the file, 15 to 17 and 29 by step; the sheet's 26 and 27 after 10, 28 after 23.
    pub fn order(&self) -> (u16, u32, u16) {
        match self.number {
            6..=9 => (60, self.place, self.number),
            15..=17 | 29 => (150, self.place, self.number),
            26 | 27 => (75 + self.number, self.place, 0),
            28 => (235, self.place, 0),
            number => (10 * number, self.place, 0),
        }
    }
}

const fn fault(number: u16, place: u32, breaks: fn(&mut Call)) -> Fault {
    Fault { number, place, breaks }
}

/// n of the good circuit.
const SIGNALS: usize = 9;

/// Inputs 1 to 4, outputs 5 and 6. A square that is 0 (17 to 31), a product (32 to 52), an inverse (53 to 73), an equation with a constant (74 to 94): 95
/// bytes.
fn good_circuit(p: u32) -> Vec<u8> {
    let draft = Draft::new(p, SIGNALS as u16, 4, 2).with(&[(7, 1)], &[(7, 1)], &[]).with(&[(1, 1)], &[(2, 1)], &[(5, 1)]);
    draft.with(&[(8, 1)], &[(9, 1)], &[(0, 1)]).with(&[(0, 1)], &[(0, 10), (8, 1)], &[]).bytes()
}

/// Tags on inputs 3 and 4, which stand in no constraint, and on output 6, whose value in the second run breaks it.
fn good_sheet() -> Vec<u8> {
    write_sheet(&[Tag::new(3, MAXBIT, 2), Tag::new(4, MAXVALUE, 3), Tag::new(6, BINARY, 0)])
}

/// One step of each kind, all met and none idle.
fn good_steps() -> Vec<u8> {
    let bounds = [Step::new(ROOT, 7, 1, 0), Step::new(SUM, 8, 4, 0)];
    let marks = [Step::new(ZERO, 7, 0, 0), Step::new(PRODUCT, 5, 2, 0), Step::new(DIGITS, 8, 4, 8)];
    let division = [Step::new(NONZERO, 8, 3, 0), Step::new(QUOTIENT, 9, 3, 8)];
    write_steps(&[&bounds[..], &marks, &division].concat())
}

/// Runs that differ at output 6 alone. One of inputs 1 and 2 may differ, 3 and 4 may have any values; 7, 5, 9, and 8 and 9 together each break one
/// constraint.
fn good_pair() -> Vec<u8> {
    write_pair(6, &FIRST, &SECOND)
}

const FIRST: [u32; SIGNALS] = [0, 0, 2, 3, 0, 1, 0, 3, 9];
const SECOND: [u32; SIGNALS] = [0, 0, 2, 3, 0, 2, 0, 3, 9];

/// Both runs of the good pair, and between them one that breaks a constraint.
fn good_records() -> Vec<u8> {
    bytes_of(&[FIRST, [0, 0, 2, 3, 0, 5, 1, 3, 9], SECOND].concat())
}

/// The call of this kind without a fault.
pub fn good(kind: u8) -> Call {
    let (hand_in, lent) = match kind {
        DERIVATION => (good_steps(), SIGNALS),
        RENEW => (good_steps(), good_steps().len()),
        PAIR => (good_pair(), 0),
        SOLVE => (Vec::new(), longest(SIGNALS)),
        FIRST_RUN => (Vec::new(), SIGNALS),
        NEXT_RUN => (bytes_of(&[0, 1, 2, 0, 1, 2, 0, 1, 2]), SIGNALS),
        WATCH => (good_records(), pair_length(SIGNALS)),
        _ => (Vec::new(), 0),
    };
    // Runs are listed of a small circuit.
    let p = if LISTING.contains(&kind) { 3 } else { 13 };
    let sheet = match kind {
        WATCH => 3u32.to_le_bytes().to_vec(),
        _ if WITH_SHEET.contains(&kind) => good_sheet(),
        _ => Vec::new(),
    };
    Call { kind, circuit: good_circuit(p), sheet, hand_in, lent }
}

/// Bytes in place of those at an offset, as far as there are any.
fn put(bytes: &mut [u8], at: usize, new: &[u8]) {
    bytes.iter_mut().skip(at).zip(new).for_each(|(byte, &new)| *byte = new);
}

fn circuit16(call: &mut Call, at: usize, number: u16) {
    put(&mut call.circuit, at, &number.to_le_bytes());
}

fn circuit32(call: &mut Call, at: usize, number: u32) {
    put(&mut call.circuit, at, &number.to_le_bytes());
}

/// Bytes of an entry of the sheet: from 0 its signal, from 2 its kind, from 3 its number.
fn entry(call: &mut Call, entry: usize, at: usize, new: &[u8]) {
    put(&mut call.sheet, 7 * entry + at, new);
}

/// A byte of a step of the derivation: 0 its kind, 1 and 2 its target, 3 its constraint, 5 its reference.
fn step(call: &mut Call, step: usize, at: usize, byte: u8) {
    put(&mut call.hand_in, 7 * step + at, &[byte]);
}

/// Another step in place of this one, but for its reference.
fn other_step(call: &mut Call, number: usize, kind: u8, target: u8, constraint: u8) {
    [(0, kind), (1, target), (3, constraint)].iter().for_each(|&(at, byte)| step(call, number, at, byte));
}

/// The value of a signal in a given run.
fn given(call: &mut Call, signal: usize, value: u32) {
    put(&mut call.hand_in, 4 * (signal - 1), &value.to_le_bytes());
}

/// The value of a signal in a record, from 1.
fn recorded(call: &mut Call, record: usize, signal: usize, value: u32) {
    given(call, SIGNALS * (record - 1) + signal, value);
}

/// Another window.
fn window(call: &mut Call, window: u32) {
    call.sheet = window.to_le_bytes().to_vec();
}

/// The value of a signal in run 0 or 1 of the pair.
fn value(call: &mut Call, run: usize, signal: usize, value: u32) {
    put(&mut call.hand_in, 7 + 4 * (run * SIGNALS + signal - 1), &value.to_le_bytes());
}

/// Faults of the circuit, which every call may meet. A file that is too long is [`long_circuit`].
pub const CIRCUIT: [Fault; 24] = [
    fault(1, 0, |call| call.circuit.truncate(16)),
    fault(2, 0, |call| put(&mut call.circuit, 0, b"D")),
    fault(2, 0, |call| put(&mut call.circuit, 2, b"t")),
    fault(3, 0, |call| circuit16(call, 3, 2)),
    fault(3, 0, |call| circuit16(call, 3, 257)),
    fault(4, 0, |call| circuit32(call, 5, 9)),
    fault(4, 0, |call| circuit32(call, 5, 2)),
    fault(5, 0, |call| circuit16(call, 9, 257)),
    fault(5, 0, |call| circuit16(call, 13, 0)),
    fault(5, 0, |call| circuit16(call, 11, 8)),
    fault(5, 0, |call| circuit16(call, 15, 513)),
    // A count byte is due, in the first constraint and as the last byte; a whole term, early and late.
    fault(6, 24, |call| call.circuit.truncate(24)),
    fault(6, 94, |call| call.circuit.truncate(94)),
    fault(6, 25, |call| call.circuit.truncate(28)),
    fault(6, 88, |call| call.circuit.truncate(93)),
    fault(7, 17, |call| put(&mut call.circuit, 17, &[33])),
    fault(7, 81, |call| put(&mut call.circuit, 81, &[255])),
    // Numbers above n, and one that doesn't rise.
    fault(8, 25, |call| circuit16(call, 25, 258)),
    fault(8, 88, |call| circuit16(call, 88, 0)),
    fault(9, 25, |call| circuit32(call, 27, 0)),
    fault(9, 88, |call| circuit32(call, 90, u32::MAX)),
    // One constraint fewer than there are; a byte more.
    fault(10, 74, |call| circuit16(call, 15, 3)),
    fault(10, 95, |call| call.circuit.push(0)),
    fault(10, 95, |call| call.circuit.extend([1, 0, 0, 0])),
];

/// Faults of the sheet, which every call that takes one may meet.
pub const SHEET: [Fault; 21] = [
    fault(26, 0, |call| call.sheet.truncate(6)),
    fault(26, 0, |call| put(&mut call.sheet, 0, b"C")),
    fault(26, 0, |call| put(&mut call.sheet, 4, &[1])),
    fault(26, 0, |call| put(&mut call.sheet, 5, &257u16.to_le_bytes())),
    fault(26, 0, |call| call.sheet.truncate(27)),
    fault(26, 0, |call| call.sheet.push(0)),
    fault(26, 0, |call| put(&mut call.sheet, 5, &[2])),
    // A signal that is 0 or above n, a kind that there isn't, a number that isn't its kind's; in the first entry and in a later one.
    fault(27, 1, |call| entry(call, 1, 0, &[0, 0])),
    fault(27, 1, |call| entry(call, 1, 0, &[10, 0])),
    fault(27, 1, |call| entry(call, 1, 2, &[0])),
    fault(27, 1, |call| entry(call, 1, 2, &[4])),
    fault(27, 1, |call| entry(call, 1, 2, &[BINARY, 1])),
    fault(27, 1, |call| entry(call, 1, 3, &[31])),
    fault(27, 1, |call| entry(call, 1, 2, &[MAXVALUE, 13])),
    fault(27, 3, |call| entry(call, 3, 0, &[0, 0])),
    fault(27, 3, |call| entry(call, 3, 0, &[6, 1])),
    fault(27, 3, |call| entry(call, 3, 2, &[0])),
    fault(27, 3, |call| entry(call, 3, 2, &[4])),
    fault(27, 3, |call| entry(call, 3, 3, &[1])),
    fault(27, 3, |call| entry(call, 3, 2, &[MAXBIT, 31])),
    fault(27, 2, |call| entry(call, 2, 3, &[13])),
];

/// Faults of a derivation that is to be marked or renewed.
pub const DERIVATIONS: [Fault; 21] = [
    fault(11, 0, |call| call.hand_in.truncate(6)),
    fault(11, 0, |call| put(&mut call.hand_in, 0, b"P")),
    fault(12, 0, |call| put(&mut call.hand_in, 3, &[2])),
    fault(13, 0, |call| put(&mut call.hand_in, 5, &4097u16.to_le_bytes())),
    fault(13, 0, |call| put(&mut call.hand_in, 5, &[4])),
    fault(13, 0, |call| call.hand_in.push(0)),
    fault(15, 1, |call| step(call, 1, 0, 8)),
    fault(15, 4, |call| step(call, 4, 0, 0)),
    fault(15, 6, |call| step(call, 6, 0, 9)),
    fault(15, 7, |call| step(call, 7, 0, 8)),
    // A target above n, target 0, a reference where none may be, none where one must be, and one above n.
    fault(16, 1, |call| step(call, 1, 2, 1)),
    fault(16, 4, |call| step(call, 4, 1, 0)),
    fault(16, 4, |call| step(call, 4, 5, 3)),
    fault(16, 5, |call| step(call, 5, 5, 0)),
    fault(16, 6, |call| step(call, 6, 5, 8)),
    fault(16, 7, |call| step(call, 7, 6, 1)),
    fault(17, 1, |call| step(call, 1, 3, 3)),
    fault(17, 2, |call| step(call, 2, 3, 2)),
    fault(17, 4, |call| step(call, 4, 3, 1)),
    // A nonzero step on a signal that isn't there, a quotient by one that isn't.
    fault(17, 6, |call| step(call, 6, 1, 5)),
    fault(17, 7, |call| step(call, 7, 5, 7)),
];

/// Faults of the derivation call beyond those of circuit, sheet and derivation: the buffer for marks, and idle steps.
pub const MARKS: [Fault; 7] = [
    fault(14, 0, |call| call.lent = SIGNALS - 1),
    // Zero on input 4, which is tagged 0; the root again, at once and after another step; the zero again; digits that stand in step 4 already; the
    // nonzero mark again.
    fault(29, 1, |call| {
        entry(call, 2, 3, &[0]);
        other_step(call, 1, ZERO, 4, 0);
    }),
    fault(29, 2, |call| other_step(call, 2, ROOT, 7, 1)),
    fault(29, 3, |call| other_step(call, 3, ROOT, 7, 1)),
    fault(29, 4, |call| other_step(call, 4, ZERO, 7, 0)),
    fault(29, 5, |call| {
        other_step(call, 4, DIGITS, 8, 4);
        step(call, 4, 5, 8);
    }),
    fault(29, 7, |call| {
        other_step(call, 7, NONZERO, 8, 3);
        step(call, 7, 5, 0);
    }),
];

/// Faults of the renewal call beyond those of circuit, sheet and derivation: the buffer.
pub const RENEWALS: [Fault; 2] = [fault(25, 0, |call| call.lent = 55), fault(25, 0, |call| call.lent = 0)];

/// Faults of the pair call beyond those of circuit and sheet.
pub const PAIRS: [Fault; 27] = [
    fault(18, 0, |call| call.hand_in.truncate(6)),
    fault(18, 0, |call| put(&mut call.hand_in, 1, b"P")),
    fault(19, 0, |call| put(&mut call.hand_in, 3, &[0, 1])),
    fault(20, 0, |call| call.hand_in.truncate(7 + 8 * SIGNALS - 1)),
    fault(20, 0, |call| call.hand_in.push(0)),
    fault(20, 0, |call| put(&mut call.hand_in, 5, &[4])),
    fault(20, 0, |call| put(&mut call.hand_in, 5, &[7])),
    fault(21, 9, |call| value(call, 0, 9, 13)),
    fault(21, 18, |call| value(call, 1, 9, u32::MAX)),
    fault(22, 1, |call| value(call, 0, 7, 1)),
    fault(22, 2, |call| value(call, 0, 5, 1)),
    fault(22, 3, |call| value(call, 0, 9, 8)),
    fault(22, 4, |call| [(8, 4), (9, 10)].iter().for_each(|&(signal, new)| value(call, 0, signal, new))),
    fault(22, 5, |call| value(call, 1, 7, 1)),
    fault(22, 6, |call| value(call, 1, 5, 1)),
    fault(22, 7, |call| value(call, 1, 9, 8)),
    fault(22, 8, |call| [(8, 4), (9, 10)].iter().for_each(|&(signal, new)| value(call, 1, signal, new))),
    fault(23, 1, |call| value(call, 1, 1, 1)),
    fault(23, 2, |call| value(call, 0, 2, 1)),
    fault(23, 3, |call| value(call, 0, 3, 1)),
    fault(23, 4, |call| value(call, 1, 4, 2)),
    // Values that the tags don't allow; a tag with a lower limit, and one of another signal that is now the input's.
    fault(28, 3, |call| [0, 1].iter().for_each(|&run| value(call, run, 3, 4))),
    fault(28, 4, |call| [0, 1].iter().for_each(|&run| value(call, run, 4, 12))),
    fault(28, 4, |call| entry(call, 2, 3, &[2])),
    fault(28, 3, |call| entry(call, 3, 0, &[3])),
    fault(24, 6, |call| value(call, 1, 6, 1)),
    fault(24, 5, |call| put(&mut call.hand_in, 5, &[5])),
];

/// The faults of the solver call beyond those of circuit and sheet.
pub const SOLVER: [Fault; 2] = [fault(25, 0, |call| call.lent = longest(SIGNALS) - 1), fault(25, 0, |call| call.lent = 0)];

/// Faults of both calls that list runs, beyond those of the circuit: too many candidates, by p and by n; a buffer that hasn't n values.
pub const RUNS: [Fault; 6] = [
    fault(30, 0, |call| circuit32(call, 5, 5)),
    fault(30, 0, |call| circuit32(call, 5, 2_147_483_647)),
    fault(30, 0, |call| {
        circuit16(call, 9, 200);
        call.hand_in.resize(if call.kind == NEXT_RUN { 4 * 200 } else { 0 }, 0);
        call.lent = 200;
    }),
    fault(31, 0, |call| call.lent = SIGNALS - 1),
    fault(31, 0, |call| call.lent = SIGNALS + 1),
    fault(31, 0, |call| call.lent = 0),
];

/// Faults of a given run, with values that no p allows.
pub const GIVEN: [Fault; 8] = [
    fault(31, 0, |call| call.hand_in.truncate(4 * (SIGNALS - 1))),
    fault(31, 0, |call| call.hand_in.extend([0; 4])),
    fault(31, 0, |call| call.hand_in.clear()),
    fault(31, 1, |call| given(call, 1, 0x8000_0000)),
    fault(31, 2, |call| given(call, 2, u32::MAX)),
    fault(31, 5, |call| given(call, 5, u32::MAX)),
    fault(31, 8, |call| given(call, 8, 0x8000_0000)),
    fault(31, 9, |call| given(call, 9, u32::MAX)),
];

/// Faults of a file of recorded runs: its length, by bytes and by values, and values that no p allows.
pub const RECORDS: [Fault; 9] = [
    fault(32, 0, |call| call.hand_in.push(0)),
    fault(32, 0, |call| call.hand_in.extend([0; 4])),
    fault(32, 0, |call| call.hand_in.truncate(4 * SIGNALS * 3 - 4)),
    fault(32, 0, |call| call.hand_in.truncate(4 * SIGNALS + 3)),
    fault(33, 1, |call| recorded(call, 1, 1, u32::MAX)),
    fault(33, 1, |call| recorded(call, 1, 9, 0x8000_0000)),
    fault(33, 2, |call| recorded(call, 2, 5, u32::MAX)),
    fault(33, 3, |call| recorded(call, 3, 1, 0x8000_0000)),
    fault(33, 3, |call| recorded(call, 3, 9, u32::MAX)),
];

/// Faults of the watching call beyond those of circuit and records: the window and the buffer.
pub const WATCHES: [Fault; 5] = [
    fault(34, 0, |call| window(call, 1)),
    fault(34, 0, |call| window(call, 257)),
    fault(34, 0, |call| window(call, u32::MAX)),
    fault(34, 0, |call| call.lent = pair_length(SIGNALS) - 1),
    fault(34, 0, |call| call.lent = 0),
];

/// The faults of the sheet that this kind of call may meet.
pub fn of_sheet(kind: u8) -> &'static [Fault] {
    match WITH_SHEET.contains(&kind) {
        true => &SHEET,
        false => &[],
    }
}

/// The faults of this kind of call beyond the circuit's.
pub fn beyond_circuit(kind: u8) -> impl Iterator<Item = &'static Fault> {
    of_sheet(kind).iter().chain(own(kind))
}

/// The faults of this kind of call beyond those of circuit and sheet.
pub fn own(kind: u8) -> Vec<&'static Fault> {
    let (handed_in, rest): (&[Fault], &[Fault]) = match kind {
        DERIVATION => (&DERIVATIONS, &MARKS),
        RENEW => (&DERIVATIONS, &RENEWALS),
        PAIR => (&PAIRS, &[]),
        SOLVE => (&[], &SOLVER),
        FIRST_RUN => (&[], &RUNS),
        NEXT_RUN => (&GIVEN, &RUNS),
        WATCH => (&RECORDS, &WATCHES),
        _ => (&[], &[]),
    };
    handed_in.iter().chain(rest).collect()
}

/// A call with two faults.
pub struct Pair {
    pub call: Call,
    pub faults: [&'static Fault; 2],
}

/// Every two faults that can stand together. Two of the circuit: all on reading it, and in the other calls each two numbers one time for each order of their
/// places; so too one of the circuit and one of what comes along, is handed in or lent. Two of the sheet: all on solving, else as those of the circuit; one of
/// the sheet and one of what is handed in or lent: three times so. Then every two of those.
pub fn pairs() -> Vec<Pair> {
    let mut pairs = Vec::new();
    let mut seen = BTreeSet::new();
    let mut add = |always: bool, turn: usize, kind: u8, x: &'static Fault, y: &'static Fault| {
        let sort = (kind, x.number, y.number, x.place.cmp(&y.place), turn);
        if let Some(call) = both(kind, x, y).filter(|_| always || !seen.contains(&sort)) {
            seen.insert(sort);
            pairs.push(Pair { call, faults: [x, y] });
        }
    };
    for (at, x) in CIRCUIT.iter().enumerate() {
        for y in &CIRCUIT[at + 1..] {
            KINDS.iter().for_each(|&kind| add(kind == READ, 0, kind, x, y));
        }
        for kind in KINDS {
            beyond_circuit(kind).for_each(|y| add(false, 0, kind, x, y));
        }
    }
    for kind in KINDS {
        for (at, x) in of_sheet(kind).iter().enumerate() {
            of_sheet(kind)[at + 1..].iter().for_each(|y| add(kind == SOLVE, 0, kind, x, y));
            own(kind).into_iter().for_each(|y| add(false, at % 3, kind, x, y));
        }
        for (at, &x) in own(kind).iter().enumerate() {
            own(kind)[at + 1..].iter().for_each(|&y| add(true, 0, kind, x, y));
        }
    }
    pairs
}

/// The good call with one fault.
pub fn with(kind: u8, fault: &Fault) -> Call {
    let mut call = good(kind);
    (fault.breaks)(&mut call);
    call
}

/// The call with both faults; none if one undoes the other, or if nothing tells the two apart.
fn both(kind: u8, x: &Fault, y: &Fault) -> Option<Call> {
    if (x.number, x.place) == (y.number, y.place) || excludes(x, y) {
        return None;
    }
    let twice = |first: &Fault, second: &Fault| {
        let mut call = with(kind, first);
        (second.breaks)(&mut call);
        [x, y].iter().all(|fault| keeps(&good(kind), &with(kind, fault), &call)).then_some(call)
    };
    twice(x, y).or_else(|| twice(y, x))
}

/// Faults that exclude each other though their bytes differ: a file that ends too early has nothing after its last constraint, and what is there isn't read
/// as a constraint.
fn excludes(x: &Fault, y: &Fault) -> bool {
    y.number == 10 && (x.number == 6 || ((7..=9).contains(&x.number) && y.place <= x.place))
}

/// Whether all that a fault has changed is as changed in the call with both.
fn keeps(good: &Call, one: &Call, both: &Call) -> bool {
    let kept = |good: &[u8], one: &[u8], both: &[u8]| {
        let changed = (0..one.len()).filter(|&at| good.get(at) != one.get(at));
        (one.len() == good.len() || one.len() == both.len()) && changed.into_iter().all(|at| one.get(at) == both.get(at))
    };
    let lent = one.lent == good.lent || one.lent == both.lent;
    let sheet = kept(&good.sheet, &one.sheet, &both.sheet);
    lent && sheet && kept(&good.circuit, &one.circuit, &both.circuit) && kept(&good.hand_in, &one.hand_in, &both.hand_in)
}

/// A circuit of 60,001 bytes with every fault from 2 to 9: as 1 comes before them all, an order in which it doesn't gives another answer, whichever it is.
pub fn long_circuit() -> Vec<u8> {
    let form: Vec<u8> = (1..=32u16).flat_map(|signal| [signal.to_le_bytes(), [1, 0], [0, 0]].concat()).collect();
    let body = [&[32][..], &form].concat().repeat(3 * 512);
    let circuit = [&Draft::new(13, 256, 1, 1).bytes()[..], &body].concat();
    let mut call = Call { kind: READ, circuit, sheet: Vec::new(), hand_in: Vec::new(), lent: 0 };
    call.circuit.truncate(60_001);
    circuit16(&mut call, 15, 512);
    // Mark, version, p, o; a signal number, a coefficient, the count of the last form that the file reaches; and it ends within that form.
    put(&mut call.circuit, 0, b"D");
    circuit16(&mut call, 3, 2);
    circuit32(&mut call, 5, 9);
    circuit16(&mut call, 13, 0);
    circuit16(&mut call, 18, 257);
    circuit32(&mut call, 26, 0);
    put(&mut call.circuit, 17 + 310 * 193, &[33]);
    call.circuit
}
