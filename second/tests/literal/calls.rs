//! The refusals of each call in the words of documents 01 and 02: all faults that a call has, whatever comes before them, and the order that picks one.
//! And what a derivation's steps, or the solver's, come to.

use second::marker::{read_steps, write_steps, MOST_STEPS};
use second::reader::{number16, number32, numbers32, Circuit};
use second::rules::{Rules, Step, DIGITS, NONZERO, PRODUCT, QUOTIENT, ROOT, STEPS, SUM, ZERO};
use second::sheet::{Tag, MOST_TAGS};
use second::vectors::{Answer, Record, DERIVATION, FIRST_RUN, NEXT_RUN, PAIR, READ, RENEW, SOLVE, WATCH, WITH_SHEET};
use second::{field, read_circuit};

use crate::literal::{Literal, Standing, Tagging};

/// A refusal's number and place.
pub type Found = (u16, u32);

/// The least is met first.
pub type Order = (u32, u32, u32);

/// The right order: by number, but 6 to 9 by place in the file, 15 to 17 and 29 by step; 26 and 27 after 10, 28 after 23.
pub fn right((number, place): Found) -> Order {
    (stage(number), place, u32::from(number))
}

/// Where a number stands in the right order, with room before each.
pub fn stage(number: u16) -> u32 {
    match number {
        6..=9 => stage(5) + 6,
        15..=17 | 29 => stage(14) + 6,
        26 => stage(10) + 2,
        27 => stage(10) + 4,
        28 => stage(23) + 3,
        _ => 6 * u32::from(number),
    }
}

/// The right order, but that all faults of one number come right before those of another.
pub fn before((number, place): Found, moved: u16, other: u16) -> Order {
    let key = right((number, place));
    if number == moved {
        (right((other, 0)).0 - 1, key.1, key.2)
    } else {
        key
    }
}

/// The refusal that a call gets by an order; 0 and 0 if it has no fault.
pub fn refusal(record: &Record, order: impl Fn(Found) -> Order) -> Found {
    faults(record).into_iter().min_by_key(|&found| order(found)).unwrap_or((0, 0))
}

/// Every fault of a call. Fields that aren't there have none; without a circuit no rule and no constraint is looked at.
fn faults(record: &Record) -> Vec<Found> {
    let Record { kind, circuit, sheet, hand_in, lent, .. } = record;
    let read = read_circuit(circuit).ok();
    let mut found = in_circuit(circuit);
    let [n, i, o, m] = header(circuit);
    if WITH_SHEET.contains(kind) {
        found.extend(in_sheet(circuit, sheet));
    }
    match *kind {
        READ => (),
        DERIVATION => {
            found.extend(in_derivation(hand_in));
            found.extend((circuit.len() >= 17 && *lent < u32::from(n)).then_some((14, 0)));
            found.extend(in_steps(read.as_ref(), &good_tags(circuit, sheet), [n, m], hand_in));
        }
        RENEW => {
            found.extend(in_derivation(hand_in));
            let steps = in_steps(read.as_ref(), &good_tags(circuit, sheet), [n, m], hand_in);
            found.extend(steps.into_iter().filter(|&(number, _)| number != 29));
            found.extend(((*lent as usize) < hand_in.len()).then_some((25, 0)));
        }
        PAIR => {
            found.extend(in_pair(read.as_ref(), circuit, [n, i, o], hand_in));
            found.extend(broken_tags([n, i], &good_tags(circuit, sheet), hand_in).into_iter().map(|input| (28, u32::from(input))));
        }
        FIRST_RUN => found.extend(in_runs(circuit, None, *lent)),
        NEXT_RUN => found.extend(in_runs(circuit, Some(&numbers32(hand_in)), *lent)),
        WATCH => found.extend(in_records(circuit, hand_in, number32(sheet, 0), *lent)),
        _ => found.extend((circuit.len() >= 17 && *lent < 7 + 21 * u32::from(n)).then_some((25, 0))),
    }
    found
}

/// n, i, o, m, or zeros if they aren't there.
fn header(circuit: &[u8]) -> [u16; 4] {
    [9, 11, 13, 15].map(|at| if circuit.len() >= 17 { number16(circuit, at) } else { 0 })
}

fn in_circuit(circuit: &[u8]) -> Vec<Found> {
    let length = circuit.len();
    let mut found = Vec::new();
    let mut add = |met: bool, number: u16| found.extend(met.then_some((number, 0)));
    add(length < 17, 1);
    add(length > 60_000, 1);
    add(length >= 3 && &circuit[..3] != b"CQT", 2);
    add(length >= 5 && number16(circuit, 3) != 1, 3);
    add(length >= 9 && !odd_prime(number32(circuit, 5)), 4);
    let [n, i, o, m] = [9, 11, 13, 15].map(|at| (length >= at + 2).then(|| number16(circuit, at)));
    let crowded = |n: u16, i: u16, o: u16| u32::from(i) + u32::from(o) > u32::from(n);
    add(n.is_some_and(|n| n == 0 || n > 256) || o == Some(0) || n.zip(i).zip(o).is_some_and(|((n, i), o)| crowded(n, i, o)), 5);
    add(m.is_some_and(|m| m > 512), 5);
    if length >= 17 {
        in_constraints(circuit, &mut found);
    }
    found
}

fn odd_prime(p: u32) -> bool {
    (3..=2_147_483_647).contains(&p) && p % 2 == 1 && field::is_prime(u64::from(p))
}

/// 6 to 10. A count that is too high is read as it is; the file's end ends the reading.
fn in_constraints(circuit: &[u8], found: &mut Vec<Found>) {
    let ([n, _, _, m], p) = (header(circuit), number32(circuit, 5));
    let mut at = 17;
    for _ in 0..3 * u32::from(m) {
        let place = at as u32;
        let Some(&count) = circuit.get(at) else { return found.push((6, place)) };
        found.extend((count > 32).then_some((7, place)));
        at += 1;
        let mut last = None;
        for _ in 0..count {
            let place = at as u32;
            let signal = (circuit.len() >= at + 2).then(|| number16(circuit, at));
            found.extend(signal.filter(|&signal| signal > n || last.is_some_and(|last| signal <= last)).map(|_| (8, place)));
            if circuit.len() < at + 6 {
                return found.push((6, place));
            }
            let coefficient = number32(circuit, at + 2);
            found.extend((coefficient == 0 || coefficient >= p).then_some((9, place)));
            (last, at) = (signal, at + 6);
        }
    }
    found.extend((at < circuit.len()).then_some((10, at as u32)));
}

/// The entries that a sheet has in full, whatever its count says.
pub fn entries(sheet: &[u8]) -> Vec<Tag> {
    let whole = sheet.get(7..).unwrap_or_default().chunks_exact(7);
    whole.map(|entry| Tag::new(number16(entry, 0), entry[2], number32(entry, 3))).collect()
}

/// 26, and 27 of all entries that the file has.
fn in_sheet(circuit: &[u8], sheet: &[u8]) -> Vec<Found> {
    let mut found = Vec::new();
    let count = if sheet.len() < 7 { 0 } else { usize::from(number16(sheet, 5)) };
    let mark = sheet.len() < 7 || &sheet[..3] != b"TQT" || number16(sheet, 3) != 1;
    found.extend((mark || count > MOST_TAGS || sheet.len() != 7 + 7 * count).then_some((26, 0)));
    if circuit.len() >= 17 {
        found.extend((1..).zip(entries(sheet)).filter(|(_, tag)| !is_good(circuit, tag)).map(|(number, _)| (27, number)));
    }
    found
}

fn is_good(circuit: &[u8], tag: &Tag) -> bool {
    let ([n, ..], p) = (header(circuit), number32(circuit, 5));
    let number = match tag.kind {
        1 => tag.number == 0,
        2 => tag.number <= 30,
        3 => tag.number < p,
        _ => false,
    };
    number && 1 <= tag.signal && tag.signal <= n
}

/// The entries without a fault.
fn good_tags(circuit: &[u8], sheet: &[u8]) -> Vec<Tag> {
    if circuit.len() < 17 {
        return Vec::new();
    }
    entries(sheet).into_iter().filter(|tag| is_good(circuit, tag)).collect()
}

/// The inputs whose values in the first run break a tag on them, in the order of the tags.
fn broken_tags([n, i]: [u16; 2], tags: &[Tag], pair: &[u8]) -> Vec<u16> {
    let values: Vec<u32> = pair.get(7..).unwrap_or_default().chunks_exact(4).map(|value| number32(value, 0)).collect();
    if values.len() < 2 * usize::from(n) {
        return Vec::new();
    }
    let breaks = |tag: &&Tag| tag.signal <= i && i128::from(values[usize::from(tag.signal) - 1]) > (Tagging::RIGHT.limit)(tag.kind, tag.number);
    tags.iter().filter(breaks).map(|tag| tag.signal).collect()
}

fn in_derivation(derivation: &[u8]) -> Vec<Found> {
    let length = derivation.len();
    let mut found = Vec::new();
    found.extend((length < 7 || &derivation[..3] != b"DQT").then_some((11, 0)));
    found.extend((length >= 5 && number16(derivation, 3) != 1).then_some((12, 0)));
    let count = if length < 7 { 0 } else { usize::from(number16(derivation, 5)) };
    found.extend((count > MOST_STEPS || length != 7 + 7 * count).then_some((13, 0)));
    found
}

/// 15 to 17 and 29 of all steps that the file has; a step with a fault changes nothing. One that has a wrong field which its rule doesn't read may be idle too.
fn in_steps(read: Option<&Circuit>, tags: &[Tag], [n, m]: [u16; 2], derivation: &[u8]) -> Vec<Found> {
    let literal = read.map(|read| Literal::new(read, tags));
    let mut standing = literal.as_ref().map(Literal::start);
    let mut found = Vec::new();
    for (number, step) in (1..).zip(derivation.get(7..).unwrap_or_default().chunks_exact(7)) {
        let step = Step::new(step[0], number16(step, 1), number16(step, 3), number16(step, 5));
        let fields = in_range(step, n, m);
        found.extend((!STEPS.contains(&step.kind)).then_some((15, number)));
        found.extend((!fields).then_some((16, number)));
        if let (Some(literal), Some(now), true) = (&literal, &standing, can_be_judged(step, n, m)) {
            match literal.take(now, step) {
                Some(next) if next == *now => found.push((29, number)),
                Some(next) if fields => standing = Some(next),
                Some(_) => (),
                None => found.push((17, number)),
            }
        }
    }
    found
}

/// Whether the fields that the rule reads are in range.
fn can_be_judged(step: Step, n: u16, m: u16) -> bool {
    match step.kind {
        ZERO => in_range(Step::new(ZERO, step.target, 0, 0), n, m),
        ROOT | SUM | PRODUCT | NONZERO => in_range(Step::new(ROOT, step.target, step.constraint, 0), n, m),
        DIGITS | QUOTIENT => in_range(step, n, m),
        _ => false,
    }
}

/// Whether the fields are as a step of this kind must have them; for a kind that there isn't, whether the target is.
fn in_range(step: Step, n: u16, m: u16) -> bool {
    let within = |number: u16, highest: u16| number >= 1 && number <= highest;
    let rest = match step.kind {
        ROOT | SUM | PRODUCT | NONZERO => within(step.constraint, m) && step.reference == 0,
        ZERO => step.constraint == 0 && step.reference == 0,
        DIGITS | QUOTIENT => within(step.constraint, m) && within(step.reference, n),
        _ => true,
    };
    within(step.target, n) && rest
}

/// 30, and 31 of the lengths and of all values of a given run.
fn in_runs(circuit: &[u8], given: Option<&[u32]>, lent: u32) -> Vec<Found> {
    let mut found = Vec::new();
    if circuit.len() < 11 {
        return found;
    }
    let (p, n) = (number32(circuit, 5), u32::from(number16(circuit, 9)));
    found.extend((u64::from(p).saturating_pow(n) > 65_536).then_some((30, 0)));
    found.extend((lent != n || given.is_some_and(|given| given.len() != n as usize)).then_some((31, 0)));
    found.extend((1..).zip(given.unwrap_or_default()).filter(|&(_, &value)| value >= p).map(|(signal, _)| (31, signal)));
    found
}

/// 32, 33 of all values that the file has, and 34.
fn in_records(circuit: &[u8], records: &[u8], window: u32, lent: u32) -> Vec<Found> {
    let mut found = Vec::new();
    if circuit.len() < 11 {
        return found;
    }
    let (p, n) = (number32(circuit, 5), u32::from(number16(circuit, 9)));
    found.extend((!records.len().is_multiple_of(4 * n as usize)).then_some((32, 0)));
    let high = (0..).zip(numbers32(records)).filter(|&(_, value)| value >= p);
    found.extend(high.map(|(at, _): (u32, u32)| (33, at / n.max(1) + 1)));
    found.extend((window == 1 || window > 256 || lent < 7 + 8 * n).then_some((34, 0)));
    found
}

fn in_pair(read: Option<&Circuit>, circuit: &[u8], [n, i, o]: [u16; 3], pair: &[u8]) -> Vec<Found> {
    let length = pair.len();
    let mut found = Vec::new();
    found.extend((length < 7 || &pair[..3] != b"PQT").then_some((18, 0)));
    found.extend((length >= 5 && number16(pair, 3) != 1).then_some((19, 0)));
    if circuit.len() < 17 || length < 7 {
        return found;
    }
    let (q, n) = (number16(pair, 5), usize::from(n));
    let output = q > i && u32::from(q) <= u32::from(i) + u32::from(o);
    found.extend((length != 7 + 8 * n || !output).then_some((20, 0)));
    let values: Vec<u32> = pair[7..].chunks_exact(4).map(|value| number32(value, 0)).collect();
    found.extend((1..).zip(&values).take(2 * n).filter(|&(_, &value)| value >= number32(circuit, 5)).map(|(place, _)| (21, place)));
    if values.len() < 2 * n {
        return found;
    }
    let (first, second) = (&values[..n], &values[n..2 * n]);
    if let Some(read) = read {
        let constraints = read.constraints.iter().map(|c| [first, second].map(|run| c.satisfied(read.field, run)));
        let m = read.constraints.len() as u32;
        found.extend((1..).zip(constraints).flat_map(|(k, [one, two])| [(one, k), (two, m + k)]).filter(|(ok, _)| !ok).map(|(_, place)| (22, place)));
    }
    found.extend((1..).zip(first.iter().zip(second)).take(usize::from(i)).filter(|(_, (x, y))| x != y).map(|(place, _)| (23, place)));
    found.extend(usize::from(q).checked_sub(1).filter(|&at| at < n && first[at] == second[at]).map(|_| (24, u32::from(q))));
    found
}

/// The answer of the derivation call or the solver by a reading of the rules and of tags, past all refusals before the steps.
pub fn answer(record: &Record, literal: &Literal) -> Answer {
    let judged = |standing: &Standing, length: usize| {
        let [count, fixed, shown, unshown] = literal.judge(standing);
        [count, fixed, shown, unshown, length as u32]
    };
    if record.kind == SOLVE {
        let (steps, standing) = literal.solve();
        let written = write_steps(&steps);
        return Answer { values: judged(&standing, written.len()), written, ..Answer::default() };
    }
    let (mut standing, rules) = (literal.start(), Rules::new(literal.circuit));
    for (place, step) in (1..).zip(read_steps(&record.hand_in).unwrap()) {
        let refused = |number: u16| Answer { number, place, ..Answer::default() };
        if !STEPS.contains(&step.kind) {
            return refused(15);
        }
        if !rules.in_range(step) {
            return refused(16);
        }
        match literal.take(&standing, step) {
            None => return refused(17),
            Some(next) if next == standing => return refused(29),
            Some(next) => standing = next,
        }
    }
    let written = literal.circuit.all_signals().map(|signal| u8::from(standing.marked.contains(&signal))).collect();
    Answer { values: judged(&standing, 0), written, ..Answer::default() }
}
