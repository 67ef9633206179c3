//! Tags read wrongly: each way that could be had by mistake gives another answer than at least three stored vectors.

mod literal;

use literal::calls::{self, entries};
use literal::{Entry, First, Limit, Literal, Shown, Tagging};
use second::compose::{compose, USUAL_SIZE};
use second::pair::values;
use second::reader::number16;
use second::sheet::Tag;
use second::vectors::{Answer, Record, DERIVATION, PAIR, SOLVE};
use second::{read_circuit, Circuit};

/// The stored vectors that come to their tags, on circuits that aren't large: all that is refused is a rule, an idle step, the inputs' tags or q. Renewals
/// are tests/idle.rs's.
fn stored() -> Vec<Record> {
    let mut stored = compose(1, USUAL_SIZE);
    let judged = |record: &Record| [0, 17, 29, 28, 24].contains(&record.answer.number) && [DERIVATION, PAIR, SOLVE].contains(&record.kind);
    let small = |record: &Record| record.circuit.len() < 300 && number16(&record.circuit, 9) < 20 && record.hand_in.len() < 300;
    stored.retain(|record| judged(record) && small(record) && record.sheet.len() > 7);
    stored
}

/// The answer of the derivation call or the solver by a reading of tags. A step that isn't come to where these are read rightly may have any fields.
fn answer(record: &Record, tagging: Tagging) -> Answer {
    let (circuit, tags) = (read_circuit(&record.circuit).unwrap(), entries(&record.sheet));
    calls::answer(record, &Literal::with(&circuit, &tags, tagging))
}

/// How many stored derivations and solver calls get another answer.
fn told(stored: &[Record], tagging: Tagging) -> usize {
    stored.iter().filter(|record| record.kind != PAIR && answer(record, tagging) != record.answer).count()
}

const RIGHT: Tagging = Tagging::RIGHT;

/// The entries on signals other than inputs.
fn others(entries: &[Entry]) -> Vec<&Entry> {
    entries.iter().filter(|entry| !entry.is_input).collect()
}

fn is_shown(entry: &Entry) -> bool {
    entry.bound <= entry.limit
}

/// How many of the entries are shown, and what is said of the first that isn't.
fn counted(entries: &[&Entry], first: impl Fn(usize, &Entry) -> u32) -> (u32, u32) {
    let open = entries.iter().position(|entry| !is_shown(entry));
    (entries.iter().filter(|entry| is_shown(entry)).count() as u32, open.map_or(0, |index| first(index, entries[index])))
}

#[test]
fn the_right_reading_gives_every_stored_answer() {
    let stored = stored();
    assert!(stored.iter().filter(|record| record.kind == SOLVE).count() > 300);
    assert!(stored.iter().filter(|record| record.kind == DERIVATION).count() > 300);
    assert_eq!(told(&stored, RIGHT), 0);
}

#[test]
fn wrong_limits_are_told() {
    let stored = stored();
    let limits: [(&str, Limit); 6] = [
        ("2^v for maxbit", |kind, v| if kind == 2 { 1 << v } else { (RIGHT.limit)(kind, v) }),
        ("v for maxbit", |kind, v| if kind == 2 { i128::from(v) } else { (RIGHT.limit)(kind, v) }),
        ("2^(v - 1) - 1 for maxbit", |kind, v| if kind == 2 { (1 << v.max(1)) / 2 - 1 } else { (RIGHT.limit)(kind, v) }),
        ("v - 1 for maxvalue", |kind, v| if kind == 3 { i128::from(v) - 1 } else { (RIGHT.limit)(kind, v) }),
        ("0 for binary", |kind, v| if kind == 1 { 0 } else { (RIGHT.limit)(kind, v) }),
        ("2 for binary", |kind, v| if kind == 1 { 2 } else { (RIGHT.limit)(kind, v) }),
    ];
    for (name, limit) in limits {
        let count = told(&stored, Tagging { limit, ..RIGHT });
        assert!(count >= 3, "{name}: {count}");
        let count = paired(&stored, |circuit, tags, run| broken(circuit, tags, run, limit).into_iter().min());
        assert!(count >= 3, "{name} in pairs: {count}");
    }
}

#[test]
fn wrong_first_bounds_are_told() {
    let stored = stored();
    let firsts: [(&str, First); 8] = [
        ("tags on other signals too", |most, limits, _| limits.iter().copied().fold(most, i128::min)),
        ("tags on other signals alone", |most, limits, is_input| if is_input { most } else { limits.iter().copied().fold(most, i128::min) }),
        ("no tags", |most, _, _| most),
        ("the last tag alone", |most, limits, is_input| limits.last().filter(|_| is_input).map_or(most, |&limit| limit.min(most))),
        ("the first tag alone", |most, limits, is_input| limits.first().filter(|_| is_input).map_or(most, |&limit| limit.min(most))),
        ("the largest limit", |most, limits, is_input| limits.iter().max().filter(|_| is_input).map_or(most, |&limit| limit.min(most))),
        ("a limit above p - 1", |most, limits, is_input| limits.iter().min().filter(|_| is_input).map_or(most, |&limit| limit)),
        ("one too low", |most, limits, is_input| if is_input { limits.iter().map(|limit| limit - 1).fold(most, i128::min).max(0) } else { most }),
    ];
    for (name, first) in firsts {
        let count = told(&stored, Tagging { first, ..RIGHT });
        assert!(count >= 3, "{name}: {count}");
    }
}

#[test]
fn wrong_shown_tags_are_told() {
    let stored = stored();
    let showns: [(&str, Shown); 9] = [
        ("inputs too", |all| counted(&all.iter().collect::<Vec<_>>(), |_, entry| entry.number)),
        ("inputs counted as shown", |all| {
            let (shown, first) = (RIGHT.shown)(all);
            (shown + all.iter().filter(|entry| entry.is_input).count() as u32, first)
        }),
        ("first one lower", |all| counted(&others(all), |_, entry| entry.number - 1)),
        ("first one higher", |all| counted(&others(all), |_, entry| entry.number + 1)),
        ("first among the tags on others", |all| counted(&others(all), |index, _| index as u32 + 1)),
        ("first as a signal", |all| counted(&others(all), |_, entry| entry.signal.into())),
        ("the last that isn't", |all| {
            let last = others(all).into_iter().rfind(|entry| !is_shown(entry));
            ((RIGHT.shown)(all).0, last.map_or(0, |entry| entry.number))
        }),
        ("each signal once", |all| {
            let mut signals: Vec<u16> = others(all).into_iter().filter(|entry| is_shown(entry)).map(|entry| entry.signal).collect();
            signals.sort_unstable();
            signals.dedup();
            (signals.len() as u32, (RIGHT.shown)(all).1)
        }),
        ("below the limit", |all| {
            let below = |entry: &&&Entry| entry.bound < entry.limit;
            let all = others(all);
            (all.iter().filter(below).count() as u32, all.iter().find(|entry| !below(entry)).map_or(0, |entry| entry.number))
        }),
    ];
    for (name, shown) in showns {
        for kind in [DERIVATION, SOLVE] {
            let of_kind: Vec<Record> = stored.iter().filter(|record| record.kind == kind).cloned().collect();
            let count = told(&of_kind, Tagging { shown, ..RIGHT });
            assert!(count >= 3, "{name} in call {kind}: {count}");
        }
    }
}

/// The inputs that break a tag in a run, in the order of the tags.
fn broken(circuit: &Circuit, tags: &[Tag], run: &[u32], limit: Limit) -> Vec<u16> {
    let breaks = |tag: &&Tag| tag.signal <= circuit.inputs && i128::from(run[usize::from(tag.signal) - 1]) > limit(tag.kind, tag.number);
    tags.iter().filter(breaks).map(|tag| tag.signal).collect()
}

/// How many stored pairs, of which all else is judged before, get another answer if this is the place of 28.
fn paired(stored: &[Record], place: impl Fn(&Circuit, &[Tag], &[u32]) -> Option<u16>) -> usize {
    let otherwise = |record: &&Record| {
        let (circuit, tags, run) = (read_circuit(&record.circuit).unwrap(), entries(&record.sheet), values(&record.hand_in));
        let found = place(&circuit, &tags, &run).map_or(0, u32::from);
        found != if record.answer.number == 28 { record.answer.place } else { 0 }
    };
    stored.iter().filter(|record| record.kind == PAIR).filter(otherwise).count()
}

#[test]
fn wrong_places_of_28_are_told() {
    let stored = stored();
    let right = |circuit: &Circuit, tags: &[Tag], run: &[u32]| broken(circuit, tags, run, RIGHT.limit);
    assert_eq!(paired(&stored, |circuit, tags, run| right(circuit, tags, run).into_iter().min()), 0);
    let all = |circuit: &Circuit| Circuit { inputs: circuit.signals, ..circuit.clone() };
    let only =
        |tags: &[Tag], kept: fn(&[Tag], usize) -> bool| -> Vec<Tag> { (0..tags.len()).filter(|&at| kept(tags, at)).map(|at| tags[at]).collect() };
    let last = |tags: &[Tag]| only(tags, |tags, at| tags[at + 1..].iter().all(|tag| tag.signal != tags[at].signal));
    let first = |tags: &[Tag]| only(tags, |tags, at| tags[..at].iter().all(|tag| tag.signal != tags[at].signal));
    let entry = |circuit: &Circuit, tags: &[Tag], run: &[u32]| {
        let one = |at: &usize| !right(circuit, &tags[*at..=*at], run).is_empty();
        (0..tags.len()).find(one).map(|at| at as u16 + 1)
    };
    let wrong = [
        ("never", paired(&stored, |_, _, _| None)),
        ("the first entry's input", paired(&stored, |circuit, tags, run| right(circuit, tags, run).first().copied())),
        ("the highest input", paired(&stored, |circuit, tags, run| right(circuit, tags, run).into_iter().max())),
        ("the entry's number", paired(&stored, entry)),
        ("tags on all signals", paired(&stored, |circuit, tags, run| right(&all(circuit), tags, run).into_iter().min())),
        ("the last tag alone", paired(&stored, |circuit, tags, run| right(circuit, &last(tags), run).into_iter().min())),
        ("the first tag alone", paired(&stored, |circuit, tags, run| right(circuit, &first(tags), run).into_iter().min())),
    ];
    for (name, count) in wrong {
        assert!(count >= 3, "{name}: {count}");
    }
}

/// The shapes of sheets that the stored vectors must have, each in several.
#[test]
fn sheets_of_every_shape_are_stored() {
    let stored: Vec<Record> = compose(1, USUAL_SIZE).into_iter().filter(|record| record.answer.number == 0 && !record.sheet.is_empty()).collect();
    let several = |what: &str, least: usize, test: &dyn Fn(&Circuit, &[Tag], &Record) -> bool| {
        let has = |record: &&Record| test(&read_circuit(&record.circuit).unwrap(), &entries(&record.sheet), record);
        let count = stored.iter().filter(has).count();
        assert!(count >= least, "{what}: {count}");
    };
    let judged = |record: &Record| record.kind != PAIR;
    several("empty sheets", 300, &|_, tags, _| tags.is_empty());
    several("tags", 600, &|_, tags, _| !tags.is_empty());
    several("256 entries", 6, &|_, tags, _| tags.len() == 256);
    several("a tag on signal 256", 6, &|_, tags, _| tags.iter().any(|tag| tag.signal == 256));
    several("no inputs and tags", 6, &|circuit, tags, _| circuit.inputs == 0 && !tags.is_empty());
    several("maxbit 0 on an input", 6, &|circuit, tags, _| tags.iter().any(|tag| (tag.kind, tag.number) == (2, 0) && tag.signal <= circuit.inputs));
    several("maxbit 30 over the largest prime", 3, &|circuit, tags, _| {
        circuit.field.prime() == 2_147_483_647 && tags.iter().any(|tag| (tag.kind, tag.number) == (2, 30) && tag.signal <= circuit.inputs)
    });
    several("binary over 3", 3, &|circuit, tags, _| circuit.field.prime() == 3 && tags.iter().any(|tag| tag.kind == 1));
    several("maxvalue p - 1 on an input", 6, &|circuit, tags, _| {
        tags.iter().any(|tag| tag.kind == 3 && u64::from(tag.number) + 1 == circuit.field.prime() && tag.signal <= circuit.inputs)
    });
    several("2^v - 1 above p - 1", 6, &|circuit, tags, _| tags.iter().any(|tag| tag.kind == 2 && (1 << tag.number) > circuit.field.prime()));
    several("first not shown is the first entry", 6, &|_, _, record| judged(record) && record.answer.values[3] == 1);
    several("a middle one", 6, &|_, tags, record| judged(record) && (2..tags.len() as u32).contains(&record.answer.values[3]));
    several("the last one", 6, &|_, tags, record| judged(record) && tags.len() > 1 && record.answer.values[3] as usize == tags.len());
    several("entry 256", 2, &|_, _, record| judged(record) && record.answer.values[3] == 256);
    several("all shown", 6, &|_, _, record| judged(record) && record.answer.values[2] > 1 && record.answer.values[3] == 0);
}
