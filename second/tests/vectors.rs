//! The files of test vectors: what is in them, and that they are read back as they were written.

use std::collections::BTreeSet;
use std::path::Path;

use second::compose::{compose, USUAL_SIZE};
use second::marker::read_steps;
use second::reader::{number16, number32};
use second::rules::Step;
use second::vectors::{records, volumes, write, Record, DERIVATION, KINDS, MOST_BYTES, RENEW, SOLVE};

#[test]
fn files_are_read_back_and_agree() {
    for seed in [1, 2, 77] {
        let made = compose(seed, USUAL_SIZE);
        let files: Vec<Vec<u8>> = volumes(&made).into_iter().map(write).collect();
        assert_eq!(files.len(), 4);
        assert!(files.iter().all(|file| file.len() <= MOST_BYTES));
        let read: Vec<Record> = files.iter().flat_map(|file| records(file).unwrap().map(Result::unwrap)).collect();
        assert_eq!(read, made);
        assert!(read.iter().all(Record::agrees));
        assert_eq!(read, compose(seed, USUAL_SIZE), "the same seed gives the same records");
    }
}

#[test]
fn there_are_some_thousands_of_circuits() {
    let made = compose(1, USUAL_SIZE);
    let circuits: BTreeSet<&[u8]> = made.iter().map(|record| &record.circuit[..]).collect();
    assert!(circuits.len() > 2_040, "{}", circuits.len());
    let sizes: BTreeSet<usize> = circuits.iter().map(|circuit| circuit.len()).collect();
    assert!(sizes.contains(&0) && sizes.contains(&59_999) && sizes.contains(&60_000));
}

#[test]
fn the_stored_files_are_these() {
    let folder = Path::new(env!("CARGO_MANIFEST_DIR")).join("../crates/vectors/data");
    for (number, volume) in (1..).zip(volumes(&compose(1, USUAL_SIZE))) {
        assert!(std::fs::read(folder.join(format!("vectors-{number}.bin"))).unwrap() == write(volume), "vectors-{number}.bin");
    }
}

/// Each limit is told from its neighbours by several vectors.
#[test]
fn no_limit_hangs_on_one_vector() {
    let made = compose(1, USUAL_SIZE);
    let several = |what: &str, test: &dyn Fn(&Record) -> bool| {
        let count = made.iter().filter(|record| test(record)).count();
        assert!(count >= 3, "{what}: {count}");
    };
    let header = |r: &Record, at: usize| if r.circuit.len() < 17 { 0 } else { number16(&r.circuit, at) };
    for (length, number) in [(16, 1), (17, 0), (59_999, 0), (60_000, 10), (60_001, 1)] {
        several("length", &|r| r.circuit.len() == length && r.answer.number == number);
    }
    for (n, number) in [(255, 0), (256, 0), (257, 5)] {
        several("n", &|r| header(r, 9) == n && r.answer.number == number);
    }
    for (m, number) in [(511, 0), (512, 0), (513, 5)] {
        several("m", &|r| header(r, 15) == m && r.answer.number == number);
    }
    for (t, number) in [(32, 0), (33, 7)] {
        several("t", &|r| header(r, 15) > 0 && r.circuit.get(17) == Some(&t) && r.answer.number == number);
    }
    for (more, number) in [(-1, 14), (0, 0), (1, 0)] {
        several("marks", &|r| r.kind == DERIVATION && i64::from(r.lent) == i64::from(header(r, 9)) + more && r.answer.number == number);
    }
    for (more, number) in [(-1, 25), (0, 0), (1, 0)] {
        several("output", &|r| r.kind == SOLVE && i64::from(r.lent) == 7 + 21 * i64::from(header(r, 9)) + more && r.answer.number == number);
    }
    several("output as before nonzero marks", &|r| r.kind == SOLVE && r.lent == 7 + 14 * u32::from(header(r, 9)) && r.answer.number == 25);
    several("output that is filled", &|r| r.kind == SOLVE && r.answer.number == 0 && r.lent > 7 && r.answer.written.len() == r.lent as usize);
    for (more, number) in [(-1, 25), (0, 0), (1, 0)] {
        several("renewed", &|r| r.kind == RENEW && i64::from(r.lent) == r.hand_in.len() as i64 + more && r.answer.number == number);
    }
    for (steps, least) in [(4095, 1), (4096, 2), (4097, 2)] {
        let refused = |r: &Record| r.answer.number == 13;
        for kind in [DERIVATION, RENEW] {
            let count = made.iter().filter(|r| r.kind == kind && r.hand_in.len() == 7 + 7 * steps && refused(r) == (steps > 4096)).count();
            assert!(count >= least, "{steps} steps in call {kind}: {count}");
        }
    }
    let whole = |r: &&Record| r.hand_in.len() == 7 + 7 * 4096 && r.answer.number == 0;
    assert!(made.iter().filter(whole).any(|r| r.kind == DERIVATION), "4,096 steps, none idle");
    assert!(made.iter().filter(whole).any(|r| r.kind == RENEW && r.answer.written == r.hand_in), "4,096 steps, none idle");
    assert!(made.iter().filter(whole).any(|r| r.kind == RENEW && r.answer.written.len() == 14), "4,096 steps, all idle but the first");
}

/// The limits of sheets and of the numbers of their entries.
#[test]
fn no_limit_of_tags_hangs_on_one_vector() {
    let made = compose(1, USUAL_SIZE);
    let several = |what: &str, least: usize, number: u16, test: &dyn Fn(&Record) -> bool| {
        let count = made.iter().filter(|record| record.answer.number == number && test(record)).count();
        assert!(count >= least, "{what} with {number}: {count}");
    };
    for (length, number) in [(6, 26), (7, 0), (8, 26)] {
        several("length", 3, number, &|r| r.sheet.len() == length);
    }
    for (count, least, number) in [(255, 1, 0), (256, 3, 0), (257, 1, 26)] {
        several("count", least, number, &|r| r.sheet.len() == 7 + 7 * count && usize::from(number16(&r.sheet, 5)) == count);
    }
    // The entry that is refused, or the first one.
    let entry = |r: &Record| r.sheet.get(7 * r.answer.place.max(1) as usize..).filter(|rest| rest.len() >= 7).map(|rest| rest[..7].to_vec());
    let kind_and_number = |r: &Record| entry(r).map(|entry| (entry[2], number32(&entry, 3)));
    let p = |r: &Record| if r.circuit.len() < 17 { 0 } else { number32(&r.circuit, 5) };
    for (kind, v, number) in [(1, 0, 0), (1, 1, 27), (2, 30, 0), (2, 31, 27)] {
        several("number", 3, number, &|r| kind_and_number(r) == Some((kind, v)));
    }
    for (more, number) in [(-1, 0), (0, 27)] {
        several("maxvalue", 3, number, &|r| kind_and_number(r).is_some_and(|(kind, v)| kind == 3 && i64::from(v) == i64::from(p(r)) + more));
    }
    for (kind, number) in [(0, 27), (1, 0), (3, 0), (4, 27)] {
        several("kind", 3, number, &|r| kind_and_number(r).is_some_and(|(found, _)| found == kind));
    }
    for (more, number) in [(0, 0), (1, 27)] {
        several("signal", 3, number, &|r| {
            r.circuit.len() >= 17 && entry(r).is_some_and(|entry| number16(&entry, 0) == number16(&r.circuit, 9) + more)
        });
    }
    several("signal 0", 3, 27, &|r| entry(r).is_some_and(|entry| number16(&entry, 0) == 0));
}

/// The last steps of derivations, and how they are refused.
#[test]
fn fields_hang_on_several_vectors() {
    let made = compose(1, USUAL_SIZE);
    let several = |what: &str, number: u16, test: &dyn Fn(Step) -> bool| {
        let ends = made.iter().filter(|r| r.kind == DERIVATION && r.answer.number == number).filter_map(|r| {
            let steps = read_steps(&r.hand_in).ok()?;
            steps.last().copied().filter(|_| r.answer.place as usize == steps.len())
        });
        let count = ends.filter(|&step| test(step)).count();
        assert!(count >= 3, "{what}: {count}");
    };
    several("digits by reference 0", 16, &|s| s.kind == 5 && s.target > 0 && s.constraint > 0 && s.reference == 0);
    several("digits by a reference without a coefficient", 17, &|s| s == Step::new(5, 4, 3, 3) || s == Step::new(5, 4, 3, 5));
    several("nonzero with a reference", 16, &|s| s.kind == 6 && s.target > 0 && s.constraint > 0 && s.reference > 0);
    several("nonzero without a constraint", 16, &|s| s.kind == 6 && s.target > 0 && s.constraint == 0);
    several("quotient by reference 0", 16, &|s| s.kind == 7 && s.target > 0 && s.constraint > 0 && s.reference == 0);
    several("quotient by the target", 17, &|s| s.kind == 7 && s.reference == s.target);
    several("kind 6", 17, &|s| s.kind == 6);
    several("kind 6", 29, &|s| s.kind == 6);
    several("kind 7", 17, &|s| s.kind == 7);
    several("kind 7", 29, &|s| s.kind == 7);
    several("kind 8", 15, &|s| s.kind == 8);
    several("kind 9", 15, &|s| s.kind == 9);
    several("kind 255", 15, &|s| s.kind == 255);
    several("zero with a constraint", 16, &|s| s.kind == 3 && s.constraint > 0 && s.reference == 0);
    several("zero with a reference", 16, &|s| s.kind == 3 && s.constraint == 0 && s.reference > 0);
}

#[test]
fn every_refusal_occurs_at_several_places() {
    for seed in [1, 2, 3] {
        let made = compose(seed, USUAL_SIZE);
        for number in 0..=34 {
            let places: Vec<u32> = made.iter().filter(|record| record.answer.number == number).map(|record| record.answer.place).collect();
            assert!(places.len() >= 5, "refusal {number}: {places:?}");
            if [6, 7, 8, 9, 10, 15, 16, 17, 21, 22, 23, 24, 27, 28, 29, 31, 33].contains(&number) {
                assert!(places.iter().collect::<BTreeSet<_>>().len() >= 5, "refusal {number}: {places:?}");
            }
        }
        for kind in KINDS {
            assert!(made.iter().filter(|record| record.kind == kind && record.answer.number == 0).count() >= 80);
        }
    }
}

#[test]
fn a_wrong_answer_is_noticed() {
    let mut made = compose(4, 0);
    assert!(made[0].agrees());
    made[0].answer.values[0] += 1;
    assert!(!made[0].agrees());
}

#[test]
fn damaged_files_are_reported() {
    let file = write(&compose(5, 0)[..3]);
    let failed = |file: &[u8]| records(file).map_or(true, |mut records| records.any(|record| record.is_err()));
    assert!(!failed(&file));
    for length in 0..file.len() {
        assert!(failed(&file[..length]), "{length}");
    }
    assert!(failed(&[&file[..], &[0]].concat()));
}
