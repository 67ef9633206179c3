//! Every refusal from 1 to 34: its number, its place, what comes before what; and that a refusal writes nothing.

use second::cases::{case_a, case_c};
use second::damage::Layout;
use second::falling::{self, Falling};
use second::marker::write_steps;
use second::pair::write_pair;
use second::rules::{Step, DIGITS, QUOTIENT, STEPS, ZERO};
use second::sheet::{write_sheet, Tag, BINARY, MAXBIT, MAXVALUE, NO_TAGS};
use second::solver::longest;
use second::vectors::{answer, bytes_of, DERIVATION, FIRST_RUN, NEXT_RUN, PAIR, READ, RENEW, SOLVE, WATCH};
use second::writer::Draft;

/// Number and place of the answer with a sheet; `answer` checks that a refusal leaves the buffer as it was.
fn refused_with(kind: u8, circuit: &[u8], sheet: &[u8], hand_in: &[u8], lent: usize) -> (u16, u32) {
    let answer = answer(kind, circuit, sheet, hand_in, lent);
    (answer.number, answer.place)
}

/// Number and place of the answer without tags.
fn refused(kind: u8, circuit: &[u8], hand_in: &[u8], lent: usize) -> (u16, u32) {
    refused_with(kind, circuit, NO_TAGS, hand_in, lent)
}

/// The refusal of a circuit, which must be the same in all calls, whatever is handed in.
fn refused_circuit(circuit: &[u8]) -> (u16, u32) {
    let refusal = refused(READ, circuit, &[], 0);
    for (kind, lent) in
        [(DERIVATION, 0), (PAIR, 0), (SOLVE, 0), (SOLVE, longest(256)), (RENEW, 0), (RENEW, 40), (FIRST_RUN, 4), (NEXT_RUN, 4), (WATCH, 39)]
    {
        assert_eq!(refused(kind, circuit, b"bad", lent), refusal);
        assert_eq!(refused_with(kind, circuit, b"bad", b"bad", lent), refusal);
        assert_eq!(refused_with(kind, circuit, &write_sheet(&[Tag::new(0, 0, 0)]), b"bad", lent), refusal);
    }
    refusal
}

fn put(bytes: &[u8], at: usize, new: &[u8]) -> Vec<u8> {
    let mut result = bytes.to_vec();
    result[at..at + new.len()].copy_from_slice(new);
    result
}

#[test]
fn length_mark_and_version() {
    let c = case_c(13);
    for length in 0..17 {
        assert_eq!(refused_circuit(&c[..length]), (1, 0));
    }
    let long = |length: usize| [&c[..], &vec![0; length - c.len()]].concat();
    assert_eq!(refused_circuit(&long(60_000)), (10, 113));
    assert_eq!(refused_circuit(&long(60_001)), (1, 0));
    assert_eq!(refused_circuit(&put(&long(60_001), 0, b"X")), (1, 0));
    for at in 0..3 {
        assert_eq!(refused_circuit(&put(&c, at, b"X")), (2, 0));
    }
    assert_eq!(refused_circuit(&put(&put(&c, 0, b"c"), 3, &[2])), (2, 0));
    for version in [0u16, 2, 256, 257, 65_535] {
        assert_eq!(refused_circuit(&put(&c, 3, &version.to_le_bytes())), (3, 0));
    }
    assert_eq!(refused_circuit(&put(&put(&c, 3, &[2]), 5, &[4])), (3, 0));
}

#[test]
fn prime_and_sizes() {
    let header = |p: u32, numbers: [u16; 4]| {
        let rest: Vec<u8> = numbers.iter().flat_map(|number| number.to_le_bytes()).collect();
        [&b"CQT\x01\0"[..], &p.to_le_bytes(), &rest].concat()
    };
    for p in second::damage::NOT_PRIMES {
        assert_eq!(refused_circuit(&header(p, [1, 0, 1, 0])), (4, 0), "{p}");
        assert_eq!(refused_circuit(&header(p, [0, 0, 0, 600])), (4, 0), "{p}");
    }
    for numbers in [[1, 0, 1, 0], [256, 0, 1, 0], [256, 255, 1, 0], [256, 0, 256, 0], [3, 2, 1, 0]] {
        assert_eq!(refused(READ, &header(13, numbers), &[], 0), (0, 0), "{numbers:?}");
    }
    for numbers in
        [[0, 0, 1, 0], [257, 0, 1, 0], [3, 0, 0, 0], [3, 3, 1, 0], [3, 2, 2, 0], [3, 3, 0, 0], [3, 0, 1, 513], [3, 65_535, 2, 0], [3, 1, 65_535, 0]]
    {
        assert_eq!(refused_circuit(&header(13, numbers)), (5, 0), "{numbers:?}");
    }
    assert_eq!(refused_circuit(&header(13, [3, 0, 1, 512])), (6, 17));
    assert_eq!(refused(READ, &[&header(13, [3, 0, 1, 512])[..], &[0; 1536]].concat(), &[], 0), (0, 0));
}

#[test]
fn cut_files() {
    let c = case_c(13);
    let Layout { counts, terms } = Layout::of(&c);
    for length in 17..113 {
        let due = counts.iter().chain(&terms).copied().filter(|&at| at <= length).max().unwrap();
        assert_eq!(refused_circuit(&c[..length]), (6, due as u32), "{length}");
    }
    for more in 1..8 {
        assert_eq!(refused_circuit(&[&c[..], &vec![0; more]].concat()), (10, 113));
    }
    assert_eq!(refused_circuit(&put(&c, 15, &[5])), (6, 113));
    assert_eq!(refused_circuit(&put(&c, 15, &[3])), (10, 80));
}

#[test]
fn counts_and_terms() {
    let full: Vec<(u16, i64)> = (1..=32).map(|signal| (signal, 1)).collect();
    let circuit = Draft::new(13, 33, 0, 1).with(&full, &full, &full).with(&[], &full, &[]).bytes();
    assert_eq!(refused(READ, &circuit, &[], 0), (0, 0));
    let Layout { counts, terms } = Layout::of(&circuit);
    for &at in &counts {
        for count in [33, 34, 128, 255] {
            assert_eq!(refused_circuit(&put(&circuit, at, &[count])), (7, at as u32));
            assert_eq!(refused_circuit(&put(&circuit, at, &[count])[..at + 1]), (7, at as u32), "7 though the terms are missing");
        }
    }
    for (index, &at) in terms.iter().enumerate() {
        let place = at as u32;
        for coefficient in [0, 13, 14, 1 << 31, u32::MAX] {
            let bad = put(&circuit, at + 2, &coefficient.to_le_bytes());
            assert_eq!(refused_circuit(&bad), (9, place));
            assert_eq!(refused_circuit(&put(&bad, at, &[34])), (8, place), "8 before 9");
            assert_eq!(refused_circuit(&put(&bad, at, &[34])[..at + 5]), (6, place), "6 before 8");
        }
        for signal in [34u16, 256, 65_535] {
            assert_eq!(refused_circuit(&put(&circuit, at, &signal.to_le_bytes())), (8, place));
        }
        let first_in_form = index % 32 == 0;
        let lower = put(&circuit, at, &[index as u8 % 32]);
        assert_eq!(refused(READ, &lower, &[], 0), if first_in_form { (0, 0) } else { (8, place) }, "the same as the one before, or 0");
    }
}

#[test]
fn the_first_fault_in_the_file_gives_the_place() {
    let circuit = Draft::new(13, 3, 0, 1).with(&[(1, 1), (2, 1)], &[(1, 1)], &[]).with(&[(1, 1)], &[(1, 1)], &[]).bytes();
    let Layout { counts, terms } = Layout::of(&circuit);
    let later = put(&put(&circuit, counts[3], &[33]), terms[2] + 2, &[0]);
    assert_eq!(refused_circuit(&later), (9, terms[2] as u32));
    assert_eq!(refused_circuit(&put(&later, terms[1], &[1])), (8, terms[1] as u32));
    assert_eq!(refused_circuit(&put(&circuit, terms[0], &[3])), (8, terms[1] as u32));
}

#[test]
fn derivation_files() {
    let a = case_a();
    let good = write_steps(&[Step::new(4, 2, 1, 0)]);
    let refused = |derivation: &[u8], lent: usize| refused(DERIVATION, &a, derivation, lent);
    assert_eq!(refused(&good, 2), (0, 0));
    assert_eq!(refused(&write_steps(&[]), 2), (0, 0));
    for length in 0..7 {
        assert_eq!(refused(&good[..length], 2), (11, 0));
    }
    for at in 0..3 {
        assert_eq!(refused(&put(&good, at, b"X"), 2), (11, 0));
    }
    assert_eq!(refused(&put(&good, 3, &[2, 0, 9]), 2), (12, 0));
    assert_eq!(refused(&put(&good, 3, &[1, 1]), 2), (12, 0));
    for count in [0u16, 2, 257, 4097, 65_535] {
        assert_eq!(refused(&put(&good, 5, &count.to_le_bytes()), 0), (13, 0));
    }
    assert_eq!(refused(&good[..13], 2), (13, 0));
    assert_eq!(refused(&[&good[..], &[0]].concat(), 2), (13, 0));
    let many = |count: usize| write_steps(&vec![Step::new(4, 2, 1, 0); count]);
    assert_eq!(refused(&many(4096), 2), (29, 2));
    assert_eq!(refused(&many(4097), 2), (13, 0));
    let Falling { circuit, derivation } = falling::chain();
    assert_eq!(refused_with(DERIVATION, &circuit, NO_TAGS, &derivation, 64), (0, 0), "4,096 steps, none idle");
    let wrong = write_steps(&[Step::new(9, 2, 1, 0)]);
    for lent in 0..2 {
        assert_eq!(refused(&wrong, lent), (14, 0));
    }
    assert_eq!(refused(&wrong, 2), (15, 1));
}

#[test]
fn step_fields() {
    // 3 signals, 2 constraints; before the step in question three that are met.
    let circuit = Draft::new(13, 3, 1, 1).with(&[(2, 1)], &[(2, 1)], &[]).with(&[(0, 1)], &[(1, 1), (3, -1)], &[]).bytes();
    let before = [Step::new(1, 2, 1, 0), Step::new(3, 2, 0, 0), Step::new(5, 3, 2, 3)];
    let refused = |kind: u8, target: u16, constraint: u16, reference: u16| {
        let steps = [&before[..], &[Step::new(kind, target, constraint, reference), Step::new(0, 0, 0, 0)]].concat();
        refused(DERIVATION, &circuit, &write_steps(&steps), 3)
    };
    for kind in [0, 8, 9, 128, 255] {
        assert_eq!(refused(kind, 0, 9, 9), (15, 4));
    }
    for (target, constraint, reference) in [(0, 1, 0), (4, 1, 0), (256, 1, 0), (2, 0, 0), (2, 3, 0), (2, 257, 0), (2, 1, 1), (2, 1, 256)] {
        for kind in [1, 2, 4, 6] {
            assert_eq!(refused(kind, target, constraint, reference), (16, 4));
        }
    }
    for (target, constraint, reference) in [(0, 0, 0), (4, 0, 0), (2, 1, 0), (2, 0, 1), (2, 256, 0)] {
        assert_eq!(refused(3, target, constraint, reference), (16, 4));
    }
    for (target, constraint, reference) in [(0, 2, 1), (4, 2, 1), (3, 0, 1), (3, 3, 1), (3, 2, 0), (3, 2, 4), (3, 2, 257)] {
        assert_eq!(refused(5, target, constraint, reference), (16, 4));
        assert_eq!(refused(7, target, constraint, reference), (16, 4));
    }
    for (kind, target, constraint, reference) in
        [(1, 1, 1, 0), (1, 2, 2, 0), (2, 2, 1, 0), (3, 1, 0, 0), (4, 2, 1, 0), (5, 2, 2, 1), (5, 1, 1, 1), (6, 2, 1, 0), (7, 3, 2, 1)]
    {
        assert_eq!(refused(kind, target, constraint, reference), (17, 4));
    }
    for (kind, target, constraint, reference) in [(1, 2, 1, 0), (3, 2, 0, 0), (5, 3, 2, 3), (5, 3, 2, 1), (5, 1, 2, 1), (2, 3, 2, 0)] {
        assert_eq!(refused(kind, target, constraint, reference), (29, 4), "a step that changes nothing, before a wrong kind");
    }
}

#[test]
fn no_constraints() {
    let circuit = Draft::new(13, 2, 1, 1).bytes();
    for kind in STEPS.filter(|&kind| kind != ZERO) {
        let step = Step::new(kind, 1, 1, u16::from([DIGITS, QUOTIENT].contains(&kind)));
        assert_eq!(refused(DERIVATION, &circuit, &write_steps(&[step]), 2), (16, 1));
    }
    assert_eq!(refused(PAIR, &circuit, &write_pair(2, &[3, 0], &[3, 1]), 0), (0, 0));
}

#[test]
fn pair_files() {
    let d = case_c(7);
    let good = write_pair(3, &[0, 0, 0, 0], &[0, 1, 1, 1]);
    let refused = |pair: &[u8]| refused(PAIR, &d, pair, 0);
    assert_eq!(refused(&good), (0, 0));
    for length in 0..7 {
        assert_eq!(refused(&good[..length]), (18, 0));
    }
    for at in 0..3 {
        assert_eq!(refused(&put(&good, at, b"X")), (18, 0));
    }
    assert_eq!(refused(&put(&good, 3, &[0, 0, 9])), (19, 0));
    for length in [7, 8, 38] {
        assert_eq!(refused(&good[..length]), (20, 0));
    }
    assert_eq!(refused(&[&good[..], &[0]].concat()), (20, 0));
    for q in [0u16, 1, 5, 258, 65_535] {
        assert_eq!(refused(&put(&put(&good, 5, &q.to_le_bytes()), 7, &[9])), (20, 0));
    }
    for place in 1..=8 {
        for value in [7, 8, u32::MAX] {
            let bad = put(&good, 3 + 4 * place, &value.to_le_bytes());
            assert_eq!(refused(&bad), (21, place as u32));
            assert_eq!(refused(&put(&bad, 35, &[7])), (21, place as u32), "the first of two");
        }
    }
}

#[test]
fn pairs_of_runs() {
    let d = case_c(7);
    let refused = |q: u16, first: [u32; 4], second: [u32; 4]| refused(PAIR, &d, &write_pair(q, &first, &second), 0);
    assert_eq!(refused(2, [0, 2, 0, 0], [0, 0, 2, 0]), (22, 1));
    assert_eq!(refused(2, [0, 0, 2, 0], [0, 2, 0, 0]), (22, 2));
    assert_eq!(refused(2, [0, 0, 0, 2], [0, 0, 0, 0]), (22, 3));
    assert_eq!(refused(2, [1, 0, 0, 0], [0, 0, 0, 0]), (22, 4));
    assert_eq!(refused(2, [0, 0, 0, 0], [0, 2, 2, 0]), (22, 5));
    assert_eq!(refused(2, [0, 0, 0, 0], [0, 0, 0, 2]), (22, 7));
    assert_eq!(refused(2, [0, 0, 0, 0], [1, 0, 0, 0]), (22, 8));
    assert_eq!(refused(2, [0, 0, 0, 0], [2, 0, 1, 0]), (23, 1));
    assert_eq!(refused(2, [0, 0, 0, 0], [0, 0, 0, 0]), (24, 2));
    assert_eq!(refused(4, [1, 1, 0, 0], [1, 1, 0, 0]), (24, 4));
    let free = Draft::new(7, 5, 3, 2).bytes();
    let refused = |q: u16, second: [u32; 5]| refused_free(&free, q, second);
    assert_eq!(refused(5, [0, 0, 1, 0, 0]), (23, 3));
    assert_eq!(refused(5, [0, 1, 1, 0, 1]), (23, 2));
    assert_eq!(refused(5, [0, 0, 0, 1, 0]), (24, 5));
    assert_eq!(refused(4, [0, 0, 0, 1, 0]), (0, 0));
}

/// The pair of a run of zeros and another.
fn refused_free(circuit: &[u8], q: u16, second: [u32; 5]) -> (u16, u32) {
    refused(PAIR, circuit, &write_pair(q, &[0; 5], &second), 0)
}

#[test]
fn solver_buffers() {
    for (circuit, n) in [(case_a(), 2), (case_c(13), 4), (Draft::new(13, 256, 0, 1).bytes(), 256)] {
        let needed = 7 + 21 * n;
        for lent in [0, 6, 7, needed - 1] {
            assert_eq!(refused(SOLVE, &circuit, &[], lent), (25, 0));
        }
        for lent in [needed, needed + 1, longest(257)] {
            assert_eq!(refused(SOLVE, &circuit, &[], lent), (0, 0));
        }
    }
}

#[test]
fn renewal_buffers() {
    let product = Step::new(4, 2, 1, 0);
    let refused = |steps: &[Step], lent: usize| refused(RENEW, &case_a(), &write_steps(steps), lent);
    for steps in [&[][..], &[product], &[product; 2], &[product; 40]] {
        let length = 7 + 7 * steps.len();
        for lent in [0, 6, length - 1] {
            assert_eq!(refused(steps, lent), (25, 0), "{} steps", steps.len());
        }
        for lent in [length, length + 1, 5000] {
            assert_eq!(refused(steps, lent), (0, 0), "{} steps", steps.len());
        }
    }
    // After the derivation's first bytes and every step.
    assert_eq!(refused_with(RENEW, &case_a(), NO_TAGS, b"bad", 0), (11, 0));
    assert_eq!(refused_with(RENEW, &case_a(), NO_TAGS, &put(&write_steps(&[product]), 3, &[2]), 0), (12, 0));
    assert_eq!(refused_with(RENEW, &case_a(), NO_TAGS, &write_steps(&[product; 2])[..20], 0), (13, 0));
    for (number, step) in [(15, Step::new(8, 2, 1, 0)), (16, Step::new(4, 2, 2, 0)), (17, Step::new(2, 2, 1, 0))] {
        assert_eq!(refused(&[product, product, step, product], 0), (number, 3));
        assert_eq!(refused(&[product, product, step, product], 35), (number, 3));
    }
}

#[test]
fn marks_are_written_and_nothing_beyond() {
    let answer = answer(DERIVATION, &case_a(), NO_TAGS, &write_steps(&[]), 9);
    assert_eq!((answer.values, answer.written), ([1, 0, 0, 0, 0], vec![1, 0]));
}

/// The answer for a sheet with a good derivation, a good pair or a buffer that is long enough, which must be the same in all four calls; and, where it is a
/// refusal, whatever else is handed in.
fn refused_sheet(p: u32, sheet: &[u8]) -> (u16, u32) {
    let circuit = Draft::new(p, 4, 2, 1).bytes();
    let refusal = refused_with(SOLVE, &circuit, sheet, &[], longest(4));
    assert_eq!(refused_with(DERIVATION, &circuit, sheet, &write_steps(&[]), 4), refusal);
    assert_eq!(refused_with(PAIR, &circuit, sheet, &write_pair(3, &[0; 4], &[0, 0, 1, 0]), 0), refusal);
    assert_eq!(refused_with(RENEW, &circuit, sheet, &write_steps(&[]), 7), refusal);
    if refusal.0 > 0 {
        assert_eq!(refused_with(SOLVE, &circuit, sheet, &[], 0), refusal, "before 25");
        for bad in [&b"bad"[..], b"no hand-in", &write_steps(&[Step::new(0, 0, 0, 0)])] {
            assert_eq!(refused_with(DERIVATION, &circuit, sheet, bad, 0), refusal, "before 11 to 17");
            assert_eq!(refused_with(RENEW, &circuit, sheet, bad, 0), refusal, "before 11 to 17 and 25");
        }
        for bad in [&b"bad"[..], b"PQT\x01\0\0\0", &write_pair(3, &[p; 4], &[0; 4]), &write_pair(3, &[0; 4], &[1; 4])] {
            assert_eq!(refused_with(PAIR, &circuit, sheet, bad, 0), refusal, "before 18 to 24");
        }
    }
    refusal
}

#[test]
fn sheet_files() {
    let good = write_sheet(&[Tag::new(1, MAXVALUE, 5), Tag::new(3, MAXBIT, 6), Tag::new(4, BINARY, 0)]);
    assert_eq!(refused_sheet(13, &good), (0, 0));
    assert_eq!(refused_sheet(13, NO_TAGS), (0, 0));
    for length in 0..7 {
        assert_eq!(refused_sheet(13, &good[..length]), (26, 0));
        assert_eq!(refused_sheet(13, &NO_TAGS[..length]), (26, 0), "no bytes aren't no tags");
    }
    for length in 7..28 {
        assert_eq!(refused_sheet(13, &good[..length]), (26, 0));
    }
    for more in 1..9 {
        assert_eq!(refused_sheet(13, &[&good[..], &vec![0; more]].concat()), (26, 0));
        assert_eq!(refused_sheet(13, &[NO_TAGS, &vec![0; more]].concat()), (26, 0));
    }
    for at in 0..3 {
        assert_eq!(refused_sheet(13, &put(&good, at, b"X")), (26, 0));
    }
    for version in [0u16, 2, 256, 257, 65_535] {
        assert_eq!(refused_sheet(13, &put(&good, 3, &version.to_le_bytes())), (26, 0));
    }
    for count in [0u16, 2, 4, 259, 65_535] {
        assert_eq!(refused_sheet(13, &put(&good, 5, &count.to_le_bytes())), (26, 0));
    }
    for (count, refusal) in [(255, 0), (256, 0), (257, 26), (512, 26)] {
        assert_eq!(refused_sheet(13, &write_sheet(&vec![Tag::new(1, BINARY, 0); count])), (refusal, 0));
    }
}

#[test]
fn entries_of_sheets() {
    let bad = [(0, 1, 0), (5, 1, 0), (257, 1, 0), (65_535, 1, 0), (1, 0, 0), (1, 4, 0), (1, 255, 0)];
    let numbers = [(1, 1, 1), (1, 1, 256), (1, 1, u32::MAX), (4, 2, 31), (4, 2, 32), (4, 2, 256), (4, 2, u32::MAX)];
    let values = |p: u32| [(2, 3, p), (2, 3, p + 1), (3, 3, u32::MAX)];
    for p in [3, 13, 2_147_483_647] {
        for (signal, kind, number) in [&bad[..], &numbers, &values(p)].concat() {
            let (tag, good) = (Tag::new(signal, kind, number), Tag::new(3, MAXBIT, 30));
            assert_eq!(refused_sheet(p, &write_sheet(&[tag])), (27, 1), "{tag:?}");
            assert_eq!(refused_sheet(p, &write_sheet(&[good, good, tag, good, tag])), (27, 3), "{tag:?}");
            assert_eq!(refused_sheet(p, &write_sheet(&[&vec![good; 255][..], &[tag]].concat())), (27, 256), "{tag:?}");
            let sheet = write_sheet(&[tag, good]);
            assert_eq!(refused_sheet(p, &sheet[..20]), (26, 0), "26 before 27");
            assert_eq!(refused_sheet(p, &put(&sheet, 3, &[2])), (26, 0), "26 before 27");
        }
        for (signal, kind, number) in [(1, 1, 0), (4, 1, 0), (1, 2, 0), (1, 2, 30), (3, 3, 0), (1, 3, p - 1)] {
            assert_eq!(refused_sheet(p, &write_sheet(&[Tag::new(signal, kind, number)])), (0, 0));
        }
    }
}

#[test]
fn inputs_that_break_their_tags() {
    // 3 inputs, 4 an output, 5 free; nothing between them.
    let free = Draft::new(31, 5, 3, 1).bytes();
    let refused = |tags: &[(u16, u8, u32)], first: [u32; 5], second: [u32; 5]| {
        let tags: Vec<Tag> = tags.iter().map(|&(signal, kind, number)| Tag::new(signal, kind, number)).collect();
        refused_with(PAIR, &free, &write_sheet(&tags), &write_pair(4, &first, &second), 0)
    };
    let alike = |tags: &[(u16, u8, u32)], [x, y, z]: [u32; 3]| refused(tags, [x, y, z, 0, 0], [x, y, z, 1, 0]);
    let tags = [(3, MAXVALUE, 5), (1, BINARY, 0), (2, MAXBIT, 3)];
    assert_eq!(alike(&tags, [1, 7, 5]), (0, 0));
    assert_eq!(alike(&tags, [2, 7, 5]), (28, 1));
    assert_eq!(alike(&tags, [1, 8, 5]), (28, 2));
    assert_eq!(alike(&tags, [1, 7, 6]), (28, 3));
    assert_eq!(alike(&tags, [1, 8, 6]), (28, 2), "the lowest input, not the first entry");
    assert_eq!(alike(&[(2, MAXVALUE, 9), (2, MAXVALUE, 4), (2, MAXVALUE, 30)], [30, 5, 30]), (28, 2), "each of several");
    assert_eq!(alike(&[(2, MAXVALUE, 9), (2, MAXVALUE, 4), (2, MAXVALUE, 30)], [30, 4, 30]), (0, 0));
    assert_eq!(alike(&[(4, MAXVALUE, 0), (5, MAXBIT, 0), (4, BINARY, 0)], [30; 3]), (0, 0), "tags on other signals");
    assert_eq!(alike(&[(1, MAXBIT, 5), (2, MAXBIT, 30), (3, MAXVALUE, 30)], [30; 3]), (0, 0), "limits of p - 1 and more");
    // After 23, before 24.
    assert_eq!(refused(&tags, [2, 0, 0, 0, 0], [2, 0, 1, 1, 0]), (23, 3));
    assert_eq!(refused(&tags, [2, 0, 0, 0, 0], [3, 0, 0, 1, 0]), (23, 1));
    assert_eq!(refused(&tags, [0, 0, 6, 0, 0], [1, 0, 6, 0, 0]), (23, 1));
    assert_eq!(refused(&tags, [0, 0, 6, 3, 0], [0, 0, 6, 3, 0]), (28, 3));
    assert_eq!(refused(&tags, [0, 0, 5, 3, 0], [0, 0, 5, 3, 0]), (24, 4));
    assert_eq!(refused(&tags, [0, 0, 31, 3, 0], [0, 0, 31, 3, 0]), (21, 3));
    // After 22: the output must be 0.
    let zero = Draft::new(31, 2, 1, 1).with(&[(0, 1)], &[(2, 1)], &[]).bytes();
    let sheet = write_sheet(&[Tag::new(1, BINARY, 0)]);
    assert_eq!(refused_with(PAIR, &zero, &sheet, &write_pair(2, &[9, 0], &[9, 1]), 0), (22, 2));
    assert_eq!(refused_with(PAIR, &zero, &sheet, &write_pair(2, &[9, 0], &[9, 0]), 0), (28, 1));
}

/// Number and place of a next run's answer.
fn refused_after(circuit: &[u8], given: &[u32], lent: usize) -> (u16, u32) {
    refused(NEXT_RUN, circuit, &bytes_of(given), lent)
}

#[test]
fn too_many_candidates() {
    for (p, n, number) in [
        (3, 10, 0),
        (3, 11, 30),
        (5, 6, 0),
        (5, 7, 30),
        (7, 5, 0),
        (11, 5, 30),
        (13, 4, 0),
        (17, 4, 30),
        (37, 3, 0),
        (41, 3, 30),
        (251, 2, 0),
        (257, 2, 30),
        (65_521, 1, 0),
        (65_537, 1, 30),
        (2_147_483_647, 1, 30),
        (2_147_483_647, 2, 30),
        (2_147_483_647, 256, 30),
        (3, 256, 30),
    ] {
        let circuit = Draft::new(p, n, 0, 1).bytes();
        let n = usize::from(n);
        assert_eq!(refused(FIRST_RUN, &circuit, &[], n), (number, 0), "{p} {n}");
        assert_eq!(refused_after(&circuit, &vec![0; n], n), (number, 0), "{p} {n}");
        // 30 before 31.
        let unfit = if number == 0 { 31 } else { number };
        assert_eq!(refused(FIRST_RUN, &circuit, &[], n + 1), (unfit, 0));
        assert_eq!(refused_after(&circuit, &vec![0; n - 1], n), (unfit, 0));
        assert_eq!(refused_after(&circuit, &vec![p; n], n), (unfit, u32::from(number == 0)));
    }
}

#[test]
fn lengths_and_values_of_runs() {
    for circuit in [case_c(13), Draft::new(13, 4, 0, 1).bytes(), Draft::new(13, 4, 0, 1).with(&[], &[], &[(0, 1)]).bytes()] {
        for length in [0, 1, 3, 5, 8, 256] {
            assert_eq!(refused(FIRST_RUN, &circuit, &[], length), (31, 0));
            for value in [0, 12, 13, u32::MAX] {
                assert_eq!(refused_after(&circuit, &[value; 4], length), (31, 0), "a length before a value");
                assert_eq!(refused_after(&circuit, &vec![value; length], 4), (31, 0), "a length before a value");
                assert_eq!(refused_after(&circuit, &vec![value; length], length), (31, 0));
            }
        }
        for at in 0..4 {
            for value in [13, 14, 26, 256, 0x8000_0000, u32::MAX] {
                let mut given = [12; 4];
                given[at] = value;
                assert_eq!(refused_after(&circuit, &given, 4), (31, at as u32 + 1));
                given[3] = u32::MAX;
                assert_eq!(refused_after(&circuit, &given, 4), (31, at as u32 + 1), "the lowest signal");
            }
        }
        assert_eq!(refused_after(&circuit, &[12; 4], 4), (0, 0));
    }
}

#[test]
fn recorded_runs() {
    // Two records that make a pair, three values each.
    let (circuit, good) = (Draft::new(13, 3, 1, 1).bytes(), [1, 5, 0, 1, 12, 0]);
    let refused = |records: &[u8], window: u32, lent: usize| refused_with(WATCH, &circuit, &window.to_le_bytes(), records, lent);
    for length in 0..24 {
        let expected = if length % 12 == 0 { (0, 0) } else { (32, 0) };
        assert_eq!(refused(&bytes_of(&good)[..length], 0, 31), expected, "{length}");
    }
    for at in 0..6 {
        for value in [13, 14, 256, 0x8000_0000, u32::MAX] {
            let mut values = good;
            values[at] = value;
            assert_eq!(refused(&bytes_of(&values), 0, 31), (33, at as u32 / 3 + 1));
            values[5] = u32::MAX;
            assert_eq!(refused(&bytes_of(&values), 1, 0), (33, at as u32 / 3 + 1), "the first record, before 34");
            assert_eq!(refused(&bytes_of(&values)[..23], 1, 0), (32, 0), "32 before 33");
        }
    }
    for records in [&good[..], &good[..3], &[]] {
        for window in [1, 257, 65_536, u32::MAX] {
            assert_eq!(refused(&bytes_of(records), window, 31), (34, 0));
        }
        for window in [0, 2, 64, 256] {
            (0..31).for_each(|lent| assert_eq!(refused(&bytes_of(records), window, lent), (34, 0)));
            (31..40).for_each(|lent| assert_eq!(refused(&bytes_of(records), window, lent), (0, 0)));
        }
    }
}
