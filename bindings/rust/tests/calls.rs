//! The safe calls on document 01's cases a and f, with tags and without, and on a division.

use yolqushek::{check_derivation, check_pair, read_circuit, renew, solve, Marked, Refusal, NO_TAGS};
use yolqushek::{first_run, next_run, runs, watch, Watched};

/// Case a: p = 7, input 1, output 2, A = B = signal 1, C = signal 2.
const A: &[u8] = &[67, 81, 84, 1, 0, 7, 0, 0, 0, 2, 0, 1, 0, 1, 0, 1, 0, 1, 1, 0, 1, 0, 0, 0, 1, 1, 0, 1, 0, 0, 0, 1, 2, 0, 1, 0, 0, 0];

/// Case f: p = 5, one output, s * s = s.
const F: &[u8] = &[67, 81, 84, 1, 0, 5, 0, 0, 0, 1, 0, 0, 0, 1, 0, 1, 0, 1, 1, 0, 1, 0, 0, 0, 1, 1, 0, 1, 0, 0, 0, 1, 1, 0, 1, 0, 0, 0];

/// 0 against 1.
const PAIR: &[u8] = &[80, 81, 84, 1, 0, 1, 0, 0, 0, 0, 0, 1, 0, 0, 0];

/// Tags for case a: input 1 is a bit, output 2 below 7 and below 6.
const TAGS: &[u8] = &[84, 81, 84, 1, 0, 3, 0, 1, 0, 1, 0, 0, 0, 0, 2, 0, 3, 6, 0, 0, 0, 2, 0, 3, 5, 0, 0, 0];

/// Case a's derivation: a product step.
const PRODUCT: [u8; 14] = [68, 81, 84, 1, 0, 1, 0, 4, 2, 0, 1, 0, 0, 0];

/// The same with its step given twice.
const PADDED: [u8; 21] = [68, 81, 84, 1, 0, 2, 0, 4, 2, 0, 1, 0, 0, 0, 4, 2, 0, 1, 0, 0, 0];

/// p = 7, input 1, output 2, A = signal 1, B = signal 2, C = 1: the output is the input's inverse.
const INVERSE: &[u8] = &[67, 81, 84, 1, 0, 7, 0, 0, 0, 2, 0, 1, 0, 1, 0, 1, 0, 1, 1, 0, 1, 0, 0, 0, 1, 2, 0, 1, 0, 0, 0, 1, 0, 0, 1, 0, 0, 0];

/// Its derivation: neither is ever 0, so the output is a quotient by the input.
const DIVIDED: [u8; 28] = [68, 81, 84, 1, 0, 3, 0, 6, 1, 0, 1, 0, 0, 0, 6, 2, 0, 1, 0, 0, 0, 7, 2, 0, 1, 0, 1, 0];

/// What is marked, with no tags to show.
fn marked(count: u32, fixed: bool) -> Marked {
    Marked { count, fixed, shown: 0, unshown: 0 }
}

#[test]
fn case_a() {
    assert_eq!(read_circuit(A).unwrap().constraints, 1);
    let mut output = [9; 50];
    assert_eq!(solve(A, NO_TAGS, &mut output), Ok((marked(2, true), 14)));
    assert_eq!(output[..14], PRODUCT);
    assert_eq!(output[14..], [9; 36]);
    let mut marks = [9; 3];
    assert_eq!(check_derivation(A, NO_TAGS, &output[..14], &mut marks), Ok(marked(2, true)));
    assert_eq!(marks, [1, 1, 9]);
}

#[test]
fn case_f() {
    assert_eq!(check_pair(F, NO_TAGS, PAIR), Ok(1));
    assert_eq!(check_pair(F, NO_TAGS, &[&PAIR[..11], &[0; 4]].concat()), Err(Refusal { number: 24, place: 1 }));
    let mut output = [9; 28];
    assert_eq!(solve(F, NO_TAGS, &mut output), Ok((marked(0, false), 7)));
}

#[test]
fn a_division_is_solved_and_marked() {
    // Three steps a signal need 7 + 21·2 bytes: with one fewer nothing is written.
    let mut output = [9; 7 + 21 * 2];
    assert_eq!(solve(INVERSE, NO_TAGS, &mut output[..48]), Err(Refusal { number: 25, place: 0 }));
    assert_eq!(output, [9; 49]);
    assert_eq!(solve(INVERSE, NO_TAGS, &mut output), Ok((marked(2, true), 28)));
    assert_eq!(output[..28], DIVIDED);
    assert_eq!(output[28..], [9; 21]);
    let mut marks = [9; 3];
    assert_eq!(check_derivation(INVERSE, NO_TAGS, &output[..28], &mut marks), Ok(marked(2, true)));
    assert_eq!(marks, [1, 1, 9]);
    // The nonzero marks alone: neither counted nor written, nor idle, so that a renewal keeps them.
    let nonzeros = [&DIVIDED[..5], &[2], &DIVIDED[6..21]].concat();
    assert_eq!(check_derivation(INVERSE, NO_TAGS, &nonzeros, &mut marks), Ok(marked(1, false)));
    assert_eq!(marks, [1, 0, 9]);
    let mut renewed = [9; 21];
    assert_eq!(renew(INVERSE, NO_TAGS, &nonzeros, &mut renewed), Ok(21));
    assert_eq!(renewed, nonzeros[..]);
}

#[test]
fn a_division_goes_step_by_step() {
    let steps = |order: &[usize]| order.iter().fold([&DIVIDED[..5], &[order.len() as u8, 0]].concat(), |d, &k| [&d, &DIVIDED[7 * k..][..7]].concat());
    let mut marks = [9; 2];
    // The quotient before its reference has a nonzero mark, the same nonzero mark twice, and a kind that there isn't.
    assert_eq!(check_derivation(INVERSE, NO_TAGS, &steps(&[3, 1]), &mut marks), Err(Refusal { number: 17, place: 1 }));
    assert_eq!(check_derivation(INVERSE, NO_TAGS, &steps(&[1, 1]), &mut marks), Err(Refusal { number: 29, place: 2 }));
    let mut unknown = steps(&[1, 3]);
    unknown[14] = 8;
    assert_eq!(check_derivation(INVERSE, NO_TAGS, &unknown, &mut marks), Err(Refusal { number: 15, place: 2 }));
    assert_eq!(marks, [9; 2]);
    // The reference's nonzero mark is enough. A renewal drops the idle step.
    assert_eq!(check_derivation(INVERSE, NO_TAGS, &steps(&[1, 3]), &mut marks), Ok(marked(2, true)));
    let mut renewed = [9; 35];
    assert_eq!(renew(INVERSE, NO_TAGS, &steps(&[1, 1, 2, 3]), &mut renewed), Ok(28));
    assert_eq!((&renewed[..28], &renewed[28..]), (&DIVIDED[..], &[9; 7][..]));
}

#[test]
fn a_refusal_writes_nothing() {
    let mut output = [9; 48];
    assert_eq!(solve(A, NO_TAGS, &mut output), Err(Refusal { number: 25, place: 0 }));
    assert_eq!(output, [9; 48]);
    let mut marks = [9; 1];
    assert_eq!(check_derivation(A, NO_TAGS, &[68, 81, 84, 1, 0, 0, 0], &mut marks), Err(Refusal { number: 14, place: 0 }));
    assert_eq!(marks, [9]);
    assert_eq!(read_circuit(&[]), Err(Refusal { number: 1, place: 0 }));
    assert_eq!(read_circuit(&A[..37]), Err(Refusal { number: 6, place: 32 }));
    assert_eq!(check_pair(A, NO_TAGS, b"PQT"), Err(Refusal { number: 18, place: 0 }));
}

#[test]
fn tags() {
    let mut output = [9; 49];
    let with_tags = Marked { shown: 1, unshown: 3, ..marked(2, true) };
    assert_eq!(solve(A, TAGS, &mut output), Ok((with_tags, 14)));
    let mut marks = [9; 2];
    assert_eq!(check_derivation(A, TAGS, &output[..14], &mut marks), Ok(with_tags));
    assert_eq!(marks, [1, 1]);
    // The first two entries alone.
    let shown = [&TAGS[..5], &[2, 0], &TAGS[7..21]].concat();
    assert_eq!(check_derivation(A, &shown, &output[..14], &mut marks), Ok(Marked { shown: 1, ..marked(2, true) }));
    // A third signal that is free: input 1 as it is tagged, and above.
    let free = free_output();
    let pair = |x: u8| [&[80, 81, 84, 1, 0, 3, 0, x, 0, 0, 0, x * x, 0, 0, 0, 0, 0, 0, 0, x, 0, 0, 0, x * x, 0, 0, 0, 1, 0, 0, 0][..]].concat();
    assert_eq!(check_pair(&free, TAGS, &pair(1)), Ok(3));
    assert_eq!(check_pair(&free, TAGS, &pair(2)), Err(Refusal { number: 28, place: 1 }));
    assert_eq!(check_pair(&free, NO_TAGS, &pair(2)), Ok(3));
}

#[test]
fn a_refused_sheet_writes_nothing() {
    let (mut output, mut marks, none) = ([9; 49], [9; 2], [68, 81, 84, 1, 0, 0, 0]);
    // No bytes, a sheet that is cut, one whose third entry allows more than p - 1.
    let high = [&TAGS[..24], &[7], &TAGS[25..]].concat();
    for (sheet, number, place) in [(&[][..], 26, 0), (&TAGS[..27], 26, 0), (&high[..], 27, 3)] {
        assert_eq!(solve(A, sheet, &mut output), Err(Refusal { number, place }));
        assert_eq!(check_derivation(A, sheet, &none, &mut marks), Err(Refusal { number, place }));
        assert_eq!(check_pair(A, sheet, b""), Err(Refusal { number, place }));
    }
    assert_eq!((output, marks), ([9; 49], [9; 2]));
}

#[test]
fn a_padded_derivation_is_refused_and_renewed() {
    let (mut marks, mut output) = ([9; 2], [9; 30]);
    assert_eq!(check_derivation(A, NO_TAGS, &PADDED, &mut marks), Err(Refusal { number: 29, place: 2 }));
    assert_eq!(marks, [9; 2]);
    assert_eq!(renew(A, NO_TAGS, &PADDED, &mut output), Ok(14));
    assert_eq!(output[..14], PRODUCT);
    assert_eq!(output[14..], [9; 16]);
    // What is renewed is accepted, and another renewal gives it back.
    assert_eq!(check_derivation(A, NO_TAGS, &output[..14], &mut marks), Ok(marked(2, true)));
    let mut again = [9; 14];
    assert_eq!(renew(A, NO_TAGS, &output[..14], &mut again), Ok(14));
    assert_eq!(again, PRODUCT);
}

#[test]
fn a_step_may_be_idle_by_a_tag() {
    // Input 1 is at most 0, so zero meets its rule there, and marks what is marked.
    let at_most_0 = [84, 81, 84, 1, 0, 1, 0, 1, 0, 3, 0, 0, 0, 0];
    let zero = [68, 81, 84, 1, 0, 2, 0, 3, 1, 0, 0, 0, 0, 0, 4, 2, 0, 1, 0, 0, 0];
    let (mut marks, mut output) = ([9; 2], [9; 21]);
    assert_eq!(check_derivation(A, &at_most_0, &zero, &mut marks), Err(Refusal { number: 29, place: 1 }));
    assert_eq!(renew(A, &at_most_0, &zero, &mut output), Ok(14));
    assert_eq!(output[..14], PRODUCT);
    // Without the tag the rule isn't met.
    assert_eq!(check_derivation(A, NO_TAGS, &zero, &mut marks), Err(Refusal { number: 17, place: 1 }));
    assert_eq!(renew(A, NO_TAGS, &zero, &mut output), Err(Refusal { number: 17, place: 1 }));
}

#[test]
fn a_refused_renewal_writes_nothing() {
    let mut output = [9; 20];
    // Room for what would be written, but not for what is given.
    assert_eq!(renew(A, NO_TAGS, &PADDED, &mut output), Err(Refusal { number: 25, place: 0 }));
    // The second step of no kind, of two with other fields, and of two whose rule isn't met: each before 25.
    for (kind, number) in [(8, 15), (3, 16), (7, 16), (1, 17), (6, 17)] {
        let derivation = [&PADDED[..14], &[kind], &PADDED[15..]].concat();
        assert_eq!(renew(A, NO_TAGS, &derivation, &mut output), Err(Refusal { number, place: 2 }));
    }
    for (sheet, derivation, number) in [(NO_TAGS, &PADDED[..20], 13), (NO_TAGS, b"PQT", 11), (&TAGS[..27], &PADDED, 26), (&[], b"", 26)] {
        assert_eq!(renew(A, sheet, derivation, &mut output), Err(Refusal { number, place: 0 }));
    }
    assert_eq!(renew(&A[..37], NO_TAGS, &PADDED, &mut output), Err(Refusal { number: 6, place: 32 }));
    assert_eq!(output, [9; 20]);
}

/// A circuit of so many signals over a prime, with no constraints.
fn free(prime: u32, signals: u8) -> Vec<u8> {
    [b"CQT\x01\0", &prime.to_le_bytes()[..], &[signals, 0, 0, 0, 1, 0, 0, 0]].concat()
}

/// p = 5, one output, 1 * 1 = 0: no run satisfies it.
fn never() -> Vec<u8> {
    [&F[..15], &[1, 0, 1, 0, 0, 1, 0, 0, 0, 1, 0, 0, 1, 0, 0, 0, 0]].concat()
}

#[test]
fn every_run_comes_once_and_in_order() {
    let squares: Vec<_> = (0..7).map(|x| vec![x, x * x % 7]).collect();
    assert_eq!(runs(A).unwrap().collect::<Vec<_>>(), squares);
    assert_eq!(runs(F).unwrap().collect::<Vec<_>>(), [[0], [1]]);
    assert_eq!(runs(&never()).unwrap().next(), None);
    let all: Vec<_> = (0..9).map(|k| vec![k / 3, k % 3]).collect();
    assert_eq!(runs(&free(3, 2)).unwrap().collect::<Vec<_>>(), all);
    assert_eq!(runs(&free(3, 10)).unwrap().count(), 59_049);
    let mut over = runs(F).unwrap();
    assert_eq!(over.by_ref().last(), Some(vec![1]));
    assert_eq!(over.next(), None);
}

#[test]
fn runs_one_by_one() {
    let mut answer = [9; 2];
    assert_eq!(first_run(A, &mut answer), Ok(true));
    assert_eq!(answer, [0, 0]);
    // What is given needn't satisfy anything: 2, 6 doesn't, nor is it 2, 4, which comes before it.
    assert_eq!(next_run(A, &[2, 6], &mut answer), Ok(true));
    assert_eq!(answer, [3, 2]);
    assert_eq!(next_run(A, &[3, 1], &mut answer), Ok(true));
    assert_eq!(answer, [3, 2]);
    assert_eq!(next_run(A, &[3, 2], &mut answer), Ok(true));
    assert_eq!(answer, [4, 2]);
}

#[test]
fn no_more_runs_write_nothing() {
    let mut answer = [9; 2];
    assert_eq!(next_run(A, &[6, 1], &mut answer), Ok(false));
    assert_eq!(next_run(A, &[6, 6], &mut answer), Ok(false));
    assert_eq!(first_run(&never(), &mut answer[..1]), Ok(false));
    assert_eq!(next_run(&never(), &[0], &mut answer[..1]), Ok(false));
    assert_eq!(answer, [9; 2]);
}

#[test]
fn refused_runs_write_nothing() {
    let mut answer = [9; 3];
    // 66,049 candidates, whatever the lengths and values; 65,537 are too many, too, and 63,001 are not.
    let large = free(257, 2);
    assert_eq!(first_run(&large, &mut answer), Err(Refusal { number: 30, place: 0 }));
    assert_eq!(next_run(&large, &[u32::MAX], &mut answer), Err(Refusal { number: 30, place: 0 }));
    assert_eq!(runs(&large).err(), Some(Refusal { number: 30, place: 0 }));
    assert_eq!(runs(&free(65_537, 1)).err(), Some(Refusal { number: 30, place: 0 }));
    assert_eq!(runs(&free(251, 2)).err(), None);
    for length in [0, 1, 3] {
        assert_eq!(first_run(A, &mut answer[..length]), Err(Refusal { number: 31, place: 0 }));
        assert_eq!(next_run(A, &[7, 7], &mut answer[..length]), Err(Refusal { number: 31, place: 0 }));
        assert_eq!(next_run(A, &[7, 7, 7][..length], &mut answer[..2]), Err(Refusal { number: 31, place: 0 }));
    }
    for (given, place) in [([7, 7], 1), ([u32::MAX, 0], 1), ([6, 7], 2), ([0, u32::MAX], 2)] {
        assert_eq!(next_run(A, &given, &mut answer[..2]), Err(Refusal { number: 31, place }));
    }
    assert_eq!(next_run(&A[..37], &[7], &mut answer), Err(Refusal { number: 6, place: 32 }));
    assert_eq!(runs(&A[..37]).err(), Some(Refusal { number: 6, place: 32 }));
    assert_eq!(answer, [9; 3]);
}

/// Case a with a free output 3.
fn free_output() -> Vec<u8> {
    [&A[..9], &[3, 0, 1, 0, 2, 0], &A[15..]].concat()
}

/// The values of records in bytes.
fn recorded(values: &[[u32; 3]]) -> Vec<u8> {
    values.iter().flatten().flat_map(|value| value.to_le_bytes()).collect()
}

/// A run of `free_output`, another input's, one that breaks the constraint, and the first with another output 3.
const RECORDS: [[u32; 3]; 4] = [[2, 4, 0], [3, 2, 6], [2, 5, 1], [2, 4, 1]];

#[test]
fn a_pair_is_found_among_records() {
    let (circuit, records) = (free_output(), recorded(&RECORDS));
    let wanted = [&[80, 81, 84, 1, 0, 3, 0][..], &records[..12], &records[36..]].concat();
    for window in [4, 256, 0] {
        let mut output = [9; 40];
        assert_eq!(watch(&circuit, &records, window, &mut output), Ok(Some(Watched { q: 3, earlier: 1, later: 4 })));
        assert_eq!((&output[..31], &output[31..]), (&wanted[..], &[9; 9][..]));
    }
    assert_eq!(check_pair(&circuit, NO_TAGS, &wanted), Ok(3));
    // Of two earlier records the nearer one, however short the window, in a buffer that has just the room.
    let nearer = recorded(&[RECORDS[0], RECORDS[0], [2, 4, 5], [2, 4, 6]]);
    assert_eq!(watch(&circuit, &nearer, 2, &mut [9; 31]), Ok(Some(Watched { q: 3, earlier: 2, later: 3 })));
}

#[test]
fn where_no_records_make_a_pair_nothing_is_written() {
    let (circuit, records) = (free_output(), recorded(&RECORDS));
    let mut output = [9; 31];
    for (length, window) in [(48, 3), (48, 2), (36, 0), (0, 0)] {
        assert_eq!(watch(&circuit, &records[..length], window, &mut output), Ok(None));
    }
    assert_eq!(output, [9; 31]);
}

#[test]
fn refused_records_write_nothing() {
    let (circuit, records) = (free_output(), recorded(&RECORDS));
    let high = [&records[..], &recorded(&[[2, 7, 1], [2, 4, u32::MAX]])].concat();
    let mut output = [9; 31];
    for (bytes, window, room, number, place) in [
        (&high[..71], 1, 0, 32, 0),
        (&high, 1, 0, 33, 5),
        (&high, 4, 31, 33, 5),
        (&records, 1, 31, 34, 0),
        (&records, 257, 31, 34, 0),
        (&records, u32::MAX, 31, 34, 0),
        (&records, 4, 30, 34, 0),
    ] {
        assert_eq!(watch(&circuit, bytes, window, &mut output[..room]), Err(Refusal { number, place }));
    }
    assert_eq!(watch(&circuit[..37], &high[..1], 1, &mut output[..0]), Err(Refusal { number: 6, place: 32 }));
    assert_eq!(output, [9; 31]);
}
