//! Cases a to j of document 01, with every number there; c with idle steps.

use second::cases::{case_a, case_b, case_c, case_e, case_f, case_g, constant, division, equal_inverse};
use second::cases::{guarded_division, guarded_is_zero, inverse, times_itself, wide_quotients};
use second::marker::write_steps;
use second::pair::write_pair;
use second::rules::{Step, DIGITS, NONZERO, PRODUCT, QUOTIENT, ROOT, SUM, ZERO};
use second::sheet::{write_sheet, Tag, BINARY, MAXBIT, MAXVALUE, NO_TAGS};
use second::solver::longest;
use second::writer::Draft;
use second::{check_derivation, check_pair, first_run, next_run, read_circuit, renew, solve, Refusal};

/// Kind, target, constraint, reference.
type Fields = (u8, u16, u16, u16);

/// The solver's steps, the marked count, whether the outputs are fixed.
fn solved(circuit: &[u8]) -> (Vec<Fields>, usize, bool) {
    let n = usize::from(read_circuit(circuit).unwrap().signals);
    let mut out = vec![0; longest(n)];
    let (judgement, length) = solve(circuit, NO_TAGS, &mut out).unwrap();
    assert_eq!(check_derivation(circuit, NO_TAGS, &out[..length], &mut vec![0; n]), Ok(judgement));
    assert_eq!((judgement.shown, judgement.unshown), (0, 0));
    let steps = second::marker::read_steps(&out[..length]).unwrap();
    (steps.iter().map(|s| (s.kind, s.target, s.constraint, s.reference)).collect(), judgement.count, judgement.fixed)
}

fn marked(circuit: &[u8], steps: &[Step]) -> Result<(usize, bool), Refusal> {
    check_derivation(circuit, NO_TAGS, &write_steps(steps), &mut [0; 300]).map(|judgement| (judgement.count, judgement.fixed))
}

fn refusal<T>(number: u16, place: u32) -> Result<T, Refusal> {
    Err(Refusal { number, place })
}

#[test]
fn a_square() {
    assert_eq!(solved(&case_a()), (vec![(PRODUCT, 2, 1, 0)], 2, true));
    assert_eq!(marked(&case_a(), &[Step::new(PRODUCT, 2, 1, 0)]), Ok((2, true)));
}

#[test]
fn b_two_ways() {
    let (_, _, fixed) = solved(&case_b());
    assert!(!fixed);
    assert_eq!(check_pair(&case_b(), NO_TAGS, &write_pair(2, &[0, 1, 0], &[0, 2, 1])), Ok(2));
}

#[test]
fn c_three_bits() {
    let c = case_c(13);
    assert_eq!(c.len(), 113);
    let steps = vec![(ROOT, 2, 1, 0), (ROOT, 3, 2, 0), (ROOT, 4, 3, 0), (SUM, 1, 4, 0), (DIGITS, 2, 4, 2), (DIGITS, 3, 4, 2), (DIGITS, 4, 4, 1)];
    assert_eq!(solved(&c), (steps, 4, true));
    let read = read_circuit(&c).unwrap();
    assert_eq!((read.field.prime(), read.signals, read.inputs, read.outputs, read.constraints.len()), (13, 4, 1, 3, 4));
    assert_eq!(solve(&c[..112], NO_TAGS, &mut [0; longest(4)]), refusal(6, 112));
}

#[test]
fn c_as_printed() {
    use std::io::Write;
    use std::process::{Command, Stdio};
    let printed = |bytes: &[u8]| {
        let mut program = Command::new(env!("CARGO_BIN_EXE_second-solve")).stdin(Stdio::piped()).stdout(Stdio::piped()).spawn().unwrap();
        program.stdin.take().unwrap().write_all(bytes).unwrap();
        String::from_utf8(program.wait_with_output().unwrap().stdout).unwrap()
    };
    let expected = "circuit 13 4 1 3 4\nstep 1 root 2 1 0\nstep 2 root 3 2 0\nstep 3 root 4 3 0\nstep 4 sum 1 4 0\n\
        step 5 digits 2 4 2\nstep 6 digits 3 4 2\nstep 7 digits 4 4 1\nfixed 4\n";
    assert_eq!(printed(&case_c(13)), expected);
    assert_eq!(printed(&case_c(13)[..112]), "refused 6 112\n");
}

#[test]
fn c_as_printed_with_a_sheet() {
    use std::process::{Command, Stdio};
    let folder = std::path::Path::new(env!("CARGO_TARGET_TMPDIR"));
    let (circuit, sheet) = (folder.join("case-c.cqt"), folder.join("case-c.tqt"));
    std::fs::write(&circuit, case_c(13)).unwrap();
    // The bits are shown to be bits, but not to be 0; the input is 5 at most, less than the bits give.
    std::fs::write(&sheet, write_sheet(&[Tag::new(1, MAXVALUE, 5), Tag::new(2, BINARY, 0), Tag::new(4, MAXBIT, 0)])).unwrap();
    let input = Stdio::from(std::fs::File::open(&circuit).unwrap());
    let output = Command::new(env!("CARGO_BIN_EXE_second-solve")).arg(&sheet).stdin(input).output().unwrap();
    let expected = "circuit 13 4 1 3 4\nstep 1 root 2 1 0\nstep 2 root 3 2 0\nstep 3 root 4 3 0\n\
        step 4 digits 2 4 2\nstep 5 digits 3 4 2\nstep 6 digits 4 4 1\nfixed 4\nshown 1 3\n";
    assert_eq!(String::from_utf8(output.stdout).unwrap(), expected);
}

#[test]
fn d_sum_equal_to_p() {
    let (_, count, fixed) = solved(&case_c(7));
    assert_eq!((count, fixed), (1, false));
    for q in 2..=4 {
        assert_eq!(check_pair(&case_c(7), NO_TAGS, &write_pair(q, &[0, 0, 0, 0], &[0, 1, 1, 1])), Ok(q));
    }
}

#[test]
fn e_square_is_zero() {
    let e = case_e();
    assert_eq!(solved(&e), (vec![(ROOT, 1, 1, 0), (ZERO, 1, 0, 0)], 1, true));
}

#[test]
fn f_square_is_itself() {
    let f = case_f();
    assert_eq!(solved(&f), (vec![], 0, false));
    assert_eq!(check_pair(&f, NO_TAGS, &write_pair(1, &[0], &[1])), Ok(1));
}

#[test]
fn g_settled_but_open() {
    let g = case_g();
    assert_eq!(solved(&g), (vec![], 1, false));
    let runs = listed(&g, [0; 3]);
    assert_eq!(runs.len(), 13);
    assert!(runs.iter().all(|run| run[1] == u32::from(run[0] == 0)));
}

/// Every run of a small circuit; `run` is lent for each.
fn listed<const N: usize>(circuit: &[u8], mut run: [u32; N]) -> Vec<[u32; N]> {
    let (mut runs, mut more) = (Vec::new(), first_run(circuit, &mut run));
    while more.unwrap() {
        runs.push(run);
        more = next_run(circuit, &run.clone(), &mut run);
    }
    runs
}

/// Rule 7.11: the pairs of b and f are among the runs of their circuits; and how many there are.
#[test]
fn runs_of_the_cases() {
    let b = listed(&case_b(), [0; 3]);
    assert!(b.contains(&[0, 1, 0]) && b.contains(&[0, 2, 1]));
    assert_eq!(listed(&case_f(), [0]), [[0], [1]]);
    assert_eq!(listed(&case_e(), [0]), [[0]]);
    assert_eq!(listed(&case_a(), [0; 2]), (0..7).map(|x| [x, x * x % 7]).collect::<Vec<_>>());
    let bits = |p: u32| (0..8).map(|x| [x % p, x & 1, x >> 1 & 1, x >> 2]).collect::<Vec<[u32; 4]>>();
    assert_eq!(listed(&case_c(13), [0; 4]), bits(13));
    let mut seven = bits(7);
    seven.sort_unstable();
    assert_eq!(listed(&case_c(7), [0; 4]), seven);
}

#[test]
fn h_one_byte_more() {
    assert_eq!(read_circuit(&[&case_c(13)[..], &[0]].concat()), refusal(10, 113));
}

#[test]
fn i_bad_steps() {
    assert_eq!(marked(&case_a(), &[Step::new(9, 2, 1, 0)]), refusal(15, 1));
    assert_eq!(marked(&case_a(), &[Step::new(PRODUCT, 0, 1, 0)]), refusal(16, 1));
    for target in 1..=4 {
        assert_eq!(marked(&case_c(13), &[Step::new(PRODUCT, target, 4, 0)]), refusal(17, 1));
    }
}

/// Rule 7.9: idle steps in c's derivation, and c's own derivation from each of them.
#[test]
fn c_padded() {
    let c = case_c(13);
    let steps = steps(&solved(&c).0);
    let with = |at: usize, step: Step| [&steps[..at], &[step], &steps[at..]].concat();
    let renewed = |sheet: &[u8], steps: &[Step]| {
        let mut out = write_steps(steps);
        renew(&c, sheet, &write_steps(steps), &mut out).map(|length| out[..length].to_vec())
    };
    // A root again, digits again, the sum again, digits of the input.
    for (at, step) in [(1, steps[0]), (7, steps[1]), (5, steps[4]), (7, steps[5]), (4, steps[3]), (7, Step::new(DIGITS, 1, 4, 2))] {
        assert_eq!(marked(&c, &with(at, step)), refusal(29, at as u32 + 1));
        assert_eq!(renewed(NO_TAGS, &with(at, step)), Ok(write_steps(&steps)));
    }
    // With the input tagged as a number of 3 bits its sum gives the bound that is there.
    let tagged = write_sheet(&[Tag::new(1, MAXBIT, 3)]);
    assert_eq!(check_derivation(&c, &tagged, &write_steps(&steps), &mut [0; 4]), refusal(29, 4));
    assert_eq!(renewed(&tagged, &steps), Ok(write_steps(&[&steps[..3], &steps[4..]].concat())));
    let zero = [Step::new(ZERO, 1, 0, 0)];
    let tagged = write_sheet(&[Tag::new(1, MAXVALUE, 0)]);
    assert_eq!(check_derivation(&c, &tagged, &write_steps(&zero), &mut [0; 4]), refusal(29, 1));
    assert_eq!(renewed(&tagged, &zero), Ok(write_steps(&[])));
    // A marked target whose rule isn't met.
    for step in [zero[0], Step::new(PRODUCT, 1, 4, 0), Step::new(DIGITS, 1, 4, 2)] {
        assert_eq!(marked(&c, &[step]), refusal(17, 1));
        assert_eq!(renewed(NO_TAGS, &[step]), refusal(17, 1));
    }
    assert_eq!(renewed(NO_TAGS, &steps), Ok(write_steps(&steps)));
}

/// The nonzero steps of an inverse and its quotient.
const ONE: Fields = (NONZERO, 1, 1, 0);
const TWO: Fields = (NONZERO, 2, 1, 0);
const INVERSE: Fields = (QUOTIENT, 2, 1, 1);

/// Rule 7.13: circuits, solved.
#[test]
fn divisions() {
    assert_eq!(solved(&inverse(7, 1)), (vec![ONE, TWO, INVERSE], 2, true));
    assert_eq!(solved(&inverse(7, 0)), (vec![ONE, TWO], 0, false));
    for q in 1..=2 {
        assert_eq!(check_pair(&inverse(7, 0), NO_TAGS, &write_pair(q, &[1, 1], &[2, 4])), Ok(q));
    }
    assert_eq!(listed(&inverse(7, 1), [0; 2]), [[1, 1], [2, 4], [3, 5], [4, 2], [5, 3], [6, 6]]);
    assert_eq!(solved(&constant(7)), (vec![(SUM, 1, 1, 0), (NONZERO, 1, 1, 0), (DIGITS, 1, 1, 1)], 1, true));
    let guarded = vec![(NONZERO, 2, 1, 0), (NONZERO, 4, 1, 0), (QUOTIENT, 3, 2, 2), (QUOTIENT, 4, 1, 2)];
    assert_eq!(solved(&guarded_division()), (guarded, 4, true));
    let wide = vec![(NONZERO, 2, 1, 0), (QUOTIENT, 4, 1, 2), (QUOTIENT, 3, 2, 2)];
    assert_eq!(solved(&wide_quotients()), (wide, 4, true));
    let is_zero = vec![(NONZERO, 1, 3, 0), (NONZERO, 4, 3, 0), (QUOTIENT, 2, 2, 1), (QUOTIENT, 3, 1, 1), (QUOTIENT, 4, 3, 1)];
    assert_eq!(solved(&guarded_is_zero()), (is_zero, 4, true));
    assert_eq!(solved(&equal_inverse()), (vec![ONE, TWO, (DIGITS, 2, 2, 2)], 2, true), "digits before the quotient by the lower constraint");
    assert_eq!(judged(&equal_inverse(), &[ONE, TWO, INVERSE]), Ok((2, true)));
}

/// The steps with these fields.
fn steps(fields: &[Fields]) -> Vec<Step> {
    fields.iter().map(|&(kind, target, constraint, reference)| Step::new(kind, target, constraint, reference)).collect()
}

/// What is answered of the steps with these fields.
fn judged(circuit: &[u8], fields: &[Fields]) -> Result<(usize, bool), Refusal> {
    marked(circuit, &steps(fields))
}

/// Rule 7.13: single steps.
#[test]
fn steps_of_divisions() {
    assert_eq!(judged(&case_g(), &[(NONZERO, 1, 2, 0)]), refusal(17, 1), "C is 0");
    assert_eq!(judged(&case_g(), &[(NONZERO, 1, 1, 0)]), refusal(17, 1), "C has a signal");
    let shifted = Draft::new(7, 2, 1, 1).with(&[(1, 1), (0, 1)], &[(2, 1)], &[(0, 1)]).bytes();
    assert_eq!(judged(&shifted, &[ONE]), refusal(17, 1), "a constant beside the target");
    assert_eq!(solved(&shifted), (vec![TWO], 1, false));
    assert_eq!(judged(&inverse(7, 1), &[ONE, TWO, (QUOTIENT, 1, 1, 2)]), refusal(17, 3), "an unmarked reference");
    assert_eq!(judged(&inverse(7, 1), &[TWO, INVERSE]), refusal(17, 2), "no nonzero mark");
    assert_eq!(judged(&inverse(7, 1), &[ONE, (QUOTIENT, 1, 1, 1)]), refusal(17, 2), "the reference is the target");
    assert_eq!(judged(&division(), &[(QUOTIENT, 3, 1, 2)]), refusal(17, 1), "the reference may be 0");
    assert_eq!(check_pair(&division(), NO_TAGS, &write_pair(3, &[0, 0, 0], &[0, 0, 1])), Ok(3));
    assert_eq!(judged(&times_itself(), &[ONE, (QUOTIENT, 2, 2, 1)]), refusal(17, 2), "the target in C");
    assert_eq!(check_pair(&times_itself(), NO_TAGS, &write_pair(2, &[1, 0, 1], &[1, 1, 1])), Ok(2));
    assert_eq!(judged(&inverse(7, 1), &[ONE, ONE]), refusal(29, 2));
    assert_eq!(judged(&inverse(7, 1), &[ONE, INVERSE, INVERSE]), refusal(29, 3));
    assert_eq!(judged(&inverse(7, 1), &[ONE, TWO, INVERSE, (QUOTIENT, 1, 1, 2)]), refusal(29, 4));
    assert_eq!(judged(&inverse(7, 1), &[ONE, INVERSE]), Ok((2, true)), "nonzero marks aren't counted");
    for kind in [8, 9, 255] {
        assert_eq!(judged(&inverse(7, 1), &[ONE, (kind, 2, 1, 1)]), refusal(15, 2));
    }
}

/// Rule 7.13: a renewal keeps what adds a nonzero mark.
#[test]
fn a_division_renewed() {
    let given = write_steps(&steps(&[ONE, ONE, INVERSE, TWO, INVERSE, TWO]));
    let (mut out, kept) = (given.clone(), write_steps(&steps(&[ONE, INVERSE, TWO])));
    assert_eq!(renew(&inverse(7, 1), NO_TAGS, &given, &mut out), Ok(kept.len()));
    assert_eq!(out[..kept.len()], kept);
}

/// The steps of a division as they are printed.
#[test]
fn a_division_as_printed() {
    let path = std::path::Path::new(env!("CARGO_TARGET_TMPDIR")).join("division.cqt");
    std::fs::write(&path, inverse(7, 1)).unwrap();
    let input = std::process::Stdio::from(std::fs::File::open(&path).unwrap());
    let output = std::process::Command::new(env!("CARGO_BIN_EXE_second-solve")).stdin(input).output().unwrap();
    let expected = "circuit 7 2 1 1 1\nstep 1 nonzero 1 1 0\nstep 2 nonzero 2 1 0\nstep 3 quotient 2 1 1\nfixed 2\n";
    assert_eq!(String::from_utf8(output.stdout).unwrap(), expected);
}

#[test]
fn j_limits() {
    for p in [2, 9, 2_147_483_645] {
        assert_eq!(read_circuit(&Draft::new(p, 1, 0, 1).bytes()), refusal(4, 0));
    }
    assert!(read_circuit(&Draft::new(2_147_483_647, 1, 0, 1).bytes()).is_ok());
    assert_eq!(read_circuit(&Draft::new(7, 257, 0, 1).bytes()), refusal(5, 0));
    assert!(read_circuit(&Draft::new(7, 256, 0, 1).bytes()).is_ok());
}
