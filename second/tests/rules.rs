//! Each rule by itself: what meets it, what nearly does, and what it does to the standing.

use second::cases::{case_c, constant, inverse};
use second::marker::write_steps;
use second::rules::{Rules, Standing, Step, DIGITS, NONZERO, PRODUCT, QUOTIENT, ROOT, SUM, ZERO};
use second::sheet::{read_sheet, shown, write_sheet, Tag, BINARY, MAXBIT, MAXVALUE, NO_TAGS};
use second::solver::longest;
use second::writer::Draft;
use second::{brute, check_derivation, read_circuit, solve, Circuit, Judgement};

type Form<'a> = &'a [(u16, i64)];

fn circuit(p: u32, n: u16, i: u16, constraints: &[(Form, Form, Form)]) -> Circuit {
    let mut draft = Draft::new(p, n, i, 1);
    constraints.iter().for_each(|(a, b, c)| draft.add(a, b, c));
    read_circuit(&draft.bytes()).unwrap()
}

/// The standing after these steps; none if some rule isn't met.
fn after(circuit: &Circuit, steps: &[(u8, u16, u16, u16)]) -> Option<Standing> {
    after_with(circuit, &[], steps)
}

/// The standing after these steps with tags.
fn after_with(circuit: &Circuit, tags: &[Tag], steps: &[(u8, u16, u16, u16)]) -> Option<Standing> {
    let (rules, mut standing) = (Rules::new(circuit), Standing::start(circuit, tags));
    let met = steps.iter().all(|&(kind, target, constraint, reference)| {
        let (step, before) = (Step::new(kind, target, constraint, reference), standing.clone());
        assert!(rules.in_range(step));
        rules.take(&mut standing, step) || {
            assert_eq!(standing, before);
            false
        }
    });
    met.then_some(standing)
}

/// Whether the last of these steps is idle, all being met; none if one isn't.
fn idle(circuit: &Circuit, tags: &[Tag], steps: &[(u8, u16, u16, u16)]) -> Option<bool> {
    let (last, before) = steps.split_last()?;
    let mut standing = after_with(circuit, tags, before)?;
    let old = standing.clone();
    let progress = Rules::new(circuit).progress(&mut standing, Step::new(last.0, last.1, last.2, last.3))?;
    assert_eq!(progress, standing != old);
    Some(!progress)
}

/// The bound that one step gives its target.
fn bound(circuit: &Circuit, step: (u8, u16, u16, u16)) -> Option<u64> {
    Some(after(circuit, &[step])?.bound(step.1))
}

#[test]
fn start() {
    let circuit = circuit(7, 3, 1, &[]);
    let standing = after(&circuit, &[]).unwrap();
    assert!((1..=3).all(|signal| standing.bound(signal) == 6 && standing.is_marked(signal) == (signal == 1)));
    assert!((1..=3).all(|signal| !standing.is_nonzero(signal)));
}

#[test]
fn root_takes_the_larger_root() {
    let one = |a: Form, b: Form, c: Form| bound(&circuit(13, 2, 0, &[(a, b, c)]), (ROOT, 1, 1, 0));
    assert_eq!(one(&[(1, 1)], &[(1, 1), (0, -1)], &[]), Some(1));
    assert_eq!(one(&[(1, 1), (0, -1)], &[(1, 1)], &[]), Some(1));
    assert_eq!(one(&[(1, 2), (0, -10)], &[(1, 7), (0, -21)], &[]), Some(5));
    assert_eq!(one(&[(1, 1)], &[(1, 5)], &[]), Some(0));
    assert_eq!(one(&[(1, 1), (0, 1)], &[(1, 1)], &[]), Some(12));
    assert_eq!(one(&[(1, 2), (0, 1)], &[(1, 1)], &[]), Some(6));
}

#[test]
fn root_needs_the_target_alone_on_both_sides_and_nothing_in_c() {
    let one = |a: Form, b: Form, c: Form| bound(&circuit(13, 2, 0, &[(a, b, c)]), (ROOT, 1, 1, 0));
    assert_eq!(one(&[(1, 1)], &[(1, 1), (0, -1)], &[(0, 1)]), None);
    assert_eq!(one(&[(1, 1)], &[(1, 1)], &[(1, 1)]), None);
    assert_eq!(one(&[(1, 1), (2, 1)], &[(1, 1)], &[]), None);
    assert_eq!(one(&[(1, 1)], &[(2, 1)], &[]), None);
    assert_eq!(one(&[(2, 1)], &[(2, 1)], &[]), None);
    assert_eq!(one(&[(0, 1)], &[(1, 1)], &[]), None);
    assert_eq!(one(&[(1, 1)], &[], &[]), None);
}

#[test]
fn a_bound_never_rises() {
    let two = circuit(13, 1, 0, &[(&[(1, 1)], &[(1, 1), (0, -1)], &[]), (&[(1, 1)], &[(1, 1), (0, -5)], &[])]);
    assert_eq!(after(&two, &[(ROOT, 1, 1, 0), (ROOT, 1, 2, 0)]).unwrap().bound(1), 1);
    assert_eq!(after(&two, &[(ROOT, 1, 2, 0), (ROOT, 1, 1, 0)]).unwrap().bound(1), 1);
}

#[test]
fn sum_in_every_linear_shape() {
    // Signal 1 is 5.
    for (a, b, c) in [
        (&[(0, 1)][..], &[(1, 1), (0, -5)][..], &[][..]),
        (&[(0, 2)], &[(1, 3)], &[(0, 30)]),
        (&[(1, 3)], &[(0, 2)], &[(0, 30)]),
        (&[(1, 1), (0, 2)], &[(0, 3)], &[(0, 21)]),
        (&[(0, 2)], &[(0, 3)], &[(1, 4), (0, -14)]),
        (&[], &[(1, 7), (2, 1)], &[(1, 1), (0, -5)]),
        (&[(2, 1), (0, 3)], &[], &[(1, 2), (0, -10)]),
        (&[(0, 2)], &[(1, 1), (2, 3)], &[(1, 1), (2, 6), (0, 5)]),
    ] {
        let constraint = circuit(13, 2, 0, &[(a, b, c)]);
        assert_eq!(bound(&constraint, (SUM, 1, 1, 0)), Some(5), "{constraint:?}");
        assert_eq!(bound(&constraint, (SUM, 2, 1, 0)), None, "{constraint:?}");
    }
}

#[test]
fn sum_is_a_whole_number_below_p() {
    // Signal 3 is signal 1 plus 3 times signal 2, perhaps plus a constant; signals 1 and 2 have bounds.
    let sum = |p: u32, first: i64, second: i64, constant: i64| {
        let roots = [[(1, 1), (0, -first)], [(2, 1), (0, -second)]];
        let last = [(3, -1), (1, 1), (2, 3), (0, constant)];
        let all = circuit(p, 3, 0, &[(&[(1, 1)], &roots[0], &[]), (&[(2, 1)], &roots[1], &[]), (&[(0, 1)], &last, &[])]);
        Some(after(&all, &[(ROOT, 1, 1, 0), (ROOT, 2, 2, 0), (SUM, 3, 3, 0)])?.bound(3))
    };
    assert_eq!(sum(13, 1, 1, 0), Some(4));
    assert_eq!(sum(13, 1, 3, 0), Some(10));
    assert_eq!(sum(13, 1, 3, 2), Some(12));
    assert_eq!(sum(13, 1, 3, 3), None, "equal to p");
    assert_eq!(sum(13, 1, 4, 0), None, "equal to p");
    assert_eq!(sum(13, 2, 4, 0), None, "1 modulo p");
    assert_eq!(sum(2_147_483_647, 1, 2_147_483_646, 0), None);
    assert_eq!(sum(2_147_483_647, 1, 715_827_881, 0), Some(2_147_483_644));
}

#[test]
fn sum_isnt_for_products_nor_for_signals_that_cancel() {
    let product = circuit(13, 2, 0, &[(&[(1, 1)], &[(2, 1)], &[])]);
    assert_eq!(bound(&product, (SUM, 1, 1, 0)), None);
    let cancelled = circuit(13, 2, 0, &[(&[(0, 4)], &[(1, 2), (2, 1)], &[(1, 8)])]);
    assert_eq!(bound(&cancelled, (SUM, 1, 1, 0)), None);
    assert_eq!(bound(&cancelled, (SUM, 2, 1, 0)), Some(0));
}

#[test]
fn n_digits_in_base_c_reach_c_to_the_n_less_1() {
    let circuit = read_circuit(&case_c(13)).unwrap();
    let standing = after(&circuit, &[(ROOT, 2, 1, 0), (ROOT, 3, 2, 0), (ROOT, 4, 3, 0), (SUM, 1, 4, 0)]).unwrap();
    assert_eq!(standing.bound(1), 7);
}

#[test]
fn zero_needs_bound_0() {
    let one = circuit(5, 2, 0, &[(&[(1, 1)], &[(1, 1)], &[]), (&[(2, 1)], &[(2, 1), (0, -1)], &[])]);
    assert!(after(&one, &[(ZERO, 1, 0, 0)]).is_none());
    assert!(after(&one, &[(ROOT, 1, 1, 0), (ZERO, 1, 0, 0)]).unwrap().is_marked(1));
    assert!(after(&one, &[(ROOT, 2, 2, 0), (ZERO, 2, 0, 0)]).is_none());
    assert!(after(&one, &[(ROOT, 1, 1, 0), (ZERO, 1, 0, 0), (ZERO, 1, 0, 0)]).is_some(), "a step that changes nothing");
}

#[test]
fn product_needs_the_target_in_c_alone_and_all_others_marked() {
    let met = |a: Form, b: Form, c: Form| after(&circuit(7, 4, 2, &[(a, b, c)]), &[(PRODUCT, 3, 1, 0)]).is_some();
    assert!(met(&[(1, 1)], &[(2, 1)], &[(3, 1)]));
    assert!(met(&[(1, 1), (0, 3)], &[(1, 2)], &[(3, 5), (2, 1), (0, 1)]));
    assert!(!met(&[(1, 1)], &[(4, 1)], &[(3, 1)]), "another is unmarked");
    assert!(!met(&[(1, 1)], &[(2, 1)], &[(3, 1), (4, 1)]), "another in C is unmarked");
    assert!(!met(&[(3, 1)], &[(3, 1)], &[(3, 1)]), "the target is in A and B");
    assert!(!met(&[(1, 1)], &[(3, 1)], &[(3, 1)]), "the target is in B");
    assert!(!met(&[(3, 1), (1, 1)], &[(1, 1)], &[(3, 1)]), "the target is in A");
    assert!(!met(&[(1, 1)], &[(2, 1)], &[(1, 1)]), "the target isn't there");
    assert!(!met(&[(0, 1)], &[(1, 1)], &[(3, 1)]), "the constraint is linear");
    assert!(!met(&[(1, 1)], &[], &[(3, 1)]), "the constraint is linear");
    let marked = circuit(7, 4, 3, &[(&[(1, 1)], &[(2, 1)], &[(3, 1)])]);
    assert!(after(&marked, &[(PRODUCT, 3, 1, 0)]).is_some(), "a marked target");
}

#[test]
fn digits_at_once_in_any_order() {
    let circuit = read_circuit(&case_c(13)).unwrap();
    let bounds = [(ROOT, 2, 1, 0), (ROOT, 3, 2, 0), (ROOT, 4, 3, 0)];
    let met = |steps: &[(u8, u16, u16, u16)]| after(&circuit, &[&bounds[..], steps].concat()).is_some();
    // Scaled by signal 1 the weights are 12, 11, 9; by signal 3 they are 7, 1, 2; by signal 4 they are 10, 7, 1, in sum above p.
    for (target, reference, expected) in [(2, 2, true), (4, 2, true), (3, 1, false), (2, 3, true), (2, 4, false), (1, 2, true)] {
        assert_eq!(met(&[(DIGITS, target, 4, reference)]), expected, "{target} by {reference}");
    }
    assert!(met(&[(DIGITS, 4, 4, 2), (DIGITS, 3, 4, 2), (DIGITS, 2, 4, 2), (DIGITS, 1, 4, 1), (DIGITS, 2, 4, 4)]), "the last ones with all marked");
    assert!(!met(&[(DIGITS, 2, 1, 2)]), "constraint 1 isn't linear");
    assert!(after(&circuit, &[(DIGITS, 2, 4, 2)]).is_none(), "without bounds");
    assert!(after(&circuit, &[(ROOT, 2, 1, 0), (ROOT, 3, 2, 0), (DIGITS, 2, 4, 2)]).is_none(), "without one bound");
}

/// Signal n is the weighted sum of the others, of which each has a bound; all but n are unmarked.
fn weighted(p: u32, weights: &[(i64, i64)]) -> (Circuit, Vec<(u8, u16, u16, u16)>) {
    let n = weights.len() as u16 + 1;
    let mut draft = Draft::new(p, n, 1, 1);
    let mut sum = vec![(1, -1)];
    for (signal, &(weight, bound)) in (2..).zip(weights) {
        draft.add(&[(signal, 1)], &[(signal, 1), (0, -bound)], &[]);
        sum.push((signal, weight));
    }
    draft.add(&[(0, 1)], &sum, &[]);
    (read_circuit(&draft.bytes()).unwrap(), (2..=n).map(|signal| (ROOT, signal, signal - 1, 0)).collect())
}

#[test]
fn digits_need_different_weights_that_exceed_the_smaller_ones_with_a_sum_below_p() {
    let met = |p: u32, weights: &[(i64, i64)]| {
        let (circuit, mut steps) = weighted(p, weights);
        steps.push((DIGITS, 2, weights.len() as u16 + 1, 2));
        after(&circuit, &steps).is_some()
    };
    assert!(met(13, &[(1, 2), (3, 2)]));
    assert!(!met(13, &[(1, 3), (3, 2)]), "3 doesn't exceed 3");
    assert!(met(13, &[(1, 3), (4, 2)]));
    assert!(!met(11, &[(1, 3), (4, 2)]), "3 + 8 equals p");
    assert!(!met(13, &[(1, 1), (1, 1)]), "equal weights");
    assert!(!met(13, &[(1, 0), (1, 0)]), "equal weights, though the bounds are 0");
    assert!(met(13, &[(1, 0), (2, 0), (3, 0)]));
    assert!(met(13, &[(1, 12)]));
    assert!(met(2_147_483_647, &[(1, 65_535), (65_536, 32_766)]));
    assert!(!met(2_147_483_647, &[(1, 65_535), (65_536, 2_000_000_000)]));
    assert!(!met(2_147_483_647, &[(1, 65_536), (65_536, 2)]));
}

#[test]
fn digits_need_target_and_reference_in_the_reduced_form() {
    let linear = circuit(13, 4, 2, &[(&[(0, 1)], &[(1, 1), (2, 5), (3, 1)], &[(2, 5)])]);
    assert!(after(&linear, &[(DIGITS, 3, 1, 3)]).unwrap().is_marked(3));
    assert!(after(&linear, &[(DIGITS, 3, 1, 1)]).unwrap().is_marked(3), "a marked reference");
    assert!(after(&linear, &[(DIGITS, 3, 1, 2)]).is_none(), "the reference cancels");
    assert!(after(&linear, &[(DIGITS, 2, 1, 3)]).is_none(), "the target cancels");
    assert!(after(&linear, &[(DIGITS, 3, 1, 4)]).is_none(), "the reference isn't there");
    assert!(after(&linear, &[(DIGITS, 4, 1, 3)]).is_none(), "the target isn't there");
    assert!(after(&linear, &[(DIGITS, 1, 1, 1)]).is_some(), "a marked target and reference");
}

/// Whether one constraint gives signal 3 a nonzero mark, and nothing else by it.
fn gives_nonzero(a: Form, b: Form, c: Form) -> bool {
    let (one, step) = (circuit(7, 4, 2, &[(a, b, c)]), (NONZERO, 3, 1, 0));
    let Some(standing) = after(&one, &[step]) else { return false };
    assert!((1..=4).all(|signal| standing.is_nonzero(signal) == (signal == 3)));
    assert!((1..=4).all(|signal| standing.bound(signal) == 6 && standing.is_marked(signal) == (signal < 3)));
    assert_eq!([idle(&one, &[], &[step]), idle(&one, &[], &[step, step])], [Some(false), Some(true)]);
    true
}

#[test]
fn nonzero_needs_a_constant_c_and_the_target_alone_on_one_side() {
    // Whatever the other side is: marked or not, with a constant, the target again, a constant, nothing.
    for other in [&[(1, 1)][..], &[(4, 2)], &[(0, 3), (1, 1), (4, 1)], &[(3, 2)], &[(0, 1), (3, 1)], &[(0, 5)], &[]] {
        for target in [1, 6] {
            for c in [1, 6] {
                assert!(gives_nonzero(&[(3, target)], other, &[(0, c)]), "{other:?}");
                assert!(gives_nonzero(other, &[(3, target)], &[(0, c)]), "{other:?}");
            }
            assert!(!gives_nonzero(&[(3, target)], other, &[]), "C is 0");
            assert!(!gives_nonzero(other, &[(3, target)], &[(1, 1)]), "C is a signal");
            assert!(!gives_nonzero(other, &[(3, target)], &[(3, 1)]), "C is the target");
            assert!(!gives_nonzero(&[(3, target)], other, &[(0, 1), (1, 1)]), "C is a constant and a signal");
            assert!(!gives_nonzero(&[(3, target)], other, &[(0, 1), (3, 1)]), "C is a constant and the target");
        }
    }
    assert!(!gives_nonzero(&[(0, 1), (3, 1)], &[(1, 1)], &[(0, 1)]), "a constant beside the target");
    assert!(!gives_nonzero(&[(1, 1)], &[(0, 6), (3, 1)], &[(0, 1)]), "a constant beside the target");
    assert!(!gives_nonzero(&[(1, 1), (3, 1)], &[(1, 1)], &[(0, 1)]), "a signal beside the target");
    assert!(!gives_nonzero(&[(1, 1)], &[(3, 1), (4, 1)], &[(0, 1)]), "a signal beside the target");
    assert!(!gives_nonzero(&[(0, 1), (3, 1)], &[(0, 1), (3, 1)], &[(0, 1)]), "both");
    assert!(!gives_nonzero(&[(1, 1)], &[(4, 1)], &[(0, 1)]), "the target isn't there");
    assert!(!gives_nonzero(&[(0, 1)], &[(0, 1)], &[(0, 1)]), "no signal is there");
}

#[test]
fn nonzero_marks_say_nothing_of_bounds_and_bounds_nothing_of_them() {
    // 3 is 1 or 2; that it can't be 0 is told by no rule.
    let two = circuit(7, 3, 0, &[(&[(3, 1), (0, -1)], &[(3, 1), (0, -2)], &[])]);
    assert!(!after(&two, &[(ROOT, 3, 1, 0)]).unwrap().is_nonzero(3));
    assert!(after(&two, &[(NONZERO, 3, 1, 0)]).is_none());
    // A signal that is 0 by a root and never 0 by an inverse: no run satisfies both.
    let none = circuit(7, 1, 0, &[(&[(1, 1)], &[(1, 1)], &[]), (&[(1, 1)], &[(1, 1)], &[(0, 1)])]);
    let standing = after(&none, &[(ROOT, 1, 1, 0), (NONZERO, 1, 2, 0), (ZERO, 1, 0, 0)]).unwrap();
    assert!(standing.bound(1) == 0 && standing.is_marked(1) && standing.is_nonzero(1));
    assert!(brute::satisfying_runs(&none).is_empty());
    // An input tagged 0 gets one too.
    let tagged = read_circuit(&inverse(7, 1)).unwrap();
    assert!(after_with(&tagged, &[Tag::new(1, MAXVALUE, 0)], &[(NONZERO, 1, 1, 0)]).unwrap().is_nonzero(1));
}

/// Whether signal 3 is a quotient by a reference, by the last of three constraints, once inputs 1 and 2 and signals 3 and 5 have nonzero marks.
fn divides(a: Form, b: Form, c: Form, reference: u16) -> bool {
    let inverses: [(Form, Form, Form); 2] = [(&[(1, 1)], &[(2, 1)], &[(0, 1)]), (&[(3, 1)], &[(5, 1)], &[(0, 1)])];
    let all = circuit(7, 6, 2, &[inverses[0], inverses[1], (a, b, c)]);
    let marks = [(NONZERO, 1, 1, 0), (NONZERO, 2, 1, 0), (NONZERO, 3, 2, 0), (NONZERO, 5, 2, 0)];
    let step = (QUOTIENT, 3, 3, reference);
    let Some(standing) = after(&all, &[&marks[..], &[step]].concat()) else { return false };
    assert!((1..=6).all(|signal| standing.is_marked(signal) == (signal <= 3) && standing.bound(signal) == 6));
    assert!(after(&all, &[step]).is_none(), "without the nonzero marks");
    assert_eq!(idle(&all, &[], &[&marks[..], &[step, step]].concat()), Some(true));
    true
}

/// So either way round.
fn divides_by_1(one: Form, other: Form, c: Form) -> bool {
    let both = [divides(one, other, c, 1), divides(other, one, c, 1)];
    assert_eq!(both[0], both[1], "{one:?} {other:?} {c:?}");
    both[0]
}

#[test]
fn quotient_needs_the_reference_alone_on_one_side_and_the_target_on_the_other() {
    for c in [&[][..], &[(0, 3)], &[(2, 1)], &[(1, 4)], &[(0, 1), (1, 1), (2, 5)]] {
        for other in [&[(3, 1)][..], &[(3, 6)], &[(0, 2), (3, 1)], &[(2, 1), (3, 2)], &[(1, 1), (3, 1)], &[(0, 1), (1, 2), (2, 3), (3, 4)]] {
            assert!(divides_by_1(&[(1, 1)], other, c) && divides_by_1(&[(1, 5)], other, c), "{other:?} {c:?}");
            assert!(!divides_by_1(&[(0, 1), (1, 1)], other, c), "a constant beside the reference");
            assert!(!divides_by_1(&[(1, 1), (2, 1)], other, c), "a signal beside the reference");
            assert!(!divides_by_1(&[(0, 1)], other, c) && !divides_by_1(&[], other, c), "the reference isn't there, and the constraint is linear");
        }
        assert!(!divides_by_1(&[(1, 1)], &[(2, 1)], c), "the target isn't there");
        assert!(!divides_by_1(&[(1, 1)], &[(0, 2)], c), "the target isn't there, and the constraint is linear");
        assert!(!divides_by_1(&[(1, 1)], &[(3, 1), (4, 1)], c), "another signal beside the target is unmarked");
        assert!(!divides_by_1(&[(1, 1)], &[(3, 1), (5, 1)], c), "another signal beside the target is unmarked, though never 0");
        assert!(!divides_by_1(&[(1, 1), (3, 1)], &[(3, 1)], c), "the target beside the reference");
        assert!(!divides_by_1(&[(2, 1)], &[(3, 1)], c) && divides(&[(2, 1)], &[(3, 1)], c, 2), "another reference");
        for reference in [2, 3, 4, 5, 6] {
            assert!(!divides(&[(1, 1)], &[(3, 1)], c, reference) && !divides(&[(3, 1)], &[(1, 1)], c, reference), "another reference");
            assert!(!divides(&[(1, 1)], &[(2, 1), (3, 1)], c, reference), "beside the target, not alone");
        }
        for reference in [3, 4, 5] {
            assert!(!divides(&[(reference, 1)], &[(3, 1)], c, reference), "the target, one without both marks, one that is unmarked");
            assert!(!divides(&[(3, 1)], &[(reference, 1)], c, reference));
        }
    }
    for c in [&[(3, 1)][..], &[(0, 1), (3, 2)], &[(1, 1), (3, 1)]] {
        assert!(!divides_by_1(&[(1, 1)], &[(3, 1)], c), "the target in C");
    }
    assert!(!divides_by_1(&[(1, 1)], &[(2, 1)], &[(3, 1)]), "a product");
    for c in [&[(4, 1)][..], &[(0, 1), (4, 1)], &[(1, 1), (5, 2)]] {
        assert!(!divides_by_1(&[(1, 1)], &[(3, 1)], c), "another signal in C is unmarked");
    }
}

#[test]
fn quotient_needs_both_marks_of_its_reference() {
    // 1 is an input, 2 its inverse, 3 the quotient of 1 and 2, 4 that of 1 and itself.
    let forms: [(Form, Form, Form); 3] = [(&[(1, 1)], &[(2, 1)], &[(0, 1)]), (&[(2, 1)], &[(3, 1)], &[(1, 1)]), (&[(4, 1)], &[(4, 1)], &[(1, 1)])];
    let all = circuit(7, 4, 1, &forms);
    let met = |steps: &[(u8, u16, u16, u16)]| after(&all, steps).is_some();
    let (one, two, inverse, quotient) = ((NONZERO, 1, 1, 0), (NONZERO, 2, 1, 0), (QUOTIENT, 2, 1, 1), (QUOTIENT, 3, 2, 2));
    assert!(met(&[one, inverse, two, quotient]) && met(&[two, one, inverse, quotient]));
    assert!(!met(&[inverse]) && !met(&[two, inverse]), "1 has no nonzero mark");
    assert!(!met(&[two, quotient]), "2 is unmarked");
    assert!(!met(&[one, inverse, quotient]), "2 has no nonzero mark");
    assert!(!met(&[two, (QUOTIENT, 1, 1, 2)]) && met(&[one, inverse, two, (QUOTIENT, 1, 1, 2)]), "an input as the target");
    assert!(!met(&[one, two, (QUOTIENT, 4, 3, 4)]), "a square root isn't one");
    assert_eq!(idle(&all, &[], &[one, inverse, two, (QUOTIENT, 1, 1, 2)]), Some(true));
}

#[test]
fn three_steps_for_one_target() {
    for p in [7, 3, 2_147_483_647] {
        let mut out = [9; longest(1)];
        let (judgement, length) = solve(&constant(p), NO_TAGS, &mut out).unwrap();
        let expected = [Step::new(SUM, 1, 1, 0), Step::new(NONZERO, 1, 1, 0), Step::new(DIGITS, 1, 1, 1)];
        assert_eq!((length, &out[..]), (out.len(), &write_steps(&expected)[..]));
        assert!(judgement.fixed && check_derivation(&constant(p), NO_TAGS, &out, &mut [0]) == Ok(judgement));
        assert!(solve(&constant(p), NO_TAGS, &mut out[..longest(1) - 1]).is_err());
    }
}

#[test]
fn a_step_is_idle_if_the_standing_stays() {
    // 1 is an input; 2 has the roots 0 and 3, 0 and 5, and 3 and 0 again; 3 equals 2; 4 is the square of 1, and 1.
    let forms: [(Form, Form, Form); 6] = [
        (&[(2, 1)], &[(2, 1), (0, -3)], &[]),
        (&[(2, 1)], &[(2, 1), (0, -5)], &[]),
        (&[(2, 2), (0, -6)], &[(2, 1)], &[]),
        (&[(0, 1)], &[(2, 1), (3, -1)], &[]),
        (&[(1, 1)], &[(1, 1)], &[(4, 1)]),
        (&[(0, 1)], &[(1, 1), (4, 1)], &[]),
    ];
    let circuit = circuit(13, 4, 1, &forms);
    let idle = |steps: &[(u8, u16, u16, u16)]| idle(&circuit, &[], steps);
    let (three, five, again, sum) = ((ROOT, 2, 1, 0), (ROOT, 2, 2, 0), (ROOT, 2, 3, 0), (SUM, 3, 4, 0));
    assert_eq!([idle(&[three]), idle(&[five]), idle(&[five, three])], [Some(false); 3]);
    assert_eq!([idle(&[three, three]), idle(&[three, again]), idle(&[three, five])], [Some(true); 3], "equal and higher bounds");
    assert_eq!([idle(&[five, sum]), idle(&[five, sum, three, sum])], [Some(false); 2], "the sum again, after a lower bound");
    assert_eq!([idle(&[sum]), idle(&[three, sum, sum]), idle(&[three, sum, (SUM, 2, 4, 0)])], [Some(true); 3], "p - 1, and twice");
    let (square, minus) = ((PRODUCT, 4, 5, 0), (DIGITS, 4, 6, 4));
    assert_eq!([idle(&[square]), idle(&[minus])], [Some(false); 2]);
    assert_eq!([idle(&[square, square]), idle(&[square, minus]), idle(&[minus, square]), idle(&[minus, (DIGITS, 4, 6, 1)])], [Some(true); 4]);
    assert_eq!([idle(&[(DIGITS, 1, 6, 1)]), idle(&[(DIGITS, 1, 6, 4)])], [Some(true); 2], "an input");
    assert_eq!([idle(&[(ZERO, 1, 0, 0)]), idle(&[(PRODUCT, 1, 5, 0)]), idle(&[(DIGITS, 1, 4, 2)])], [None; 3], "the rule comes first");
    assert_eq!([0, 1].map(|limit| zero_is_idle(&circuit, limit)), [Some(true), None], "zero on a tagged input");
}

/// Whether a zero step is idle on input 1 with this limit.
fn zero_is_idle(circuit: &Circuit, limit: u32) -> Option<bool> {
    idle(circuit, &[Tag::new(1, MAXVALUE, limit)], &[(ZERO, 1, 0, 0)])
}

#[test]
fn digits_may_scale_by_a_marked_signal() {
    // Once the lowest digit is marked, no unmarked one scales the others to digits.
    let (circuit, bounds) = weighted(19, &[(1, 1), (2, 1), (5, 1), (9, 1)]);
    let first = [&bounds[..], &[(DIGITS, 2, 5, 2)]].concat();
    for reference in 3..=5 {
        assert!(after(&circuit, &[&first[..], &[(DIGITS, 3, 5, reference)]].concat()).is_none());
    }
    assert!(after(&circuit, &[&first[..], &[(DIGITS, 3, 5, 2), (DIGITS, 5, 5, 2), (DIGITS, 4, 5, 2)]].concat()).is_some());
}

#[test]
fn a_mark_doesnt_say_that_some_run_exists() {
    let bytes = Draft::new(5, 1, 0, 1).with(&[(1, 1)], &[(1, 1)], &[]).with(&[], &[], &[(0, 1)]).bytes();
    assert!(brute::satisfying_runs(&read_circuit(&bytes).unwrap()).is_empty());
    let steps = write_steps(&[Step::new(ROOT, 1, 1, 0), Step::new(ZERO, 1, 0, 0)]);
    assert_eq!(check_derivation(&bytes, NO_TAGS, &steps, &mut [0]), Ok(Judgement { count: 1, fixed: true, shown: 0, unshown: 0 }));
}

/// The first bounds of signals 1 to 3, of which 1 and 2 are inputs, over p.
fn first_bounds(p: u32, tags: &[(u16, u8, u32)]) -> [u64; 3] {
    let circuit = circuit(p, 3, 2, &[]);
    let tags: Vec<Tag> = tags.iter().map(|&(signal, kind, number)| Tag::new(signal, kind, number)).collect();
    let tags = read_sheet(&circuit, &write_sheet(&tags)).unwrap();
    let standing = after_with(&circuit, &tags, &[]).unwrap();
    assert!((1..=3).all(|signal| standing.is_marked(signal) == (signal < 3)));
    [1, 2, 3].map(|signal| standing.bound(signal))
}

#[test]
fn a_tag_lowers_the_first_bound_of_an_input() {
    assert_eq!(first_bounds(13, &[]), [12, 12, 12]);
    assert_eq!(first_bounds(13, &[(1, BINARY, 0)]), [1, 12, 12]);
    assert_eq!(first_bounds(13, &[(2, MAXBIT, 3), (1, MAXVALUE, 9)]), [9, 7, 12]);
    assert_eq!(first_bounds(13, &[(1, MAXBIT, 0), (2, MAXVALUE, 0)]), [0, 0, 12]);
    assert_eq!(first_bounds(13, &[(1, MAXBIT, 4), (2, MAXVALUE, 12)]), [12, 12, 12], "15 lowers nothing");
    assert_eq!(first_bounds(13, &[(1, MAXBIT, 30), (2, MAXVALUE, 11)]), [12, 11, 12]);
    assert_eq!(first_bounds(7, &[(1, MAXBIT, 3), (2, MAXBIT, 2)]), [6, 3, 6], "7 values by 3 bits are one too many");
    assert_eq!(first_bounds(3, &[(1, BINARY, 0), (2, MAXBIT, 2)]), [1, 2, 2]);
    assert_eq!(first_bounds(2_147_483_647, &[(1, MAXBIT, 30), (2, MAXVALUE, 2_147_483_646)]), [1_073_741_823, 2_147_483_646, 2_147_483_646]);
}

#[test]
fn of_several_tags_on_an_input_each_counts() {
    for tags in [[9, 4, 7], [4, 7, 9], [9, 7, 4], [4, 4, 9]] {
        assert_eq!(first_bounds(13, &tags.map(|limit| (1, MAXVALUE, limit))), [4, 12, 12]);
    }
    assert_eq!(first_bounds(13, &[(1, MAXBIT, 3), (2, BINARY, 0), (1, MAXVALUE, 5), (2, MAXVALUE, 8), (1, MAXBIT, 30)]), [5, 1, 12]);
}

#[test]
fn a_tag_on_another_signal_lowers_nothing() {
    assert_eq!(first_bounds(13, &[(3, BINARY, 0), (3, MAXBIT, 0), (3, MAXVALUE, 4)]), [12, 12, 12]);
    assert_eq!(first_bounds(13, &[(3, BINARY, 0), (2, MAXVALUE, 4)]), [12, 4, 12]);
}

#[test]
fn sums_rest_on_first_bounds() {
    // 3 is three times 1 and 2.
    let circuit = circuit(13, 3, 2, &[(&[(0, 1)], &[(1, 3), (2, 1), (3, -1)], &[])]);
    let bound = |x: u32, y: u32| {
        let tags = [Tag::new(1, MAXVALUE, x), Tag::new(2, MAXVALUE, y)];
        Some(after_with(&circuit, &tags, &[(SUM, 3, 1, 0)])?.bound(3))
    };
    assert_eq!([bound(1, 8), bound(1, 9), bound(0, 12), bound(4, 0), bound(0, 0)], [Some(11), Some(12), Some(12), Some(12), Some(0)]);
    assert_eq!([bound(1, 10), bound(4, 1), bound(12, 12)], [None; 3], "p or more");
    let zero = [Tag::new(1, MAXBIT, 0)];
    assert!(after_with(&circuit, &zero, &[(ZERO, 1, 0, 0)]).is_some(), "an input of bound 0, which is marked already");
    assert!(after_with(&circuit, &[Tag::new(3, MAXBIT, 0)], &[(ZERO, 3, 0, 0)]).is_none(), "no bound, a tag alone");
}

#[test]
fn a_tagged_input_is_lowered_further() {
    // 1 equals 2, which is 0 or 3.
    let circuit = circuit(13, 2, 1, &[(&[(0, 1)], &[(1, 1), (2, -1)], &[]), (&[(2, 1)], &[(2, 1), (0, -3)], &[])]);
    let steps = [(ROOT, 2, 2, 0), (SUM, 1, 1, 0)];
    for (limit, bound) in [(12, 3), (5, 3), (3, 3), (2, 2), (0, 0)] {
        assert_eq!(after_with(&circuit, &[Tag::new(1, MAXVALUE, limit)], &steps).unwrap().bound(1), bound);
    }
}

#[test]
fn shown_is_what_the_last_bounds_show() {
    // 1 is an input, 2 is a bit, 3 has any value.
    let circuit = circuit(13, 3, 1, &[(&[(2, 1)], &[(2, 1), (0, -1)], &[])]);
    let after = |tags: &[(u16, u8, u32)], steps: &[(u8, u16, u16, u16)]| {
        let tags: Vec<Tag> = tags.iter().map(|&(signal, kind, number)| Tag::new(signal, kind, number)).collect();
        shown(&circuit, &tags, &after_with(&circuit, &tags, steps).unwrap())
    };
    let root = [(ROOT, 2, 1, 0)];
    assert_eq!(after(&[], &root), (0, 0));
    assert_eq!(after(&[(2, BINARY, 0)], &[]), (0, 1));
    assert_eq!(after(&[(2, BINARY, 0)], &root), (1, 0));
    assert_eq!(after(&[(2, MAXBIT, 0), (2, MAXVALUE, 0)], &root), (0, 1));
    assert_eq!(after(&[(2, MAXBIT, 1), (2, MAXVALUE, 1), (2, BINARY, 0)], &root), (3, 0), "each counts");
    assert_eq!(after(&[(3, MAXVALUE, 12), (3, MAXBIT, 4)], &[]), (2, 0), "p - 1 and above");
    assert_eq!(after(&[(1, BINARY, 0), (3, MAXVALUE, 11), (1, MAXVALUE, 0), (2, BINARY, 0), (3, MAXBIT, 3)], &root), (1, 2));
    assert_eq!(after(&[(1, BINARY, 0), (2, BINARY, 0), (2, MAXBIT, 0)], &root), (1, 3), "the entry's number, inputs counted");
    assert_eq!(after(&[(1, BINARY, 0), (1, MAXVALUE, 3)], &root), (0, 0), "inputs alone");
}

/// New bounds that the solver finds in the order of their size, from first bounds of every size.
#[test]
fn the_solver_begins_at_the_first_bounds() {
    // 2 is twice 1 and 1 more, 3 is their sum; 1 and 2 are inputs.
    let draft = Draft::new(31, 3, 2, 1).with(&[(0, 1)], &[(1, 2), (0, 1), (2, -1)], &[]).with(&[(0, 1)], &[(1, 1), (2, 1), (3, -1)], &[]);
    let steps = |x: u32, y: u32| {
        let (mut out, tags) = ([0; longest(3)], [Tag::new(1, MAXVALUE, x), Tag::new(3, MAXVALUE, 7), Tag::new(2, MAXVALUE, y)]);
        let (judgement, length) = solve(&draft.bytes(), &write_sheet(&tags), &mut out).unwrap();
        let bounds = second::marker::read_steps(&out[..length]).unwrap().into_iter().filter(|step| step.kind == SUM);
        (bounds.map(|step| (step.target, step.constraint)).collect::<Vec<_>>(), judgement.shown)
    };
    assert_eq!(steps(2, 11), (vec![(2, 1), (3, 2)], 1), "5, then 7");
    assert_eq!(steps(2, 5), (vec![(3, 2)], 1), "5 is no less");
    assert_eq!(steps(2, 4), (vec![(3, 2)], 1));
    assert_eq!(steps(3, 11), (vec![(2, 1), (3, 2)], 0), "7, then 10");
    assert_eq!(steps(30, 30), (vec![], 0));
}
