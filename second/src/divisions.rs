//! Divisions: constraints from which a nonzero mark or a quotient follows, or nearly so; the cases of rule 7.13; idle steps of both sorts; kinds that there
//! aren't; and which step comes first where a target is marked in many ways.

use crate::cases::{case_g, constant, inverse};
use crate::compose::Maker;
use crate::edge::Edge;
use crate::marker::write_steps;
use crate::pair::write_pair;
use crate::random::Random;
use crate::rules::{Step, DIGITS, NONZERO, PRODUCT, QUOTIENT, ROOT, SUM, ZERO};
use crate::sheet::{write_sheet, Tag, MAXBIT, NO_TAGS};
use crate::solver::longest;
use crate::vectors::{DERIVATION, PAIR, RENEW, SOLVE};
use crate::worst;
use crate::writer::Draft;

type Form<'a> = &'a [(u16, i64)];

/// Constraints that give signal 3 a nonzero mark, or nearly do: by A, by B, by both, whatever the other form is; C with more than a constant, or with nothing;
/// a constant or a signal beside it; another signal.
const NONZEROS: [[Form; 3]; 22] = [
    [&[(3, 1)], &[(1, 1)], &[(0, 1)]],
    [&[(1, 2)], &[(3, 5)], &[(0, 6)]],
    [&[(3, 1)], &[(3, 1)], &[(0, 4)]],
    [&[(0, 2)], &[(3, 1)], &[(0, 1)]],
    [&[(3, 3)], &[(0, 1)], &[(0, 1)]],
    [&[(3, 1)], &[], &[(0, 1)]],
    [&[], &[(3, 1)], &[(0, 1)]],
    [&[(3, 1)], &[(0, 1), (1, 1), (4, 2)], &[(0, 3)]],
    [&[(0, 1), (3, 1)], &[(3, 1)], &[(0, 3)]],
    [&[(3, 1), (4, 1)], &[(3, 1)], &[(0, 3)]],
    [&[(3, 1)], &[(1, 1)], &[]],
    [&[(3, 1)], &[(1, 1)], &[(1, 1)]],
    [&[(3, 1)], &[(1, 1)], &[(3, 1)]],
    [&[(3, 1)], &[(1, 1)], &[(0, 1), (2, 1)]],
    [&[(3, 1)], &[(1, 1)], &[(0, 1), (3, 1)]],
    [&[(0, 1), (3, 1)], &[(1, 1)], &[(0, 1)]],
    [&[(1, 1)], &[(0, 6), (3, 1)], &[(0, 1)]],
    [&[(1, 1), (3, 1)], &[(2, 1)], &[(0, 1)]],
    [&[(1, 1)], &[(3, 1), (4, 1)], &[(0, 1)]],
    [&[(1, 1)], &[(2, 1)], &[(0, 1)]],
    [&[(0, 1)], &[(0, 1)], &[(0, 1)]],
    [&[(0, 1), (3, 1)], &[(0, 2), (3, 1)], &[(0, 1)]],
];

/// Constraints by which signal 3 is a quotient by input 1, or nearly so: either way round, with marked signals and constants beside the target and in C;
/// something beside the reference; another reference; another signal unmarked; the target in C, on both sides, nowhere; a linear constraint.
const QUOTIENTS: [[Form; 3]; 29] = [
    [&[(1, 1)], &[(3, 1)], &[(0, 1)]],
    [&[(3, 1)], &[(1, 1)], &[(0, 1)]],
    [&[(1, 2)], &[(0, 1), (3, 3)], &[(0, 4), (2, 1)]],
    [&[(2, 1), (3, 1)], &[(1, 4)], &[(2, 1)]],
    [&[(1, 1)], &[(3, 1)], &[]],
    [&[(1, 1)], &[(1, 1), (3, 1)], &[(1, 3)]],
    [&[(0, 1), (1, 2), (3, 1)], &[(1, 6)], &[(0, 1), (1, 3)]],
    [&[(0, 1), (1, 1)], &[(3, 1)], &[(0, 1)]],
    [&[(3, 1)], &[(0, 1), (1, 1)], &[(2, 1)]],
    [&[(1, 1), (2, 1)], &[(3, 1)], &[(0, 1)]],
    [&[(3, 1)], &[(1, 1), (2, 1)], &[(0, 1)]],
    [&[(2, 1)], &[(3, 1)], &[(1, 1)]],
    [&[(3, 1)], &[(2, 1)], &[(1, 1)]],
    [&[(4, 1)], &[(3, 1)], &[(1, 1)]],
    [&[(5, 1)], &[(3, 1)], &[(1, 1)]],
    [&[(3, 1)], &[(5, 1)], &[(0, 1)]],
    [&[(1, 1)], &[(3, 1), (4, 1)], &[(0, 1)]],
    [&[(3, 1), (5, 1)], &[(1, 1)], &[(0, 1)]],
    [&[(1, 1)], &[(3, 1)], &[(4, 1)]],
    [&[(3, 1)], &[(1, 1)], &[(0, 1), (4, 1)]],
    [&[(1, 1)], &[(3, 1)], &[(3, 1)]],
    [&[(3, 1)], &[(1, 1)], &[(0, 1), (3, 2)]],
    [&[(3, 1)], &[(3, 1)], &[(0, 1)]],
    [&[(3, 1)], &[(1, 1), (3, 1)], &[(0, 1)]],
    [&[(1, 1)], &[(2, 1)], &[(3, 1)]],
    [&[(1, 1)], &[(2, 1)], &[(0, 1)]],
    [&[(0, 1)], &[(3, 1)], &[(0, 1)]],
    [&[(1, 1)], &[(0, 1)], &[(3, 1)]],
    [&[(1, 1)], &[], &[(3, 1)]],
];

/// A nonzero step by one of these constraints, twice, and one with input 1 as its target.
fn nonzero_edge(p: u32, forms: [Form; 3]) -> Edge {
    let [a, b, c] = forms;
    let circuit = Draft::new(p, 4, 2, 2).with(a, b, c).bytes();
    let step = |target: u16| Step::new(NONZERO, target, 1, 0);
    Edge { circuit, tags: Vec::new(), derivations: vec![vec![step(3); 2], vec![step(1), step(3)]] }
}

/// A quotient step by the last of three constraints, twice, and without the nonzero marks that the first two give inputs 1 and, as 5 isn't marked, signal 5.
fn quotient_edge(p: u32, forms: [Form; 3], reference: u16) -> Edge {
    let [a, b, c] = forms;
    let draft = Draft::new(p, 5, 2, 3).with(&[(1, 1)], &[(1, 1), (2, 1)], &[(0, 2)]).with(&[(5, 1)], &[(5, 1)], &[(0, 1)]);
    let marks = [Step::new(NONZERO, 1, 1, 0), Step::new(NONZERO, 5, 2, 0)];
    let step = Step::new(QUOTIENT, 3, 3, reference);
    Edge { circuit: draft.with(a, b, c).bytes(), tags: Vec::new(), derivations: vec![[&marks[..], &[step; 2]].concat(), vec![step]] }
}

/// One of the nonzero marks.
pub fn nonzero(rng: &mut Random) -> Edge {
    nonzero_edge(rng.pick(&[7, 13, 65_537]), rng.pick(&NONZEROS))
}

/// One of the quotients, by a reference that mostly is the right one.
pub fn quotient(rng: &mut Random) -> Edge {
    quotient_edge(rng.pick(&[7, 13, 65_537]), rng.pick(&QUOTIENTS), rng.pick(&[1, 1, 1, 2, 3, 4, 5]))
}

/// All of them, one after the other.
pub fn listed() -> Vec<Edge> {
    let mut edges: Vec<Edge> = NONZEROS.iter().map(|&forms| nonzero_edge(7, forms)).collect();
    for &forms in &QUOTIENTS {
        let divisors = forms[..2].iter().filter_map(|form| if let [(signal, _)] = form { Some(*signal) } else { None });
        let mut references: Vec<u16> = divisors.filter(|&signal| signal > 1).chain([1]).collect();
        references.dedup();
        edges.extend(references.into_iter().map(|reference| quotient_edge(7, forms, reference)));
    }
    edges
}

/// Inputs 1 and 2. Input 1 is never 0 by constraints 1 and 2, signal 3 by 2 and 5; 3 is a quotient by 1 by constraint 2, 4 one by 1 and by 3 (3 and 4) and also
/// the product of the inputs (6); 5 is 1 (7).
fn every_way(p: u32) -> Vec<u8> {
    let draft = Draft::new(p, 5, 2, 3).with(&[(1, 2)], &[(0, 1), (2, 1)], &[(0, 1)]).with(&[(3, 1)], &[(1, 1)], &[(0, 3)]);
    let draft = draft.with(&[(1, 1)], &[(4, 1)], &[(2, 1), (3, 1)]).with(&[(4, 1), (2, 1)], &[(3, 2)], &[(1, 1)]);
    draft.with(&[(3, 1)], &[(3, 1), (4, 1)], &[(0, 1)]).with(&[(1, 1)], &[(2, 1)], &[(4, 1)]).with(&[(0, 1)], &[(5, 1)], &[(0, 1)]).bytes()
}

/// Steps for it of which none is idle: all three sorts for signal 5.
fn new_steps() -> Vec<Step> {
    vec![
        Step::new(SUM, 5, 7, 0),
        Step::new(NONZERO, 5, 7, 0),
        Step::new(DIGITS, 5, 7, 5),
        Step::new(NONZERO, 1, 1, 0),
        Step::new(QUOTIENT, 3, 2, 1),
        Step::new(NONZERO, 3, 2, 0),
        Step::new(QUOTIENT, 4, 4, 3),
    ]
}

/// Steps to be put among them: idle at some places, unmet at others, and new at some.
fn strewn() -> Vec<Step> {
    vec![
        Step::new(NONZERO, 1, 1, 0),
        Step::new(NONZERO, 1, 2, 0),
        Step::new(NONZERO, 3, 5, 0),
        Step::new(NONZERO, 3, 2, 0),
        Step::new(NONZERO, 5, 7, 0),
        Step::new(NONZERO, 2, 1, 0),
        Step::new(NONZERO, 4, 3, 0),
        Step::new(QUOTIENT, 1, 2, 3),
        Step::new(QUOTIENT, 3, 2, 1),
        Step::new(QUOTIENT, 3, 2, 3),
        Step::new(QUOTIENT, 4, 3, 1),
        Step::new(QUOTIENT, 4, 4, 3),
        Step::new(QUOTIENT, 4, 5, 3),
        Step::new(QUOTIENT, 2, 4, 3),
        Step::new(QUOTIENT, 5, 7, 5),
        Step::new(QUOTIENT, 5, 7, 1),
        Step::new(PRODUCT, 4, 6, 0),
        Step::new(SUM, 5, 7, 0),
        Step::new(DIGITS, 5, 7, 5),
    ]
}

impl Maker {
    /// All of the above and below.
    pub fn division_calls(&mut self) {
        self.division_cases();
        self.division_fields();
        self.strewn_divisions();
        self.by_the_target_itself();
        self.divisions_under_tags();
        self.wrong_kinds();
        self.division_chains();
        self.filled_buffers();
        self.short_renewals();
        self.root_of_a_nonzero_signal();
    }

    /// Rule 7.13.
    fn division_cases(&mut self) {
        for p in [7, 13, 2_147_483_647] {
            for circuit in [inverse(p, 1), inverse(p, 0), constant(p)] {
                self.solve_and_mark(&circuit);
            }
        }
        for (first, second) in [([1, 1], [2, 4]), ([1, 1], [1, 1]), ([1, 1], [1, 2]), ([3, 5], [5, 3])] {
            self.call(PAIR, &inverse(7, 0), &write_pair(1, &first, &second), 0);
            self.call(PAIR, &inverse(7, 1), &write_pair(2, &first, &second), 0);
        }
        for steps in [vec![Step::new(NONZERO, 1, 1, 0)], vec![Step::new(NONZERO, 1, 2, 0)], vec![Step::new(QUOTIENT, 3, 1, 1)]] {
            self.mark_and_renew(&case_g(), NO_TAGS, &write_steps(&steps), 3);
        }
        let (one, two, quotient) = (Step::new(NONZERO, 1, 1, 0), Step::new(NONZERO, 2, 1, 0), Step::new(QUOTIENT, 2, 1, 1));
        let other = Step::new(QUOTIENT, 1, 1, 2);
        let lists: [&[Step]; 12] = [
            &[one, two, quotient],
            &[one, quotient, two],
            &[one, quotient],
            &[two, quotient],
            &[quotient],
            &[one, one],
            &[one, quotient, quotient],
            &[two, one, two],
            &[one, two, other],
            &[one, two, quotient, other],
            &[two, other],
            &[one, Step::new(QUOTIENT, 1, 1, 1)],
        ];
        for inputs in [0, 1] {
            lists.iter().for_each(|steps| self.mark_and_renew(&inverse(7, inputs), NO_TAGS, &write_steps(steps), 2));
        }
    }

    /// Steps that would be met but for a field.
    fn division_fields(&mut self) {
        let circuit = every_way(13);
        let nonzero = [(1, 1, 1), (1, 1, 3), (1, 0, 0), (1, 0, 1), (3, 0, 0), (1, 8, 0), (0, 1, 0), (6, 1, 0), (257, 1, 0), (1, 257, 0), (1, 1, 256)];
        let references = [0, 2, 3, 4, 6, 257].map(|reference| (3, 2, reference));
        let quotient = [&references[..], &[(3, 0, 1), (3, 8, 1), (3, 258, 1), (0, 2, 1), (6, 2, 1), (259, 2, 1)]].concat();
        let of_kind = |kind: u8, fields: &[(u16, u16, u16)]| -> Vec<Step> { fields.iter().map(|&(t, c, r)| Step::new(kind, t, c, r)).collect() };
        for step in [of_kind(NONZERO, &nonzero), of_kind(QUOTIENT, &quotient)].concat() {
            self.mark_and_renew(&circuit, NO_TAGS, &write_steps(&[Step::new(NONZERO, 5, 7, 0), step]), 5);
        }
    }

    /// Each of the strewn steps at several places among the new ones, and each of those again right after itself.
    fn strewn_divisions(&mut self) {
        for p in [13, 2_147_483_647] {
            let (circuit, steps) = (every_way(p), new_steps());
            self.solve_and_mark(&circuit);
            self.mark_and_renew(&circuit, NO_TAGS, &write_steps(&steps), 5);
            let with = |at: usize, step: Step| [&steps[..at], &[step], &steps[at..]].concat();
            for (index, step) in strewn().into_iter().enumerate() {
                for at in [index % 4, 4 + index % 3, 7] {
                    self.mark_and_renew(&circuit, NO_TAGS, &write_steps(&with(at, step)), 5);
                }
            }
            (0..steps.len()).for_each(|at| self.mark_and_renew(&circuit, NO_TAGS, &write_steps(&with(at + 1, steps[at])), 5));
        }
    }

    /// Quotients by their own targets, which have a nonzero mark: unmarked, an input, and an input in both forms.
    fn by_the_target_itself(&mut self) {
        for p in [5, 13, 65_537] {
            let draft = Draft::new(p, 3, 2, 1).with(&[(3, 1)], &[(3, 1)], &[(0, 4)]).with(&[(1, 1)], &[(1, 2)], &[(0, 3)]);
            let circuit = draft.with(&[(2, 1)], &[(0, 1), (1, 1), (2, 1)], &[(0, 1)]).bytes();
            for (target, constraint) in [(3, 1), (1, 2), (2, 3)] {
                let steps = [Step::new(NONZERO, target, constraint, 0), Step::new(QUOTIENT, target, constraint, target)];
                self.mark_and_renew(&circuit, NO_TAGS, &write_steps(&steps), 3);
            }
        }
    }

    /// Bounds tell a quotient nothing: a reference tagged 0, which no run has; a target with bound 0, which is marked by zero; tags that mark what is divided.
    fn divisions_under_tags(&mut self) {
        let draft = Draft::new(13, 4, 2, 2).with(&[(1, 1)], &[(3, 1)], &[(0, 1)]).with(&[(3, 1)], &[(4, 1)], &[(2, 1)]);
        let equal = draft.clone().with(&[(0, 1)], &[(2, 1), (4, -1)], &[]);
        let root = draft.clone().with(&[(4, 1)], &[(4, 3)], &[]);
        for draft in [draft, equal, root] {
            for limits in [[0, 0], [0, 3], [5, 0], [1, 12]] {
                let tags = [1, 2].map(|input| Tag::new(input, 3, limits[usize::from(input) - 1]));
                self.solve_and_mark_with(&draft.bytes(), &[&tags[..], &[Tag::new(4, MAXBIT, 0), Tag::new(3, MAXBIT, 2)]].concat());
            }
        }
        let sheet = write_sheet(&[Tag::new(1, MAXBIT, 0)]);
        for steps in [vec![Step::new(ZERO, 1, 0, 0)], vec![Step::new(NONZERO, 1, 1, 0), Step::new(NONZERO, 1, 1, 0)]] {
            self.mark_and_renew(&inverse(7, 1), &sheet, &write_steps(&steps), 2);
        }
    }

    /// Kinds from 8 on and 0, first and after a step of each new kind, with fields that kinds 6 and 7 would allow and with others.
    fn wrong_kinds(&mut self) {
        let before = [Step::new(NONZERO, 1, 1, 0), Step::new(QUOTIENT, 2, 1, 1)];
        for kind in [0, 8, 9, 14, 15, 16, 127, 128, 134, 135, 255] {
            for (target, constraint, reference) in [(2, 1, 0), (2, 1, 1), (0, 9, 9)] {
                let step = Step::new(kind, target, constraint, reference);
                self.mark_and_renew(&inverse(7, 1), NO_TAGS, &write_steps(&[step]), 2);
                self.mark_and_renew(&inverse(7, 1), NO_TAGS, &write_steps(&[&before[..], &[step]].concat()), 2);
            }
        }
    }

    /// The longest chain of divisions, with a buffer that is long enough and one that is a byte short.
    fn division_chains(&mut self) {
        self.solve_and_mark(&worst::division_chain());
        self.call(SOLVE, &worst::division_chain(), &[], longest(256) - 1);
    }

    /// Circuits of ones, whose derivations have three steps for each signal and so fill a buffer of exactly the length that is needed; and other lengths.
    fn filled_buffers(&mut self) {
        for n in [1, 2, 5] {
            let ones = (1..=n).rev().fold(Draft::new(7, n, 0, n), |draft, signal| draft.with(&[(0, 1)], &[(signal, 1)], &[(0, 1)])).bytes();
            self.solve_and_mark(&ones);
            let (most, two_steps_each) = (longest(n.into()), 7 + 14 * usize::from(n));
            [two_steps_each, most - 7, most - 1, most, most + 1].iter().for_each(|&lent| self.call(SOLVE, &ones, &[], lent));
        }
    }

    /// Two nonzero steps, both new or the second idle, renewed into buffers of their length, a byte less and a byte more.
    fn short_renewals(&mut self) {
        let both = [Step::new(NONZERO, 2, 1, 0), Step::new(NONZERO, 1, 1, 0)];
        for lent in [20, 21, 22] {
            self.call(RENEW, &inverse(7, 1), &write_steps(&both), lent);
            self.call(RENEW, &inverse(7, 1), &write_steps(&[both[0]; 2]), lent);
        }
    }

    /// A signal whose square is 0 by one constraint and 1 by another: it gets a nonzero mark, and then the bound 0 and a zero step.
    fn root_of_a_nonzero_signal(&mut self) {
        let none = Draft::new(7, 1, 0, 1).with(&[(1, 1)], &[(1, 1)], &[]).with(&[(1, 1)], &[(1, 1)], &[(0, 1)]).bytes();
        self.solve_and_mark(&none);
        let steps = [Step::new(NONZERO, 1, 2, 0), Step::new(ROOT, 1, 1, 0), Step::new(ZERO, 1, 0, 0)];
        self.call(DERIVATION, &none, &write_steps(&steps), 1);
    }
}
