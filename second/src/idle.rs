//! Calls on derivations with idle steps: by a bound that is there already or lower, by a mark that is there already, on inputs; with the rule met and not; and
//! the buffers of renewals.

use crate::cases::{case_a, case_c};
use crate::compose::Maker;
use crate::marker::write_steps;
use crate::rules::{Step, DIGITS, PRODUCT, ROOT, SUM, ZERO};
use crate::sheet::{write_sheet, Tag, BINARY, MAXBIT, MAXVALUE, NO_TAGS};
use crate::vectors::{DERIVATION, RENEW};
use crate::writer::Draft;

/// Inputs 1 and 2. Signal 3 has the roots 0 and 1 twice, and 0 and 2; 4 equals 3, and is 1 more; 5 is 0; 6 is the product of the inputs, and minus input 1;
/// input 1 is also the product of 2 and 6, and the sum of the bits 7 and 8, in which 8 weighs 2.
fn every_way(p: u32) -> Vec<u8> {
    let root = |draft: Draft, signal: u16, larger: i64| draft.with(&[(signal, 1)], &[(signal, 1), (0, -larger)], &[]);
    let mut draft = root(Draft::new(p, 8, 2, 4), 3, 1).with(&[(3, 2), (0, -2)], &[(3, 3)], &[]);
    draft = root(draft, 3, 2).with(&[(0, 1)], &[(3, 1), (4, -1)], &[]).with(&[(0, 1)], &[(3, 1), (0, 1), (4, -1)], &[]);
    draft = root(draft, 5, 0).with(&[(1, 1)], &[(2, 1)], &[(6, 1)]).with(&[(0, 1)], &[(1, 1), (6, 1)], &[]);
    draft = draft.with(&[(2, 1)], &[(6, 1)], &[(1, 1)]).with(&[(0, 1)], &[(7, 1), (8, 2), (1, -1)], &[]);
    root(root(draft, 7, 1), 8, 1).bytes()
}

/// Steps for it of which none is idle.
fn new_steps() -> Vec<Step> {
    vec![
        Step::new(ROOT, 3, 1, 0),
        Step::new(SUM, 4, 4, 0),
        Step::new(ROOT, 5, 6, 0),
        Step::new(ZERO, 5, 0, 0),
        Step::new(PRODUCT, 6, 7, 0),
        Step::new(ROOT, 7, 11, 0),
        Step::new(ROOT, 8, 12, 0),
        Step::new(DIGITS, 7, 10, 7),
        Step::new(DIGITS, 8, 10, 7),
    ]
}

/// Steps to be put among them: idle at some places, unmet at others, and new at some.
fn strewn() -> Vec<Step> {
    vec![
        // The bound that is there, by another constraint; a higher one; sums that reach p, and one whose total is p - 1.
        Step::new(ROOT, 3, 2, 0),
        Step::new(ROOT, 3, 3, 0),
        Step::new(SUM, 3, 4, 0),
        Step::new(SUM, 4, 5, 0),
        Step::new(SUM, 3, 5, 0),
        Step::new(SUM, 1, 8, 0),
        Step::new(SUM, 1, 10, 0),
        Step::new(ROOT, 5, 6, 0),
        Step::new(ROOT, 5, 1, 0),
        // Marks by another kind, constraint or reference than the first one's; on inputs; where the rule isn't met though the target is marked.
        Step::new(ZERO, 5, 0, 0),
        Step::new(ZERO, 6, 0, 0),
        Step::new(ZERO, 1, 0, 0),
        Step::new(ZERO, 2, 0, 0),
        Step::new(DIGITS, 6, 8, 6),
        Step::new(DIGITS, 6, 8, 1),
        Step::new(DIGITS, 1, 8, 6),
        Step::new(DIGITS, 1, 10, 7),
        Step::new(DIGITS, 7, 10, 8),
        Step::new(DIGITS, 8, 10, 1),
        Step::new(PRODUCT, 1, 9, 0),
        Step::new(PRODUCT, 6, 7, 0),
        Step::new(PRODUCT, 6, 9, 0),
        Step::new(PRODUCT, 5, 7, 0),
    ]
}

/// c's own derivation.
fn steps_of_c() -> Vec<Step> {
    let bounds = [Step::new(ROOT, 2, 1, 0), Step::new(ROOT, 3, 2, 0), Step::new(ROOT, 4, 3, 0), Step::new(SUM, 1, 4, 0)];
    let marks = [Step::new(DIGITS, 2, 4, 2), Step::new(DIGITS, 3, 4, 2), Step::new(DIGITS, 4, 4, 1)];
    [&bounds[..], &marks].concat()
}

/// The steps with one more before the one at this index.
fn with(steps: &[Step], at: usize, step: Step) -> Vec<Step> {
    [&steps[..at], &[step], &steps[at..]].concat()
}

impl Maker {
    /// All of the above and below.
    pub fn idle_calls(&mut self) {
        for p in [13, 2_147_483_647] {
            let (circuit, steps) = (every_way(p), new_steps());
            self.mark_and_renew(&circuit, NO_TAGS, &write_steps(&steps), 8);
            for (index, step) in strewn().into_iter().enumerate() {
                for at in [index % 4, 4 + index % 5, 9] {
                    self.mark_and_renew(&circuit, NO_TAGS, &write_steps(&with(&steps, at, step)), 8);
                }
            }
            // The same kind of step again in every place after the first.
            for at in 0..steps.len() {
                self.mark_and_renew(&circuit, NO_TAGS, &write_steps(&with(&steps, at + 1, steps[at])), 8);
            }
        }
        self.padded_c();
        self.tagged_zeros();
        self.lowered_again();
        self.idle_against_other_faults();
        self.renewal_buffers();
    }

    /// c's derivation with a step more, at every place: a root, a sum and digits again; and with all of it given twice, in two ways.
    fn padded_c(&mut self) {
        let (c, steps) = (case_c(13), steps_of_c());
        for (from, least) in [(0, 1), (3, 4), (4, 5)] {
            for at in least..=steps.len() {
                self.mark_and_renew(&c, NO_TAGS, &write_steps(&with(&steps, at, steps[from])), 4);
            }
        }
        let doubled: Vec<Step> = steps.iter().flat_map(|&step| [step, step]).collect();
        self.mark_and_renew(&c, NO_TAGS, &write_steps(&doubled), 4);
        self.mark_and_renew(&c, NO_TAGS, &write_steps(&[&steps[..], &steps].concat()), 4);
        // With the input tagged as 3 bits the sum gives the bound that is there; as 2 bits, a higher one.
        for tag in [Tag::new(1, MAXBIT, 3), Tag::new(1, MAXVALUE, 7), Tag::new(1, MAXBIT, 2), Tag::new(1, MAXVALUE, 8)] {
            self.mark_and_renew(&c, &write_sheet(&[tag]), &write_steps(&steps), 4);
        }
    }

    /// Zero on inputs tagged 0 in every way, and tagged otherwise; then on a signal that equals them.
    fn tagged_zeros(&mut self) {
        for p in [3, 13, 65_537] {
            let circuit = Draft::new(p, 3, 2, 1).with(&[(0, 1)], &[(1, 1), (2, 1), (3, -1)], &[]).bytes();
            let (sum, zero) = (Step::new(SUM, 3, 1, 0), |signal: u16| Step::new(ZERO, signal, 0, 0));
            for tag in [Tag::new(1, MAXBIT, 0), Tag::new(1, MAXVALUE, 0), Tag::new(1, BINARY, 0)] {
                let sheet = write_sheet(&[Tag::new(2, MAXBIT, 0), tag]);
                for steps in
                    [vec![zero(1)], vec![sum, zero(2), zero(3)], vec![sum, zero(3), zero(1)], vec![sum, zero(3), zero(3)], vec![sum, zero(3)]]
                {
                    self.mark_and_renew(&circuit, &sheet, &write_steps(&steps), 3);
                }
            }
        }
    }

    /// The same sum again, which is new because the bounds that it rests on have fallen, or idle because they haven't; a lower bound after a higher one and
    /// the other way round. Signal 2 is twice 1, and 1 has the roots 5, 3 and 1.
    fn lowered_again(&mut self) {
        let root = |draft: Draft, larger: i64| draft.with(&[(1, 1)], &[(1, 1), (0, -larger)], &[]);
        let (sum, root_by) = (Step::new(SUM, 2, 1, 0), |constraint: u16| Step::new(ROOT, 1, constraint, 0));
        for p in [13, 31, 2_147_483_647] {
            let draft = Draft::new(p, 2, 0, 2).with(&[(0, 1)], &[(1, 2), (2, -1)], &[]);
            let circuit = root(root(root(draft, 5), 3), 1).bytes();
            let (high, middle, low) = (root_by(2), root_by(3), root_by(4));
            let lists: [&[Step]; 6] = [
                &[high, sum, middle, sum, low, sum],
                &[high, sum, middle, sum, sum, low, sum],
                &[high, middle, sum, high, sum, low, sum],
                &[low, middle, high, sum],
                &[low, sum, high, sum, middle, sum],
                &[middle, sum, low, high, sum],
            ];
            lists.iter().for_each(|steps| self.mark_and_renew(&circuit, NO_TAGS, &write_steps(steps), 2));
        }
    }

    /// An idle step and one with another fault, either of them first.
    fn idle_against_other_faults(&mut self) {
        let (c, steps) = (case_c(13), steps_of_c());
        let others = [
            Step::new(8, 2, 1, 0),
            Step::new(0, 0, 0, 0),
            Step::new(1, 5, 1, 0),
            Step::new(5, 2, 4, 0),
            Step::new(4, 2, 4, 0),
            Step::new(3, 2, 0, 0),
        ];
        for (at, other) in others.into_iter().enumerate() {
            for idle in [steps[at % 4], steps[3]] {
                for [first, second] in [[idle, other], [other, idle]] {
                    self.mark_and_renew(&c, NO_TAGS, &write_steps(&[&steps[..4], &[first, second], &steps[4..]].concat()), 4);
                }
            }
        }
        // Steps that would be idle but for a field that their rule doesn't read.
        for fields in [(ZERO, 1, 1, 0), (ZERO, 1, 0, 1), (ROOT, 2, 1, 2), (SUM, 1, 4, 1), (PRODUCT, 1, 0, 0)] {
            let (kind, target, constraint, reference) = fields;
            let sheet = write_sheet(&[Tag::new(1, MAXBIT, 0)]);
            let step = Step::new(kind, target, constraint, reference);
            self.mark_and_renew(&c, &sheet, &write_steps(&[&steps[..3], &[step]].concat()), 4);
        }
    }

    /// Renewals into buffers about the length of the derivation, of what is left of it, of n and of what a solver needs; with and without a fault in a step.
    fn renewal_buffers(&mut self) {
        let product = Step::new(PRODUCT, 2, 1, 0);
        let short = [
            vec![],
            vec![product],
            vec![product; 2],
            vec![product; 9],
            vec![product, Step::new(9, 2, 1, 0)],
            vec![product, Step::new(ZERO, 2, 0, 0)],
        ];
        for steps in short {
            let (derivation, length) = (write_steps(&steps), 7 + 7 * steps.len());
            let mut lengths = vec![0, 2, 6, 7, 13, 14, 34, 35, length - 1, length, length + 1];
            lengths.sort_unstable();
            lengths.dedup();
            lengths.into_iter().for_each(|lent| self.call(RENEW, &case_a(), &derivation, lent));
        }
        // Many signals and few steps: n is more than the derivation has bytes.
        let wide = Draft::new(13, 256, 1, 255).with(&[(0, 1)], &[(1, 1), (256, 1)], &[]).bytes();
        for steps in [vec![Step::new(DIGITS, 256, 1, 1)], vec![Step::new(DIGITS, 256, 1, 1), Step::new(DIGITS, 1, 1, 1)]] {
            let length = 7 + 7 * steps.len();
            self.call(DERIVATION, &wide, &write_steps(&steps), 256);
            [length - 1, length, 255, 256].iter().for_each(|&lent| self.call(RENEW, &wide, &write_steps(&steps), lent));
        }
    }
}
