//! The solver's second phase. Which signals get a nonzero mark hangs on the constraints alone, so one look at each of them is enough.

use std::collections::BTreeMap;

use crate::reader::Circuit;
use crate::rules::{nonzero_signals, Standing, Step, NONZERO};

/// Gives nonzero marks until no step gives one: to each target by its lowest constraint, the targets rising.
pub fn mark_all(circuit: &Circuit, standing: &mut Standing) -> Vec<Step> {
    let mut lowest = BTreeMap::new();
    for (number, constraint) in (1..).zip(&circuit.constraints) {
        nonzero_signals(constraint).for_each(|target| {
            lowest.entry(target).or_insert(number);
        });
    }
    lowest.retain(|&target, _| standing.mark_nonzero(target));
    lowest.into_iter().map(|(target, constraint)| Step::new(NONZERO, target, constraint, 0)).collect()
}
