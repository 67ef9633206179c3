//! The solver call and refusal 25. Bounds come first, then nonzero marks, then marks: no phase ever undoes or repeats a step.

mod bounds;
mod marks;
mod nonzero;

use crate::marker::{write_steps, Judgement};
use crate::reader::{read_circuit, refuse, Circuit, Refusal};
use crate::rules::{Reduced, Standing, Step};
use crate::sheet::{read_sheet, Tag};

/// The most bytes that the solver's derivation takes for a circuit with so many signals: three steps for each.
pub const fn longest(signals: usize) -> usize {
    7 + 21 * signals
}

/// Writes the derivation that document 01 prescribes; answers what it comes to, and its length.
pub fn solve(circuit: &[u8], sheet: &[u8], out: &mut [u8]) -> Result<(Judgement, usize), Refusal> {
    let circuit = read_circuit(circuit)?;
    let tags = read_sheet(&circuit, sheet)?;
    if out.len() < longest(circuit.signals.into()) {
        return refuse(25, 0);
    }
    let (steps, standing) = derive(&circuit, &tags);
    let bytes = write_steps(&steps);
    out[..bytes.len()].copy_from_slice(&bytes);
    Ok((Judgement::of(&circuit, &tags, &standing), bytes.len()))
}

/// The solver's steps and the standing that they reach.
pub fn derive(circuit: &Circuit, tags: &[Tag]) -> (Vec<Step>, Standing) {
    let mut standing = Standing::start(circuit, tags);
    let linear: Vec<Linear> = (1..).zip(&circuit.constraints).filter_map(|(number, c)| Linear::of(number, c, circuit)).collect();
    let mut steps = bounds::lower_all(circuit, &linear, &mut standing);
    steps.extend(nonzero::mark_all(circuit, &mut standing));
    steps.extend(marks::mark_all(circuit, &linear, &mut standing));
    (steps, standing)
}

/// A linear constraint: its number, its reduced form, and the inverses of the coefficients.
struct Linear {
    number: u16,
    reduced: Reduced,
    inverses: Vec<u64>,
}

impl Linear {
    fn of(number: u16, constraint: &crate::reader::Constraint, circuit: &Circuit) -> Option<Linear> {
        let reduced = Reduced::of(constraint, circuit.field)?;
        let coefficients: Vec<u64> = reduced.terms.iter().map(|&(_, c)| c).collect();
        Some(Linear { number, reduced, inverses: circuit.field.inverses(&coefficients) })
    }
}

/// For each signal (index 0 is unused) where it stands: which of the lists, and at which position in it.
fn occurrences<'a, T: 'a>(circuit: &Circuit, lists: impl Iterator<Item = &'a [(u16, T)]>) -> Vec<Vec<(usize, usize)>> {
    let mut result = vec![Vec::new(); usize::from(circuit.signals) + 1];
    for (list, terms) in lists.enumerate() {
        for (position, (signal, _)) in terms.iter().enumerate() {
            result[usize::from(*signal)].push((list, position));
        }
    }
    result
}
