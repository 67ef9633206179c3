//! The first-run and the next-run call: the satisfying runs of a circuit with few candidates, in their order. Refusals 30 and 31.

use crate::reader::{read_circuit, refuse, Circuit, Constraint, Form, Refusal};

/// The most candidates, p to the power n, of a circuit whose runs are listed.
pub const MOST_CANDIDATES: u64 = 65_536;

/// Whether the circuit has no more candidates than that.
pub fn is_small(circuit: &Circuit) -> bool {
    circuit.field.prime().checked_pow(u32::from(circuit.signals)).is_some_and(|candidates| candidates <= MOST_CANDIDATES)
}

/// Writes the first satisfying run. False if there is none.
pub fn first_run(circuit: &[u8], answer: &mut [u32]) -> Result<bool, Refusal> {
    let circuit = read_small(circuit)?;
    if answer.len() != usize::from(circuit.signals) {
        return refuse(31, 0);
    }
    Ok(write_first(&circuit, None, answer))
}

/// Writes the first satisfying run that the given one, which needn't satisfy anything, comes before. False if there is none.
pub fn next_run(circuit: &[u8], given: &[u32], answer: &mut [u32]) -> Result<bool, Refusal> {
    let circuit = read_small(circuit)?;
    if [given.len(), answer.len()] != [usize::from(circuit.signals); 2] {
        return refuse(31, 0);
    }
    if let Some(high) = given.iter().position(|&value| u64::from(value) >= circuit.field.prime()) {
        return refuse(31, high + 1);
    }
    Ok(write_first(&circuit, Some(given), answer))
}

fn read_small(circuit: &[u8]) -> Result<Circuit, Refusal> {
    let circuit = read_circuit(circuit)?;
    match is_small(&circuit) {
        true => Ok(circuit),
        false => refuse(30, 0),
    }
}

/// Writes the first satisfying run, or the first after a given one.
fn write_first(circuit: &Circuit, after: Option<&[u32]>, answer: &mut [u32]) -> bool {
    Descent::new(circuit).any(after, |run| {
        answer.copy_from_slice(run);
        true
    })
}

/// A descent signal by signal through the candidates of a small circuit.
pub struct Descent<'a> {
    p: u32,
    /// For each signal the constraints of which it is the highest; at 0 those without signals.
    settled: Vec<Vec<&'a Constraint>>,
    /// The values so far; at 0 the constant 1.
    run: Vec<u32>,
}

impl<'a> Descent<'a> {
    pub fn new(circuit: &'a Circuit) -> Descent<'a> {
        let numbers = usize::from(circuit.signals) + 1;
        let mut settled = vec![Vec::new(); numbers];
        for constraint in &circuit.constraints {
            let forms = [&constraint.a, &constraint.b, &constraint.c];
            let highest = forms.iter().filter_map(|form| form.terms.last()).map(|&(signal, _)| signal).max().unwrap_or(0);
            settled[usize::from(highest)].push(constraint);
        }
        Descent { p: circuit.field.prime() as u32, settled, run: vec![1; numbers] }
    }

    /// Hands over the satisfying runs, or those after a given one, in their order until one is taken. Whether one is.
    pub fn any(&mut self, after: Option<&[u32]>, mut takes: impl FnMut(&[u32]) -> bool) -> bool {
        self.is_satisfied(0) && self.descend(1, after, &mut takes)
    }

    /// The same, from the values of the signals below this one; where there is an `after`, it has these values too.
    fn descend(&mut self, signal: usize, after: Option<&[u32]>, takes: &mut impl FnMut(&[u32]) -> bool) -> bool {
        if signal == self.run.len() {
            return after.is_none() && takes(&self.run[1..]);
        }
        let from = after.map_or(0, |given| given[signal - 1]);
        for value in from..self.p {
            self.run[signal] = value;
            if self.is_satisfied(signal) && self.descend(signal + 1, after.filter(|_| value == from), takes) {
                return true;
            }
        }
        false
    }

    /// Whether the constraints hold that this signal's value settles.
    fn is_satisfied(&self, signal: usize) -> bool {
        let p = u64::from(self.p);
        self.settled[signal].iter().all(|constraint| {
            let [a, b, c] = [&constraint.a, &constraint.b, &constraint.c].map(|form| self.value(form));
            a * (b % p) % p == c % p
        })
    }

    /// The value of a form before a remainder is taken: below 2^37, as p is below 2^16 and there are at most 32 terms.
    fn value(&self, form: &Form) -> u64 {
        form.terms.iter().map(|&(signal, coefficient)| coefficient * u64::from(self.run[usize::from(signal)])).sum()
    }
}
