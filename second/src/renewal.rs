//! The renewal call: what a derivation was under the former rule, which let idle steps pass, less its idle steps.

use crate::marker::{read_steps, take_step, write_steps};
use crate::reader::{read_circuit, refuse, Refusal};
use crate::rules::{Rules, Standing};
use crate::sheet::read_sheet;

/// Follows a derivation, idle steps and all, and writes it without them. Answers how many bytes that takes.
pub fn renew(circuit: &[u8], sheet: &[u8], derivation: &[u8], output: &mut [u8]) -> Result<usize, Refusal> {
    let circuit = read_circuit(circuit)?;
    let tags = read_sheet(&circuit, sheet)?;
    let steps = read_steps(derivation)?;
    let rules = Rules::new(&circuit);
    let mut standing = Standing::start(&circuit, &tags);
    let mut kept = Vec::with_capacity(steps.len());
    for (number, step) in (1..).zip(steps) {
        if take_step(&rules, &mut standing, step, number)? {
            kept.push(step);
        }
    }
    if output.len() < derivation.len() {
        return refuse(25, 0);
    }
    let renewed = write_steps(&kept);
    output[..renewed.len()].copy_from_slice(&renewed);
    Ok(renewed.len())
}
