//! The watching call: of a file of recorded runs the first record that makes a pair with one before it, within a window. Refusals 32 to 34.

use std::collections::HashMap;

use crate::pair::write_pair;
use crate::reader::{number32, read_circuit, refuse, Circuit, Refusal};

/// The widest window.
pub const WIDEST_WINDOW: u32 = 256;

/// How many inputs are kept before those are forgotten that no window reaches any more, so that a long file costs no more a record than a short one.
const MOST_KEPT: usize = 2 * WIDEST_WINDOW as usize;

/// The records of a pair, numbered from 1, and the lowest output at which they differ.
#[derive(Clone, Copy, Debug, PartialEq, Eq)]
pub struct Watched {
    pub q: u16,
    pub earlier: usize,
    pub later: usize,
}

/// What a window stands for.
pub fn meant(window: u32) -> u32 {
    match window {
        0 => 64,
        _ => window,
    }
}

/// The length of a pair file.
pub fn pair_length(signals: usize) -> usize {
    7 + 8 * signals
}

/// Finds the first record that makes a pair with one before it and the nearest such one, and writes the two as a pair file. None if no two make a pair.
pub fn watch(circuit: &[u8], records: &[u8], window: u32, output: &mut [u8]) -> Result<Option<Watched>, Refusal> {
    let circuit = read_circuit(circuit)?;
    let n = usize::from(circuit.signals);
    if !records.len().is_multiple_of(4 * n) {
        return refuse(32, 0);
    }
    let high = |value: &[u8]| u64::from(number32(value, 0)) >= circuit.field.prime();
    if let Some(at) = records.chunks_exact(4).position(high) {
        return refuse(33, at / n + 1);
    }
    let window = meant(window);
    if !(2..=WIDEST_WINDOW).contains(&window) || output.len() < pair_length(n) {
        return refuse(34, 0);
    }
    let found = first_pair(&circuit, records, window as usize);
    if let Some(Watched { q, earlier, later }) = found {
        let run = |number: usize| values(&records[4 * n * (number - 1)..][..4 * n]).collect::<Vec<u32>>();
        output[..pair_length(n)].copy_from_slice(&write_pair(q, &run(earlier), &run(later)));
    }
    Ok(found)
}

/// The values of a record.
fn values(record: &[u8]) -> impl Iterator<Item = u32> + '_ {
    record.chunks_exact(4).map(|value| number32(value, 0))
}

/// Looks at the records in turn. Of those before one that satisfy the circuit and share its inputs only the nearest counts: a farther one with another output
/// would have made a pair with the nearest.
fn first_pair(circuit: &Circuit, records: &[u8], window: usize) -> Option<Watched> {
    let size = 4 * usize::from(circuit.signals);
    let inputs = 4 * usize::from(circuit.inputs);
    // For the inputs of the records that satisfy the circuit, the latest such record.
    let mut latest: HashMap<&[u8], usize> = HashMap::new();
    let mut run = Vec::with_capacity(usize::from(circuit.signals));
    for (index, record) in records.chunks_exact(size).enumerate() {
        run.clear();
        run.extend(values(record));
        if !circuit.constraints.iter().all(|constraint| constraint.satisfied(circuit.field, &run)) {
            continue;
        }
        if latest.len() >= MOST_KEPT {
            latest.retain(|_, before| index - *before < window);
        }
        let before = latest.insert(&record[..inputs], index).filter(|before| index - before < window);
        let pair = before.and_then(|before| Some((before, differing(circuit, &records[size * before..][..size], record)?)));
        if let Some((before, q)) = pair {
            return Some(Watched { q, earlier: before + 1, later: index + 1 });
        }
    }
    None
}

/// The lowest output at which two records differ.
fn differing(circuit: &Circuit, first: &[u8], second: &[u8]) -> Option<u16> {
    let at = |signal: u16| 4 * (usize::from(signal) - 1);
    let mut outputs = circuit.inputs + 1..=circuit.inputs + circuit.outputs;
    outputs.find(|&output| number32(first, at(output)) != number32(second, at(output)))
}
