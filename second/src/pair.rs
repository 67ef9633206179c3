//! The pair file and the pair call: refusals 18 to 24 and 28.

use crate::reader::{number16, numbers32, read_circuit, refuse, Circuit, Refusal};
use crate::sheet::{broken, read_sheet};

/// Checks that two satisfying runs share their inputs, which obey the sheet, and differ at the output q; answers q.
pub fn check_pair(circuit: &[u8], sheet: &[u8], pair: &[u8]) -> Result<u16, Refusal> {
    let circuit = read_circuit(circuit)?;
    let tags = read_sheet(&circuit, sheet)?;
    let q = read_q(&circuit, pair)?;
    let values = values(pair);
    if let Some(high) = values.iter().position(|&value| u64::from(value) >= circuit.field.prime()) {
        return refuse(21, high + 1);
    }
    let (first, second) = values.split_at(usize::from(circuit.signals));
    for (run, before) in [(first, 0), (second, circuit.constraints.len())] {
        if let Some(index) = circuit.constraints.iter().position(|constraint| !constraint.satisfied(circuit.field, run)) {
            return refuse(22, before + index + 1);
        }
    }
    if let Some(index) = (0..usize::from(circuit.inputs)).find(|&index| first[index] != second[index]) {
        return refuse(23, index + 1);
    }
    if let Some(input) = broken(&circuit, &tags, first) {
        return refuse(28, usize::from(input));
    }
    let index = usize::from(q) - 1;
    if first[index] == second[index] {
        return refuse(24, usize::from(q));
    }
    Ok(q)
}

/// The output that a pair of the right mark, version and length names.
fn read_q(circuit: &Circuit, pair: &[u8]) -> Result<u16, Refusal> {
    if pair.len() < 7 || &pair[..3] != b"PQT" {
        return refuse(18, 0);
    }
    if number16(pair, 3) != 1 {
        return refuse(19, 0);
    }
    let q = number16(pair, 5);
    if pair.len() != 7 + 8 * usize::from(circuit.signals) || !circuit.is_output(q) {
        return refuse(20, 0);
    }
    Ok(q)
}

/// The values of a pair file.
pub fn values(pair: &[u8]) -> Vec<u32> {
    numbers32(&pair[7..])
}

/// The version 1 pair file with this output and these runs.
pub fn write_pair(q: u16, first: &[u32], second: &[u32]) -> Vec<u8> {
    let mut bytes = b"PQT".to_vec();
    bytes.extend(1u16.to_le_bytes());
    bytes.extend(q.to_le_bytes());
    first.iter().chain(second).for_each(|value| bytes.extend(value.to_le_bytes()));
    bytes
}
