//! All satisfying runs of small circuits, and pairs of them.

use crate::reader::Circuit;
use crate::runs::Descent;

/// Every satisfying run, in their order.
pub fn satisfying_runs(circuit: &Circuit) -> Vec<Vec<u32>> {
    let mut found = Vec::new();
    Descent::new(circuit).any(None, |run| {
        found.push(run.to_vec());
        false
    });
    found
}

/// Pairs of satisfying runs that share their inputs, with an output at which they differ; at most so many.
pub fn pairs(circuit: &Circuit, runs: &[Vec<u32>], most: usize) -> Vec<(u16, usize, usize)> {
    let mut found = Vec::new();
    let inputs = usize::from(circuit.inputs);
    for second in 0..runs.len() {
        // Runs that share their inputs follow one another.
        for first in (0..second).rev().take_while(|&first| runs[first][..inputs] == runs[second][..inputs]) {
            let outputs = inputs..inputs + usize::from(circuit.outputs);
            for output in outputs.filter(|&output| runs[first][output] != runs[second][output]) {
                found.push((output as u16 + 1, first, second));
            }
            if found.len() >= most {
                return found;
            }
        }
    }
    found
}
