//! second-solve [SHEET]: reads a circuit from standard input and prints the solver's steps as document 01 shows them, or the refusal; with a tag sheet also
//! what is shown of it.

use std::io::Read;

use second::marker::read_steps;
use second::sheet::NO_TAGS;
use second::solver::longest;
use second::{read_circuit, solve, Refusal};

fn main() -> std::io::Result<()> {
    let mut bytes = Vec::new();
    std::io::stdin().read_to_end(&mut bytes)?;
    let sheet = std::env::args().nth(1).map(std::fs::read).transpose()?;
    match solution(&bytes, sheet.as_deref()) {
        Ok(text) => print!("{text}"),
        Err(Refusal { number, place }) => println!("refused {number} {place}"),
    }
    Ok(())
}

fn solution(bytes: &[u8], sheet: Option<&[u8]>) -> Result<String, Refusal> {
    let circuit = read_circuit(bytes)?;
    let mut out = vec![0; longest(circuit.signals.into())];
    let (judgement, length) = solve(bytes, sheet.unwrap_or(NO_TAGS), &mut out)?;
    let m = circuit.constraints.len();
    let mut text = format!("circuit {} {} {} {} {m}\n", circuit.field.prime(), circuit.signals, circuit.inputs, circuit.outputs);
    for (number, step) in (1..).zip(read_steps(&out[..length])?) {
        let kind = ["root", "sum", "zero", "product", "digits", "nonzero", "quotient"][usize::from(step.kind) - 1];
        text += &format!("step {number} {kind} {} {} {}\n", step.target, step.constraint, step.reference);
    }
    text += &format!("{} {}\n", if judgement.fixed { "fixed" } else { "open" }, judgement.count);
    if sheet.is_some() {
        text += &format!("shown {} {}\n", judgement.shown, judgement.unshown);
    }
    Ok(text)
}
