//! The derivation file and the derivation call: refusals 11 to 17 and 29.

use crate::reader::{number16, read_circuit, refuse, Circuit, Refusal};
use crate::rules::{Rules, Standing, Step, STEPS};
use crate::sheet::{read_sheet, shown, Tag};

/// The largest step count of a derivation.
pub const MOST_STEPS: usize = 4096;

/// What is answered of the standing that a derivation reaches.
#[derive(Clone, Copy, Debug, PartialEq, Eq)]
pub struct Judgement {
    /// How many signals are marked.
    pub count: usize,
    /// Whether every output is.
    pub fixed: bool,
    /// How many of the sheet's tags on signals other than inputs are shown.
    pub shown: usize,
    /// The sheet's entry number of the first that isn't, or 0.
    pub unshown: usize,
}

impl Judgement {
    pub fn of(circuit: &Circuit, tags: &[Tag], standing: &Standing) -> Judgement {
        let (shown, unshown) = shown(circuit, tags, standing);
        Judgement { count: standing.count(), fixed: standing.is_fixed(circuit), shown, unshown }
    }
}

/// Follows a derivation. If it is accepted, writes n marks and judges what they and the bounds come to.
pub fn check_derivation(circuit: &[u8], sheet: &[u8], derivation: &[u8], marks: &mut [u8]) -> Result<Judgement, Refusal> {
    let circuit = read_circuit(circuit)?;
    let tags = read_sheet(&circuit, sheet)?;
    let steps = read_steps(derivation)?;
    if marks.len() < usize::from(circuit.signals) {
        return refuse(14, 0);
    }
    let rules = Rules::new(&circuit);
    let mut standing = Standing::start(&circuit, &tags);
    for (number, step) in (1..).zip(steps) {
        if !take_step(&rules, &mut standing, step, number)? {
            return refuse(29, number);
        }
    }
    for (signal, mark) in circuit.all_signals().zip(marks) {
        *mark = u8::from(standing.is_marked(signal));
    }
    Ok(Judgement::of(&circuit, &tags, &standing))
}

/// Checks kind, fields and rule of one step and takes it. False if it is idle.
pub(crate) fn take_step(rules: &Rules, standing: &mut Standing, step: Step, number: usize) -> Result<bool, Refusal> {
    if !STEPS.contains(&step.kind) {
        return refuse(15, number);
    }
    if !rules.in_range(step) {
        return refuse(16, number);
    }
    rules.progress(standing, step).map_or_else(|| refuse(17, number), Ok)
}

/// The steps of a derivation file, their fields not yet looked at.
pub fn read_steps(bytes: &[u8]) -> Result<Vec<Step>, Refusal> {
    if bytes.len() < 7 || &bytes[..3] != b"DQT" {
        return refuse(11, 0);
    }
    if number16(bytes, 3) != 1 {
        return refuse(12, 0);
    }
    let count = usize::from(number16(bytes, 5));
    if count > MOST_STEPS || bytes.len() != 7 + 7 * count {
        return refuse(13, 0);
    }
    let step = |bytes: &[u8]| Step::new(bytes[0], number16(bytes, 1), number16(bytes, 3), number16(bytes, 5));
    Ok(bytes[7..].chunks_exact(7).map(step).collect())
}

/// The version 1 derivation file with these steps.
pub fn write_steps(steps: &[Step]) -> Vec<u8> {
    let mut bytes = b"DQT".to_vec();
    bytes.extend(1u16.to_le_bytes());
    bytes.extend((steps.len() as u16).to_le_bytes());
    for step in steps {
        bytes.push(step.kind);
        [step.target, step.constraint, step.reference].iter().for_each(|field| bytes.extend(field.to_le_bytes()));
    }
    bytes
}
