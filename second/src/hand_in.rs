//! Derivations, pairs and tag sheets to hand in, good and bad.

use crate::brute;
use crate::marker::{write_steps, MOST_STEPS};
use crate::pair::write_pair;
use crate::random::Random;
use crate::reader::{number16, number32, Circuit};
use crate::rules::{Rules, Standing, Step, DIGITS, QUOTIENT, ROOT, ZERO};
use crate::sheet::{write_sheet, Tag, BINARY, MAXBIT, MAXVALUE, MOST_TAGS};
use crate::solver::derive;

/// A random step with its fields in range, if the circuit has any for the kind drawn.
pub fn random_step(rng: &mut Random, circuit: &Circuit) -> Option<Step> {
    let kind = rng.range(ROOT.into(), QUOTIENT.into()) as u8;
    let mut signal = || rng.range(1, usize::from(circuit.signals)) as u16;
    let (target, other) = (signal(), signal());
    if kind == ZERO {
        return Some(Step::new(kind, target, 0, 0));
    }
    if circuit.constraints.is_empty() {
        return None;
    }
    let constraint = rng.below(circuit.constraints.len());
    // Most steps look for their target in the constraint.
    let forms = [&circuit.constraints[constraint].a, &circuit.constraints[constraint].b, &circuit.constraints[constraint].c];
    let named: Vec<u16> = forms.iter().flat_map(|form| form.signals()).map(|&(signal, _)| signal).collect();
    let target = if named.is_empty() || rng.once_in(4) { target } else { rng.pick(&named) };
    let other = if named.is_empty() || rng.once_in(4) { other } else { rng.pick(&named) };
    Some(Step::new(kind, target, constraint as u16 + 1, if [DIGITS, QUOTIENT].contains(&kind) { other } else { 0 }))
}

/// Random steps, each of which meets its rule where it stands; so many are tried.
pub fn random_derivation(rng: &mut Random, rules: &Rules, tags: &[Tag], tries: usize) -> Vec<Step> {
    let mut standing = Standing::start(rules.circuit, tags);
    let mut steps = Vec::new();
    for _ in 0..tries {
        let step = random_step(rng, rules.circuit);
        steps.extend(step.filter(|&step| rules.take(&mut standing, step)));
    }
    steps
}

/// The steps with earlier ones repeated among them: a rule once met stays met.
pub fn padded(rng: &mut Random, steps: &[Step], length: usize) -> Vec<Step> {
    let mut padded: Vec<Step> = steps.to_vec();
    while !padded.is_empty() && padded.len() < length {
        let from = rng.below(padded.len());
        let to = rng.range(from + 1, padded.len());
        padded.insert(to, padded[from]);
    }
    padded
}

/// The steps with idle ones strewn among them: earlier ones again, and any that are met where they stand and change nothing.
pub fn with_idle_steps(rng: &mut Random, rules: &Rules, tags: &[Tag], steps: &[Step]) -> Vec<Step> {
    let mut standing = Standing::start(rules.circuit, tags);
    let mut result: Vec<Step> = Vec::new();
    for number in 0..=steps.len() {
        for _ in 0..rng.pick(&[0, 1, 4, 8]) {
            let step = if !result.is_empty() && rng.once_in(3) { Some(rng.pick(&result)) } else { random_step(rng, rules.circuit) };
            let is_idle = |step: &Step| rules.progress(&mut standing.clone(), *step) == Some(false);
            result.extend(step.filter(is_idle));
        }
        if let Some(&step) = steps.get(number) {
            rules.take(&mut standing, step);
            result.push(step);
        }
    }
    result
}

/// The steps with one field of one of them changed, or with two of any of them.
pub fn with_changed_fields(rng: &mut Random, circuit: &Circuit, steps: &[Step]) -> Vec<Step> {
    let mut changed = steps.to_vec();
    if changed.is_empty() {
        changed.push(Step::new(ROOT, 1, 1, 0));
    }
    for _ in 0..rng.range(1, 2) {
        change_field(rng, circuit, &mut changed);
    }
    changed
}

fn change_field(rng: &mut Random, circuit: &Circuit, changed: &mut [Step]) {
    let (n, m) = (circuit.signals, circuit.constraints.len() as u16);
    let at = rng.below(changed.len());
    let step = &mut changed[at];
    match rng.below(8) {
        0 => step.kind = rng.pick(&[0, 8, 9, 128, 255]),
        1 => step.kind = rng.range(ROOT.into(), QUOTIENT.into()) as u8,
        2 => step.target = rng.pick(&[0, n + 1, 65_535, step.target.wrapping_add(256)]),
        3 => step.target = rng.range(1, usize::from(n)) as u16,
        4 => step.constraint = rng.pick(&[0, 1, m + 1, 65_535, step.constraint.wrapping_add(256)]),
        5 => step.constraint = rng.range(1, usize::from(m.max(1))) as u16,
        6 => step.reference = rng.pick(&[0, 1, n, n + 1, 65_535]),
        _ => step.reference = rng.range(1, usize::from(n)) as u16,
    }
}

/// A derivation file with a fault in its first bytes or its length, or with two.
pub fn damaged_derivation(rng: &mut Random, derivation: &[u8]) -> Vec<u8> {
    let bytes = fault_in_derivation(rng, derivation);
    match bytes.len() >= 7 && rng.once_in(2) {
        true => fault_in_derivation(rng, &bytes),
        false => bytes,
    }
}

fn fault_in_derivation(rng: &mut Random, derivation: &[u8]) -> Vec<u8> {
    let mut bytes = derivation.to_vec();
    let count = number16(&bytes, 5);
    let put_count = |bytes: &mut Vec<u8>, count: u16| bytes[5..7].copy_from_slice(&count.to_le_bytes());
    match rng.below(7) {
        0 => bytes[rng.below(3)] = rng.pick(b"dqtCP\0"),
        1 => bytes[rng.range(3, 4)] = rng.pick(&[2, 3, 255]),
        2 => put_count(&mut bytes, count.wrapping_add(1)),
        3 => put_count(&mut bytes, rng.pick(&[0, count.saturating_sub(1), MOST_STEPS as u16 + 1, 65_535, count.wrapping_add(256)])),
        4 => bytes.truncate(rng.below(derivation.len())),
        5 => bytes.extend((0..rng.range(1, 7)).map(|byte| byte as u8)),
        _ => bytes.truncate(rng.below(8)),
    }
    bytes
}

/// A pair file with a fault in its first bytes, its length, its output or a value, or with two.
pub fn damaged_pair(rng: &mut Random, circuit: &Circuit, pair: &[u8]) -> Vec<u8> {
    let bytes = fault_in_pair(rng, circuit, pair);
    match bytes.len() >= pair.len() && rng.once_in(2) {
        true => fault_in_pair(rng, circuit, &bytes),
        false => bytes,
    }
}

fn fault_in_pair(rng: &mut Random, circuit: &Circuit, pair: &[u8]) -> Vec<u8> {
    let mut bytes = pair.to_vec();
    let (n, i, o, p) = (circuit.signals, circuit.inputs, circuit.outputs, circuit.field.prime() as u32);
    let value = 7 + 4 * rng.below(2 * usize::from(n));
    let old = number32(&bytes, value);
    match rng.below(8) {
        0 => bytes[rng.below(3)] = rng.pick(b"pqtCD\0"),
        1 => bytes[rng.range(3, 4)] = rng.pick(&[2, 3, 255]),
        2 => bytes[5..7].copy_from_slice(&rng.pick(&[0, i, i + o + 1, n + 1, 65_535, i + 1 + 256]).to_le_bytes()),
        3 => bytes.truncate(rng.below(pair.len())),
        4 => bytes.extend((0..rng.range(1, 8)).map(|byte| byte as u8)),
        5 | 6 => bytes[value..value + 4].copy_from_slice(&rng.pick(&[p, p + 1, u32::MAX, old.wrapping_add(p), 0x8000_0000]).to_le_bytes()),
        _ => bytes[value..value + 4].copy_from_slice(&(old.wrapping_add(1) % p).to_le_bytes()),
    }
    bytes
}

/// The solver's derivation, mostly with a fault or several in its steps, its first bytes or its length.
pub fn faulty_derivation(rng: &mut Random, circuit: &Circuit, tags: &[Tag]) -> Vec<u8> {
    let mut steps = derive(circuit, tags).0;
    if rng.once_in(2) {
        steps = with_changed_fields(rng, circuit, &steps);
    }
    let bytes = write_steps(&steps);
    match rng.once_in(3) {
        true => damaged_derivation(rng, &bytes),
        false => bytes,
    }
}

/// A pair of random runs, often with a fault or two.
pub fn faulty_pair(rng: &mut Random, circuit: &Circuit) -> Vec<u8> {
    let p = circuit.field.prime() as usize;
    let mut run = || circuit.all_signals().map(|_| if rng.once_in(2) { 0 } else { rng.below(p) as u32 }).collect::<Vec<u32>>();
    let (first, second) = (run(), run());
    let q = rng.range(usize::from(circuit.inputs) + 1, usize::from(circuit.inputs + circuit.outputs)) as u16;
    let pair = write_pair(q, &first, &second);
    match rng.once_in(2) {
        true => damaged_pair(rng, circuit, &pair),
        false => pair,
    }
}

/// Pairs for a small circuit: accepted ones, and satisfying runs that agree at the output or differ in an input.
pub fn small_pairs(rng: &mut Random, circuit: &Circuit) -> Vec<Vec<u8>> {
    let runs = brute::satisfying_runs(circuit);
    let output = |rng: &mut Random| rng.range(usize::from(circuit.inputs) + 1, usize::from(circuit.inputs + circuit.outputs)) as u16;
    let mut result = Vec::new();
    let found = brute::pairs(circuit, &runs, 20);
    for _ in 0..found.len().min(2) {
        let (q, first, second) = rng.pick(&found);
        result.push(write_pair(q, &runs[first], &runs[second]));
    }
    if !runs.is_empty() {
        let (first, second) = (rng.below(runs.len()), rng.below(runs.len()));
        result.push(write_pair(output(rng), &runs[first], &runs[second]));
        let values: Vec<u32> = (0..circuit.signals).map(|_| rng.below(circuit.field.prime() as usize) as u32).collect();
        result.push(if rng.once_in(2) { write_pair(output(rng), &values, &runs[first]) } else { write_pair(output(rng), &runs[first], &values) });
    }
    result
}

/// Tags for a sheet, mostly few: on inputs and on others, with small limits, with limits about p and about the bounds that the solver reaches.
pub fn random_tags(rng: &mut Random, circuit: &Circuit) -> Vec<Tag> {
    let count = rng.pick(&[1, 1, 1, 2, 2, 3, 5]);
    let mut tags: Vec<Tag> = (0..count).map(|_| random_tag(rng, circuit)).collect();
    let standing = derive(circuit, &tags).1;
    for _ in 0..rng.pick(&[0, 0, 1, 1, 2]) {
        let signal = rng.range(usize::from(circuit.inputs) + 1, usize::from(circuit.signals)) as u16;
        let (bound, most) = (standing.bound(signal), circuit.field.prime() - 1);
        let limit = rng.pick(&[bound, bound, bound.saturating_sub(1), most.min(bound + 1)]);
        tags.push(Tag::new(signal, MAXVALUE, limit as u32));
    }
    rng.shuffle(&mut tags);
    tags
}

/// Tags on some inputs with limits about their values in a run, and on any signals.
pub fn tags_about(rng: &mut Random, circuit: &Circuit, run: &[u32]) -> Vec<Tag> {
    let mut tags: Vec<Tag> = (0..rng.below(2)).map(|_| random_tag(rng, circuit)).collect();
    for (signal, &value) in (1..=circuit.inputs).zip(run) {
        let most = circuit.field.prime() as u32 - 1;
        if !rng.once_in(3) {
            tags.push(Tag::new(signal, MAXVALUE, rng.pick(&[value, value, value, value.saturating_add(1), most, value.saturating_sub(1)]).min(most)));
        }
    }
    rng.shuffle(&mut tags);
    tags
}

/// A tag of any kind, on an input in most cases.
fn random_tag(rng: &mut Random, circuit: &Circuit) -> Tag {
    let p = circuit.field.prime();
    let bits = 64 - (p - 1).leading_zeros();
    let highest = if circuit.inputs > 0 && !rng.once_in(3) { circuit.inputs } else { circuit.signals };
    let signal = rng.range(1, usize::from(highest)) as u16;
    match rng.below(4) {
        0 => Tag::new(signal, BINARY, 0),
        1 => Tag::new(signal, MAXBIT, rng.pick(&[0, 1, 1, 2, 2, 3, 8, bits - 1, bits.min(30), 30])),
        _ => {
            let limit = rng.pick(&[0, 1, 1, 2, 3, 4, p / 3, p / 2, p - 2, p - 1]).min(p - 1);
            Tag::new(signal, MAXVALUE, limit as u32)
        }
    }
}

/// A sheet with these tags and a fault in its first bytes, its length or an entry, or with two.
pub fn damaged_sheet(rng: &mut Random, circuit: &Circuit, tags: &[Tag]) -> Vec<u8> {
    let mut tags = tags.to_vec();
    let faults = rng.range(1, 2);
    let in_entries = (0..faults).filter(|_| rng.once_in(2)).count();
    for _ in 0..in_entries {
        let at = rng.below(tags.len() + 1);
        let tag = faulty_tag(rng, circuit);
        tags.insert(at, tag);
    }
    let mut bytes = write_sheet(&tags);
    (in_entries..faults).for_each(|_| fault_in_sheet(rng, &mut bytes));
    bytes
}

/// A tag with a wrong signal, kind or number, or with two of them wrong.
fn faulty_tag(rng: &mut Random, circuit: &Circuit) -> Tag {
    let mut tag = random_tag(rng, circuit);
    let (n, p) = (circuit.signals, circuit.field.prime() as u32);
    for _ in 0..rng.pick(&[1, 1, 2]) {
        match rng.below(5) {
            0 => tag.signal = rng.pick(&[0, n + 1, n + 256, 65_535]),
            1 => tag.kind = rng.pick(&[0, 4, 128, 255]),
            2 => (tag.kind, tag.number) = (BINARY, rng.pick(&[1, 2, 256, u32::MAX])),
            3 => (tag.kind, tag.number) = (MAXBIT, rng.pick(&[31, 32, 63, 64, 256, u32::MAX])),
            _ => (tag.kind, tag.number) = (MAXVALUE, rng.pick(&[p, p + 1, 2 * p, 0x8000_0000, u32::MAX])),
        }
    }
    tag
}

fn fault_in_sheet(rng: &mut Random, bytes: &mut Vec<u8>) {
    let length = bytes.len();
    let count = if length < 7 { 0 } else { number16(bytes, 5) };
    match rng.below(7) {
        _ if length < 7 => bytes.clear(),
        0 => bytes[rng.below(3)] = rng.pick(b"tqtCDP\0"),
        1 => bytes[rng.range(3, 4)] = rng.pick(&[2, 3, 255]),
        2 => bytes[5..7].copy_from_slice(&(count + 1).to_le_bytes()),
        3 => bytes[5..7].copy_from_slice(&rng.pick(&[0, count.saturating_sub(1), MOST_TAGS as u16 + 1, count + 256, 65_535]).to_le_bytes()),
        4 => bytes.truncate(rng.below(length)),
        5 => bytes.extend((0..rng.range(1, 7)).map(|byte| byte as u8)),
        _ => bytes.truncate(rng.below(8)),
    }
}
