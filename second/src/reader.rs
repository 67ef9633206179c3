//! The circuit file: its numbers, its constraints and refusals 1 to 10.

use crate::field::Field;

/// Why a call is refused: the number in document 01, and the place.
#[derive(Clone, Copy, Debug, PartialEq, Eq)]
pub struct Refusal {
    pub number: u16,
    pub place: u32,
}

/// The refusal with this number and place.
pub fn refuse<T>(number: u16, place: usize) -> Result<T, Refusal> {
    Err(Refusal { number, place: place as u32 })
}

/// Signal numbers, strictly rising, with coefficients from 1 to p - 1. Number 0 is the constant one.
#[derive(Clone, Debug, Default, PartialEq, Eq)]
pub struct Form {
    pub terms: Vec<(u16, u64)>,
}

impl Form {
    /// The coefficient of signal number 0, or 0.
    pub fn constant(&self) -> u64 {
        self.terms.first().map_or(0, |&(signal, coefficient)| if signal == 0 { coefficient } else { 0 })
    }

    /// The terms without the constant.
    pub fn signals(&self) -> &[(u16, u64)] {
        match self.terms.first() {
            Some((0, _)) => &self.terms[1..],
            _ => &self.terms,
        }
    }

    /// The signal of a form that has one term and no constant.
    pub fn single(&self) -> Option<u16> {
        match self.terms[..] {
            [(signal, _)] if signal > 0 => Some(signal),
            _ => None,
        }
    }

    /// Whether signal number 1 to n stands in the form.
    pub fn names(&self, signal: u16) -> bool {
        self.signals().iter().any(|&(named, _)| named == signal)
    }

    /// The value of the form in a run.
    pub fn value(&self, field: Field, run: &[u32]) -> u64 {
        let signals = self.signals().iter();
        signals.fold(self.constant(), |sum, &(signal, coefficient)| field.add(sum, field.mul(coefficient, u64::from(run[usize::from(signal) - 1]))))
    }
}

/// A times B equals C.
#[derive(Clone, Debug, PartialEq, Eq)]
pub struct Constraint {
    pub a: Form,
    pub b: Form,
    pub c: Form,
}

impl Constraint {
    pub fn satisfied(&self, field: Field, run: &[u32]) -> bool {
        field.mul(self.a.value(field, run), self.b.value(field, run)) == self.c.value(field, run)
    }

    pub fn is_linear(&self) -> bool {
        self.a.signals().is_empty() || self.b.signals().is_empty()
    }
}

/// A circuit that isn't refused.
#[derive(Clone, Debug, PartialEq, Eq)]
pub struct Circuit {
    pub field: Field,
    pub signals: u16,
    pub inputs: u16,
    pub outputs: u16,
    pub constraints: Vec<Constraint>,
}

impl Circuit {
    pub fn is_output(&self, signal: u16) -> bool {
        self.inputs < signal && signal <= self.inputs + self.outputs
    }

    /// All signals, the constant excluded.
    pub fn all_signals(&self) -> std::ops::RangeInclusive<u16> {
        1..=self.signals
    }
}

pub fn number16(bytes: &[u8], at: usize) -> u16 {
    u16::from_le_bytes([bytes[at], bytes[at + 1]])
}

pub fn number32(bytes: &[u8], at: usize) -> u32 {
    u32::from_le_bytes([bytes[at], bytes[at + 1], bytes[at + 2], bytes[at + 3]])
}

/// Numbers of 4 bytes each, as many as there are whole.
pub fn numbers32(bytes: &[u8]) -> Vec<u32> {
    bytes.chunks_exact(4).map(|number| number32(number, 0)).collect()
}

/// Reads a whole circuit file.
pub fn read_circuit(bytes: &[u8]) -> Result<Circuit, Refusal> {
    let (mut circuit, m) = read_header(bytes)?;
    let mut rest = Rest { bytes, at: 17, n: circuit.signals, p: circuit.field.prime() };
    for _ in 0..m {
        let (a, b, c) = (rest.form()?, rest.form()?, rest.form()?);
        circuit.constraints.push(Constraint { a, b, c });
    }
    if rest.at < bytes.len() {
        return refuse(10, rest.at);
    }
    Ok(circuit)
}

/// The first 17 bytes: a circuit without constraints, and how many it must get.
fn read_header(bytes: &[u8]) -> Result<(Circuit, u16), Refusal> {
    if !(17..=60_000).contains(&bytes.len()) {
        return refuse(1, 0);
    }
    if &bytes[..3] != b"CQT" {
        return refuse(2, 0);
    }
    if number16(bytes, 3) != 1 {
        return refuse(3, 0);
    }
    let Some(field) = Field::new(number32(bytes, 5)) else {
        return refuse(4, 0);
    };
    let [n, i, o, m] = [9, 11, 13, 15].map(|at| number16(bytes, at));
    if !(1..=256).contains(&n) || o == 0 || u32::from(i) + u32::from(o) > u32::from(n) || m > 512 {
        return refuse(5, 0);
    }
    Ok((Circuit { field, signals: n, inputs: i, outputs: o, constraints: Vec::with_capacity(usize::from(m)) }, m))
}

/// The part of the file that isn't read yet.
struct Rest<'a> {
    bytes: &'a [u8],
    at: usize,
    n: u16,
    p: u64,
}

impl Rest<'_> {
    fn form(&mut self) -> Result<Form, Refusal> {
        let Some(&count) = self.bytes.get(self.at) else {
            return refuse(6, self.at);
        };
        if count > 32 {
            return refuse(7, self.at);
        }
        self.at += 1;
        let mut terms = Vec::with_capacity(usize::from(count));
        for _ in 0..count {
            let last = terms.last().map(|&(signal, _)| signal);
            terms.push(self.term(last)?);
        }
        Ok(Form { terms })
    }

    /// One term; `last` is the signal number before it in the form.
    fn term(&mut self, last: Option<u16>) -> Result<(u16, u64), Refusal> {
        if self.bytes.len() - self.at < 6 {
            return refuse(6, self.at);
        }
        let signal = number16(self.bytes, self.at);
        let coefficient = u64::from(number32(self.bytes, self.at + 2));
        if signal > self.n || last.is_some_and(|last| signal <= last) {
            return refuse(8, self.at);
        }
        if coefficient == 0 || coefficient >= self.p {
            return refuse(9, self.at);
        }
        self.at += 6;
        Ok((signal, coefficient))
    }
}
