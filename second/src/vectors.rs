//! The file of test vectors: calls with the answers that they must get. Little-endian; `VQT`, 16-bit version 5, 32-bit count, then the records.
//! A record: kind, circuit, sheet, hand-in, length of the lent buffer, then 16-bit number, place, five values and what is written. The kind is a byte, all else
//! 32-bit numbers and strings of bytes that begin with their length. A run of values, handed in or written, is stored at 4 bytes a value; the length of a
//! buffer for one counts values. A watching call has the 4 bytes of its window in the sheet's place, and its file of recorded runs as the hand-in.

use crate::reader::{number16, number32, numbers32, Refusal};
use crate::records::{pair_length, Watched};
use crate::{check_derivation, check_pair, first_run, next_run, read_circuit, renew, solve, watch, Judgement};

pub const READ: u8 = 1;
pub const DERIVATION: u8 = 2;
pub const PAIR: u8 = 3;
pub const SOLVE: u8 = 4;
pub const RENEW: u8 = 5;
pub const FIRST_RUN: u8 = 6;
pub const NEXT_RUN: u8 = 7;
pub const WATCH: u8 = 8;

/// All kinds of calls.
pub const KINDS: [u8; 8] = [READ, DERIVATION, PAIR, SOLVE, RENEW, FIRST_RUN, NEXT_RUN, WATCH];

/// The kinds of calls that list runs.
pub const LISTING: [u8; 2] = [FIRST_RUN, NEXT_RUN];

/// The kinds of calls that take a tag sheet.
pub const WITH_SHEET: [u8; 4] = [DERIVATION, PAIR, SOLVE, RENEW];

/// The version of the file.
const VERSION: u16 = 5;

/// Stands for the length of a circuit or a hand-in that is the one of the record before.
const SAME: u32 = u32::MAX;

/// What a call must answer: a refusal (number and place) or values, and what it must have written.
#[derive(Clone, Debug, Default, PartialEq, Eq)]
pub struct Answer {
    pub number: u16,
    pub place: u32,
    pub values: [u32; 5],
    pub written: Vec<u8>,
}

/// One call: its kind, its arguments and its answer. The sheet of a watching call is its window; where nothing comes along, it has no bytes.
#[derive(Clone, Debug, PartialEq, Eq)]
pub struct Record {
    pub kind: u8,
    pub circuit: Vec<u8>,
    pub sheet: Vec<u8>,
    pub hand_in: Vec<u8>,
    pub lent: u32,
    pub answer: Answer,
}

impl Record {
    /// The call with the answer that this crate gives.
    pub fn answered(kind: u8, circuit: &[u8], sheet: &[u8], hand_in: &[u8], lent: usize) -> Record {
        let answer = answer(kind, circuit, sheet, hand_in, lent);
        Record { kind, circuit: circuit.to_vec(), sheet: sheet.to_vec(), hand_in: hand_in.to_vec(), lent: lent as u32, answer }
    }

    /// Whether this crate gives the same answer.
    pub fn agrees(&self) -> bool {
        self.answer == answer(self.kind, &self.circuit, &self.sheet, &self.hand_in, self.lent as usize)
    }

    /// How many bytes the record takes in the file after another, or as the first.
    pub fn size(&self, last: Option<&Record>) -> usize {
        let circuit = if last.is_some_and(|last| last.circuit == self.circuit) { 0 } else { self.circuit.len() };
        let hand_in = if last.is_some_and(|last| last.hand_in == self.hand_in) { 0 } else { self.hand_in.len() };
        47 + circuit + self.sheet.len() + hand_in + self.answer.written.len()
    }
}

/// Makes the call on a buffer of the lent length and checks that no byte beyond the written ones has changed.
pub fn answer(kind: u8, circuit: &[u8], sheet: &[u8], hand_in: &[u8], lent: usize) -> Answer {
    let filling: Vec<u8> = (0..lent * width(kind)).map(|index| (index * 37 + 90) as u8 | 2).collect();
    let mut buffer = filling.clone();
    let result = call(kind, circuit, sheet, hand_in, &mut buffer);
    let written = result.map_or(0, |(_, written)| written);
    assert_eq!(buffer[written..], filling[written..], "bytes beyond the written ones have changed");
    buffer.truncate(written);
    match result {
        Ok((values, _)) => Answer { number: 0, place: 0, values, written: buffer },
        Err(Refusal { number, place }) => Answer { number, place, ..Answer::default() },
    }
}

/// How many bytes stand for one place of the kind's buffer.
pub fn width(kind: u8) -> usize {
    match LISTING.contains(&kind) {
        true => 4,
        false => 1,
    }
}

/// The values that the call answers, and how many bytes it writes.
fn call(kind: u8, circuit: &[u8], sheet: &[u8], hand_in: &[u8], buffer: &mut [u8]) -> Result<([u32; 5], usize), Refusal> {
    let read = read_circuit(circuit)?;
    let [n, i, o] = [read.signals, read.inputs, read.outputs].map(u32::from);
    Ok(match kind {
        READ => ([read.field.prime() as u32, n, i, o, read.constraints.len() as u32], 0),
        DERIVATION => (judged(check_derivation(circuit, sheet, hand_in, buffer)?, 0), n as usize),
        PAIR => ([u32::from(check_pair(circuit, sheet, hand_in)?), 0, 0, 0, 0], 0),
        RENEW => {
            let length = renew(circuit, sheet, hand_in, buffer)?;
            ([length as u32, 0, 0, 0, 0], length)
        }
        FIRST_RUN | NEXT_RUN => {
            let written = run(kind, circuit, hand_in, buffer)?;
            ([u32::from(written), 0, 0, 0, 0], if written { 4 * n as usize } else { 0 })
        }
        WATCH => match watch(circuit, hand_in, number32(sheet, 0), buffer)? {
            Some(Watched { q, earlier, later }) => ([q.into(), earlier as u32, later as u32, 0, 0], pair_length(n as usize)),
            None => ([0; 5], 0),
        },
        _ => {
            let (judgement, length) = solve(circuit, sheet, buffer)?;
            (judged(judgement, length), length)
        }
    })
}

/// The call of a first or next run on a buffer that is given as bytes.
fn run(kind: u8, circuit: &[u8], hand_in: &[u8], buffer: &mut [u8]) -> Result<bool, Refusal> {
    let mut answer = numbers32(buffer);
    let result = match kind {
        FIRST_RUN => first_run(circuit, &mut answer),
        _ => next_run(circuit, &numbers32(hand_in), &mut answer),
    };
    buffer.copy_from_slice(&bytes_of(&answer));
    result
}

/// A run as bytes.
pub fn bytes_of(run: &[u32]) -> Vec<u8> {
    run.iter().flat_map(|value| value.to_le_bytes()).collect()
}

/// The values of a judgement, and a derivation's length.
fn judged(judgement: Judgement, length: usize) -> [u32; 5] {
    let Judgement { count, fixed, shown, unshown } = judgement;
    [count, usize::from(fixed), shown, unshown, length].map(|value| value as u32)
}

/// The most bytes of one file: what a reader makes room for.
pub const MOST_BYTES: usize = 524_288;

/// The records in as few files as hold them one after the other.
pub fn volumes(records: &[Record]) -> Vec<&[Record]> {
    let mut volumes = Vec::new();
    let (mut start, mut size) = (0, 9);
    for (index, record) in records.iter().enumerate() {
        size += record.size(records[start..index].last());
        if size > MOST_BYTES {
            volumes.push(&records[start..index]);
            (start, size) = (index, 9 + record.size(None));
        }
    }
    volumes.push(&records[start..]);
    volumes
}

/// The file with these records.
pub fn write(records: &[Record]) -> Vec<u8> {
    let mut file = b"VQT".to_vec();
    file.extend(VERSION.to_le_bytes());
    file.extend((records.len() as u32).to_le_bytes());
    let mut last: Option<&Record> = None;
    for record in records {
        file.push(record.kind);
        put_or_same(&mut file, &record.circuit, last.map(|last| &last.circuit));
        put_bytes(&mut file, &record.sheet);
        put_or_same(&mut file, &record.hand_in, last.map(|last| &last.hand_in));
        last = Some(record);
        file.extend(record.lent.to_le_bytes());
        file.extend(record.answer.number.to_le_bytes());
        file.extend(record.answer.place.to_le_bytes());
        record.answer.values.iter().for_each(|value| file.extend(value.to_le_bytes()));
        put_bytes(&mut file, &record.answer.written);
    }
    file
}

fn put_bytes(file: &mut Vec<u8>, bytes: &[u8]) {
    file.extend((bytes.len() as u32).to_le_bytes());
    file.extend(bytes);
}

/// The bytes, or that they are the record's before.
fn put_or_same(file: &mut Vec<u8>, bytes: &[u8], last: Option<&Vec<u8>>) {
    match last.is_some_and(|last| last == bytes) {
        true => file.extend(SAME.to_le_bytes()),
        false => put_bytes(file, bytes),
    }
}

/// The records of a file, one after the other.
pub struct Records<'a> {
    file: &'a [u8],
    at: usize,
    left: u32,
    circuit: Option<&'a [u8]>,
    hand_in: Option<&'a [u8]>,
}

/// Starts reading a file of vectors.
pub fn records(file: &[u8]) -> Result<Records<'_>, String> {
    if file.len() < 9 || &file[..3] != b"VQT" || number16(file, 3) != VERSION {
        return Err(format!("not a version {VERSION} file of vectors"));
    }
    Ok(Records { file, at: 9, left: number32(file, 5), circuit: None, hand_in: None })
}

impl<'a> Records<'a> {
    fn take(&mut self, length: usize) -> Result<&'a [u8], String> {
        let part = self.file.get(self.at..self.at + length).ok_or(format!("the file ends within a record at {}", self.at))?;
        self.at += length;
        Ok(part)
    }

    fn number(&mut self) -> Result<u32, String> {
        Ok(number32(self.take(4)?, 0))
    }

    fn bytes(&mut self) -> Result<&'a [u8], String> {
        let length = self.number()? as usize;
        self.take(length)
    }

    /// Bytes, or those that the record before has there.
    fn bytes_or(&mut self, last: Option<&'a [u8]>) -> Result<&'a [u8], String> {
        match self.number()? {
            SAME => last.ok_or("there is no record before the first".to_string()),
            length => self.take(length as usize),
        }
    }

    fn record(&mut self) -> Result<Record, String> {
        let kind = self.take(1)?[0];
        let circuit = self.bytes_or(self.circuit)?;
        let sheet = self.bytes()?.to_vec();
        let hand_in = self.bytes_or(self.hand_in)?;
        (self.circuit, self.hand_in) = (Some(circuit), Some(hand_in));
        let lent = self.number()?;
        let number = number16(self.take(2)?, 0);
        let place = self.number()?;
        let mut values = [0; 5];
        for value in &mut values {
            *value = self.number()?;
        }
        let written = self.bytes()?.to_vec();
        Ok(Record { kind, circuit: circuit.to_vec(), sheet, hand_in: hand_in.to_vec(), lent, answer: Answer { number, place, values, written } })
    }
}

impl Iterator for Records<'_> {
    type Item = Result<Record, String>;

    fn next(&mut self) -> Option<Self::Item> {
        if self.left == 0 {
            let rest = self.file.len() - self.at;
            self.at = self.file.len();
            return (rest > 0).then(|| Err(format!("{rest} bytes follow the last record")));
        }
        self.left -= 1;
        Some(self.record().inspect_err(|_| (self.left, self.at) = (0, self.file.len())))
    }
}

/// How many records of each kind there are, and how often each refusal occurs, at how many places.
pub fn summary(records: &[Record]) -> String {
    let mut text = format!("{} records\n", records.len());
    for (kind, name) in KINDS.into_iter().zip(["read circuit", "derivation", "pair", "solve", "renew", "first run", "next run", "watch"]) {
        let all = records.iter().filter(|record| record.kind == kind);
        let accepted = all.clone().filter(|record| record.answer.number == 0).count();
        text += &format!("kind {kind} ({name}): {} records, {accepted} not refused\n", all.count());
    }
    for number in 1..=34 {
        let places: Vec<u32> = records.iter().filter(|record| record.answer.number == number).map(|record| record.answer.place).collect();
        let different: std::collections::BTreeSet<&u32> = places.iter().collect();
        text += &format!("refusal {number}: {} records, {} places\n", places.len(), different.len());
    }
    text
}
