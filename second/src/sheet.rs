//! The tag sheet: its file, refusals 26 and 27, and what its tags say. Every tag is an upper limit, so a limit is all that is ever asked of one.

use crate::reader::{number16, number32, refuse, Circuit, Refusal};
use crate::rules::Standing;

pub const BINARY: u8 = 1;
pub const MAXBIT: u8 = 2;
pub const MAXVALUE: u8 = 3;

/// The largest count of a sheet.
pub const MOST_TAGS: usize = 256;

/// The sheet that says nothing.
pub const NO_TAGS: &[u8] = b"TQT\x01\0\0\0";

/// One entry of a sheet, its fields as they stand in the file.
#[derive(Clone, Copy, Debug, PartialEq, Eq, PartialOrd, Ord)]
pub struct Tag {
    pub signal: u16,
    pub kind: u8,
    pub number: u32,
}

impl Tag {
    pub fn new(signal: u16, kind: u8, number: u32) -> Tag {
        Tag { signal, kind, number }
    }

    /// The largest value that the tag allows.
    pub fn limit(self) -> u64 {
        match self.kind {
            BINARY => 1,
            MAXBIT => (1 << self.number) - 1,
            _ => u64::from(self.number),
        }
    }

    /// Whether the signal, the kind and the number are as a sheet for the circuit must have them.
    fn is_good(self, circuit: &Circuit) -> bool {
        let number = match self.kind {
            BINARY => self.number == 0,
            MAXBIT => self.number <= 30,
            MAXVALUE => u64::from(self.number) < circuit.field.prime(),
            _ => false,
        };
        number && circuit.all_signals().contains(&self.signal)
    }
}

/// The tags of a sheet for a circuit.
pub fn read_sheet(circuit: &Circuit, bytes: &[u8]) -> Result<Vec<Tag>, Refusal> {
    if bytes.len() < 7 || &bytes[..3] != b"TQT" || number16(bytes, 3) != 1 {
        return refuse(26, 0);
    }
    let count = usize::from(number16(bytes, 5));
    if count > MOST_TAGS || bytes.len() != 7 + 7 * count {
        return refuse(26, 0);
    }
    let tag = |entry: &[u8]| Tag::new(number16(entry, 0), entry[2], number32(entry, 3));
    let tags: Vec<Tag> = bytes[7..].chunks_exact(7).map(tag).collect();
    match tags.iter().position(|tag| !tag.is_good(circuit)) {
        Some(index) => refuse(27, index + 1),
        None => Ok(tags),
    }
}

/// The version 1 sheet with these tags.
pub fn write_sheet(tags: &[Tag]) -> Vec<u8> {
    let mut bytes = b"TQT".to_vec();
    bytes.extend(1u16.to_le_bytes());
    bytes.extend((tags.len() as u16).to_le_bytes());
    for tag in tags {
        bytes.extend(tag.signal.to_le_bytes());
        bytes.push(tag.kind);
        bytes.extend(tag.number.to_le_bytes());
    }
    bytes
}

/// The lowest input whose value in a run breaks a tag on it.
pub fn broken(circuit: &Circuit, tags: &[Tag], run: &[u32]) -> Option<u16> {
    let breaks = |tag: &&Tag| tag.signal <= circuit.inputs && u64::from(run[usize::from(tag.signal) - 1]) > tag.limit();
    tags.iter().filter(breaks).map(|tag| tag.signal).min()
}

/// Of the tags on signals other than inputs: how many the standing's bounds show, and the entry number of the first that they don't, or 0.
pub fn shown(circuit: &Circuit, tags: &[Tag], standing: &Standing) -> (usize, usize) {
    let told = |&(_, tag): &(usize, &Tag)| tag.signal > circuit.inputs;
    let (shown, open): (Vec<_>, Vec<_>) = (1..).zip(tags).filter(told).partition(|(_, tag)| standing.bound(tag.signal) <= tag.limit());
    (shown.len(), open.first().map_or(0, |&(number, _)| number))
}
