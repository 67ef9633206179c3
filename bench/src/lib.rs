//! The proved library's answers in the form of the second implementation's vectors.

use second::reader::{number32, numbers32};
use second::vectors::{self, bytes_of, Answer, Record};
use yolqushek::{Marked, Refusal, Watched};

/// What the proved library answers, in the vectors' form. Panics where a byte beyond the written ones has changed.
pub fn proved(record: &Record) -> Answer {
    let filling: Vec<u8> = (0..record.lent as usize * vectors::width(record.kind)).map(|index| (index * 101 + 7) as u8).collect();
    let mut buffer = filling.clone();
    let (circuit, sheet) = (&record.circuit, &record.sheet);
    let result = match record.kind {
        vectors::READ => yolqushek::read_circuit(circuit).map(|s| ([s.prime, s.signals, s.inputs, s.outputs, s.constraints], 0)),
        vectors::DERIVATION => yolqushek::check_derivation(circuit, sheet, &record.hand_in, &mut buffer).map(|marked| {
            let signals = yolqushek::read_circuit(circuit).expect("the circuit was read").signals;
            (judged(marked, 0), signals as usize)
        }),
        vectors::PAIR => yolqushek::check_pair(circuit, sheet, &record.hand_in).map(|q| ([q, 0, 0, 0, 0], 0)),
        vectors::RENEW => yolqushek::renew(circuit, sheet, &record.hand_in, &mut buffer).map(|length| ([length as u32, 0, 0, 0, 0], length)),
        vectors::FIRST_RUN | vectors::NEXT_RUN => {
            run(record, &mut buffer).map(|written| ([written.into(), 0, 0, 0, 0], if written { buffer.len() } else { 0 }))
        }
        vectors::WATCH => yolqushek::watch(circuit, &record.hand_in, number32(sheet, 0), &mut buffer).map(|found| watched(found, circuit)),
        _ => yolqushek::solve(circuit, sheet, &mut buffer).map(|(marked, length)| (judged(marked, length), length)),
    };
    let written = result.map_or(0, |(_, written)| written);
    assert_eq!(buffer[written..], filling[written..], "bytes beyond the written ones have changed");
    buffer.truncate(written);
    match result {
        Ok((values, _)) => Answer { number: 0, place: 0, values, written: buffer },
        Err(refusal) => Answer { number: refusal.number as u16, place: refusal.place, ..Answer::default() },
    }
}

/// The call of a first or next run on a buffer that is given as bytes.
fn run(record: &Record, buffer: &mut [u8]) -> Result<bool, Refusal> {
    let mut answer = numbers32(buffer);
    let result = match record.kind {
        vectors::FIRST_RUN => yolqushek::first_run(&record.circuit, &mut answer),
        _ => yolqushek::next_run(&record.circuit, &numbers32(&record.hand_in), &mut answer),
    };
    buffer.copy_from_slice(&bytes_of(&answer));
    result
}

/// A pair's output and records, and the length of its file.
fn watched(found: Option<Watched>, circuit: &[u8]) -> ([u32; 5], usize) {
    let Some(Watched { q, earlier, later }) = found else { return ([0; 5], 0) };
    let signals = yolqushek::read_circuit(circuit).expect("the circuit was read").signals;
    ([q, earlier as u32, later as u32, 0, 0], 7 + 8 * signals as usize)
}

/// What is marked and shown, and a derivation's length.
fn judged(marked: Marked, length: usize) -> [u32; 5] {
    let Marked { count, fixed, shown, unshown } = marked;
    [count, fixed.into(), shown, unshown, length as u32]
}
