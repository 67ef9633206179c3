//! check-vectors FILE: compares this crate's answers with those in a file of test vectors.

use std::process::exit;

use second::vectors::{answer, records, summary, Record};

fn main() {
    let Some(file) = std::env::args().nth(1) else {
        eprintln!("use: check-vectors FILE");
        exit(2);
    };
    match std::fs::read(&file).map_err(|error| error.to_string()).and_then(|bytes| check(&bytes)) {
        Ok(records) => print!("all agree: {}", summary(&records)),
        Err(error) => {
            eprintln!("{file}: {error}");
            exit(1);
        }
    }
}

fn check(file: &[u8]) -> Result<Vec<Record>, String> {
    let all = records(file)?.collect::<Result<Vec<Record>, String>>()?;
    match all.iter().position(|record| !record.agrees()) {
        None => Ok(all),
        Some(index) => {
            let Record { kind, circuit, sheet, hand_in, lent, answer: expected } = &all[index];
            let found = answer(*kind, circuit, sheet, hand_in, *lent as usize);
            Err(format!("record {} (kind {kind}): the file says {expected:?}, this crate {found:?}", index + 1))
        }
    }
}
