//! make-vectors SEED OUT-FOLDER [SIZE]: writes files of test vectors, vectors-1.bin and so on, of about SIZE bytes together, and prints what is in them.

use std::path::Path;
use std::process::exit;

use second::compose::{compose, USUAL_SIZE};
use second::vectors::{self, Record};

fn main() {
    let arguments: Vec<String> = std::env::args().skip(1).collect();
    let (seed, size) = (arguments.first().and_then(|seed| seed.parse().ok()), arguments.get(2).map_or(Some(USUAL_SIZE), |size| size.parse().ok()));
    let (Some(seed), Some(folder), Some(size)) = (seed, arguments.get(1), size) else {
        eprintln!("use: make-vectors SEED OUT-FOLDER [SIZE]");
        exit(2);
    };
    let records = compose(seed, size);
    for (number, volume) in (1..).zip(vectors::volumes(&records)) {
        write(&Path::new(folder).join(format!("vectors-{number}.bin")), volume);
    }
    print!("{}", vectors::summary(&records));
}

fn write(path: &Path, records: &[Record]) {
    let file = vectors::write(records);
    if let Err(error) = std::fs::write(path, &file) {
        eprintln!("{}: {error}", path.display());
        exit(1);
    }
    println!("{}: {} bytes, {} records", path.display(), file.len(), records.len());
}
