//! Rows of watched runs. No two records of a file make a pair, so each of them is looked at. Of a circuit with 256 signals and of a small one: inputs that
//! are all equal, all different, or come again some hundred records later; then the file of most work, and the largest circuit with all equal. And what a
//! record costs as the file grows.

use second::planted::Planted;
use second::recorded::colliding;
use second::records::pair_length;
use second::vectors::bytes_of;
use second::writer::Draft;

use crate::{row, shortest, signals, Row};

const P: u32 = 2_147_483_647;

/// The widest window.
const WINDOW: u32 = 256;

/// A circuit in which the signal i + j is signal j times signal j + 1, so that inputs settle all.
struct Products {
    n: u16,
    i: u16,
}

const WIDE: Products = Products { n: 256, i: 128 };

const SMALL: Products = Products { n: 4, i: 2 };

impl Products {
    /// Half of what isn't an input is an output.
    fn circuit(&self) -> Vec<u8> {
        let Products { n, i } = *self;
        let products = (1..=n - i).map(|j| [vec![(j, 1)], vec![(j + 1, 1)], vec![(i + j, 1)]]);
        Draft { constraints: products.collect(), ..Draft::new(P, n, i, (n - i) / 2) }.bytes()
    }

    /// The satisfying run with the inputs of this number.
    fn run(&self, number: u32) -> Vec<u32> {
        let mut run: Vec<u32> = (0..u32::from(self.i)).map(|input| number + 1 + 1000 * input).collect();
        for j in 0..usize::from(self.n - self.i) {
            run.push((u64::from(run[j]) * u64::from(run[j + 1]) % u64::from(P)) as u32);
        }
        run
    }

    /// A file of so many records.
    fn file(&self, records: u32, inputs: &Inputs) -> Vec<u8> {
        let mut file = Vec::with_capacity(records as usize * 4 * usize::from(self.n));
        (0..records).for_each(|record| file.extend(bytes_of(&self.run((inputs.number)(record)))));
        file
    }
}

/// Which inputs a record has, by its number.
struct Inputs {
    name: &'static str,
    number: fn(u32) -> u32,
}

/// The sets are as many records in turn: within the widest window and beyond it.
const INPUTS: [Inputs; 4] = [
    Inputs { name: "inputs all equal", number: |_| 0 },
    Inputs { name: "inputs all different", number: |record| record },
    Inputs { name: "200 inputs in turn", number: |record| record % 200 },
    Inputs { name: "300 inputs in turn", number: |record| record % 300 },
];

/// Watching a file without a pair.
fn watching(name: &str, circuit: &[u8], records: &[u8]) -> Row {
    let (mut one, mut two) = (room(circuit), room(circuit));
    assert!(yolqushek::watch(circuit, records, WINDOW, &mut one).expect("whole records").is_none());
    assert!(second::watch(circuit, records, WINDOW, &mut two).expect("whole records").is_none());
    let name = format!("watch {} records of {name}", records.len() / 4 / signals(circuit));
    row(name, || yolqushek::watch(circuit, records, WINDOW, &mut one), || second::watch(circuit, records, WINDOW, &mut two))
}

/// A circuit with as many inputs as can be, one output and no constraints.
fn most_inputs() -> Draft {
    Draft::new(P, 256, 255, 1)
}

/// Records of it that differ in the last input alone and whose inputs a table by their hash has in one place: each is compared with all others in the window,
/// up to that input.
fn one_bucket(records: usize) -> Vec<u8> {
    colliding(&[1; 254]).take(records).flat_map(|last| bytes_of(&[&[1; 254][..], &[last, 0]].concat())).collect()
}

/// A buffer for a pair file.
fn room(circuit: &[u8]) -> Vec<u8> {
    vec![0; pair_length(signals(circuit))]
}

pub fn rows(largest: &Planted) -> Vec<Row> {
    let mut rows = Vec::new();
    for (products, records) in [(WIDE, 100_000), (SMALL, 1_000_000)] {
        for inputs in &INPUTS {
            let name = format!("{} signals, {}", products.n, inputs.name);
            rows.push(watching(&name, &products.circuit(), &products.file(records, inputs)));
        }
    }
    rows.push(watching("256 signals, inputs that differ in the last and share a bucket", &most_inputs().bytes(), &one_bucket(2000)));
    rows.push(watching("the largest circuit, all equal", &largest.circuit, &bytes_of(&largest.first.repeat(2000))));
    rows
}

/// What a record of the small circuit costs in files of growing length, by both.
pub fn cost_a_record() {
    println!("\n| watch a small circuit | records | proved ns a record | second ns a record |\n|---|---:|---:|---:|");
    let circuit = SMALL.circuit();
    let mut output = room(&circuit);
    for inputs in &INPUTS {
        for records in [10_000, 100_000, 1_000_000] {
            let file = SMALL.file(records, inputs);
            let proved = shortest(|| yolqushek::watch(&circuit, &file, WINDOW, &mut output));
            let second = shortest(|| second::watch(&circuit, &file, WINDOW, &mut output));
            let each = |time: f64| time * 1000.0 / f64::from(records);
            println!("| {} | {records} | {:.1} | {:.1} |", inputs.name, each(proved), each(second));
        }
    }
}
