//! Rows of listings: whole lists, the first run and each next one to the end; the first run where a call works longest; and a next run where the file is
//! longest.

use std::fmt::Debug;

use second::cases::case_g;
use second::worst_runs::{self, dense, everywhere};
use second::writer::Draft;

use crate::{row, signals, Row};

/// Lists all runs by the two calls; `each` is handed every one.
fn list<R: Debug>(
    circuit: &[u8],
    first: impl Fn(&[u8], &mut [u32]) -> Result<bool, R>,
    next: impl Fn(&[u8], &[u32], &mut [u32]) -> Result<bool, R>,
    mut each: impl FnMut(&[u32]),
) {
    let (mut run, mut given) = (vec![0; signals(circuit)], vec![0; signals(circuit)]);
    let mut found = first(circuit, &mut run);
    while found.expect("the circuit is small") {
        each(&run);
        std::mem::swap(&mut run, &mut given);
        found = next(circuit, &given, &mut run);
    }
}

/// A whole list, which is the same by both.
fn listing(name: &str, circuit: &[u8]) -> Row {
    let (mut one, mut two) = (Vec::new(), Vec::new());
    list(circuit, yolqushek::first_run, yolqushek::next_run, |run| one.push(run.to_vec()));
    list(circuit, second::first_run, second::next_run, |run| two.push(run.to_vec()));
    assert_eq!(one, two);
    let count = one.len();
    row(
        format!("list all runs of {name}, {count} runs"),
        || list(circuit, yolqushek::first_run, yolqushek::next_run, |_| ()),
        || list(circuit, second::first_run, second::next_run, |_| ()),
    )
}

/// The first run, in the worse order of the constraints for each: they look from opposite sides.
fn first(name: &str, circuits: &[Vec<u8>; 2]) -> Row {
    let mut worse = Row { name: format!("first run, {name}"), proved: 0.0, second: 0.0 };
    for circuit in circuits {
        let (mut one, mut two) = (vec![9; signals(circuit)], vec![9; signals(circuit)]);
        assert_eq!(yolqushek::first_run(circuit, &mut one).ok(), second::first_run(circuit, &mut two).ok());
        assert_eq!(one, two);
        let Row { proved, second, .. } = row("", || yolqushek::first_run(circuit, &mut one), || second::first_run(circuit, &mut two));
        (worse.proved, worse.second) = (worse.proved.max(proved), worse.second.max(second));
    }
    worse
}

/// The next run after that of zeros.
fn next(name: &str, circuit: &[u8]) -> Row {
    let zeros = vec![0; signals(circuit)];
    let (mut one, mut two) = (vec![9; signals(circuit)], vec![9; signals(circuit)]);
    assert_eq!(yolqushek::next_run(circuit, &zeros, &mut one).ok(), second::next_run(circuit, &zeros, &mut two).ok());
    assert_eq!(one, two);
    row(format!("next run, {name}"), || yolqushek::next_run(circuit, &zeros, &mut one), || second::next_run(circuit, &zeros, &mut two))
}

pub fn rows() -> Vec<Row> {
    let square = Draft::new(65_521, 1, 0, 1).with(&[(1, 1)], &[(1, 1)], &[(1, 1)]).bytes();
    let mut rows = vec![
        listing("no constraints, p = 3, n = 10", &Draft::new(3, 10, 0, 1).bytes()),
        listing("no constraints, p = 251, n = 2", &Draft::new(251, 2, 0, 1).bytes()),
        listing("no constraints, p = 65,521, n = 1", &Draft::new(65_521, 1, 0, 1).bytes()),
        listing("10 bits whose sum is 0, p = 3", &worst_runs::bits_and_sum()),
        listing("case g", &case_g()),
        listing("s1·s1 = s1, p = 65,521", &square),
    ];
    rows.push(next("dense, 3^10 candidates, everything satisfies", &dense(3, 10, everywhere).bytes()));
    rows.extend(worst_runs::both_orders().iter().map(|(name, circuits)| first(name, circuits)));
    rows
}
