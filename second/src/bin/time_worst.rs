//! time-worst [DIRECTORY]: times the calls on the worst circuits; writes the circuits into the directory, if one is given.

use std::time::Instant;

use second::sheet::NO_TAGS;
use second::solver::longest;
use second::{check_derivation, read_circuit, solve, worst};

/// The shortest of several times, in milliseconds.
fn shortest(mut call: impl FnMut()) -> f64 {
    let mut time = || {
        let start = Instant::now();
        call();
        start.elapsed().as_secs_f64() * 1000.0
    };
    (0..7).map(|_| time()).fold(f64::INFINITY, f64::min)
}

fn main() {
    println!(
        "{:<28} {:>6} {:>4} {:>4} {:>6} {:>6} {:>8} {:>9} {:>9}",
        "circuit", "bytes", "n", "m", "steps", "marked", "read ms", "solve ms", "check ms"
    );
    let bare = worst::all().into_iter().map(|(name, circuit)| (name.to_string(), circuit, NO_TAGS.to_vec()));
    let tagged = worst::tagged().into_iter().map(|tagged| (format!("{}, 256 tags", tagged.name), tagged.circuit, tagged.sheet));
    for (name, bytes, sheet) in bare.chain(tagged) {
        let circuit = read_circuit(&bytes).expect("worst circuits are valid");
        let mut out = vec![0; longest(circuit.signals.into())];
        let (judgement, length) = solve(&bytes, &sheet, &mut out).expect("the buffer is long enough");
        let mut marks = vec![0; usize::from(circuit.signals)];
        let read = shortest(|| assert!(read_circuit(&bytes).is_ok()));
        let check = shortest(|| assert!(check_derivation(&bytes, &sheet, &out[..length], &mut marks).is_ok()));
        let solved = shortest(|| assert!(solve(&bytes, &sheet, &mut out).is_ok()));
        let (n, m, steps) = (circuit.signals, circuit.constraints.len(), length / 7 - 1);
        println!("{name:<28} {:>6} {n:>4} {m:>4} {steps:>6} {:>6} {read:>8.3} {solved:>9.3} {check:>9.3}", bytes.len(), judgement.count);
        if let Some(directory) = std::env::args().nth(1) {
            std::fs::write(format!("{directory}/{name}.cqt"), &bytes).expect("the directory takes files");
        }
    }
}
