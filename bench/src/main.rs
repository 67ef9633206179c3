//! Times the proved library and the second implementation on the same inputs in one run and prints a table of ratios, then renewing against marking the same
//! derivations, then how the proved library's cost grows. Release builds; each buffer is filled once, before the timing; each figure is the shortest of several
//! rounds, a round being as many calls as take some milliseconds. With the argument `runs` only the rows of listings are printed, with `watch` only those of
//! watching.

mod every_run;
mod records;

use std::hint::black_box;
use std::time::Instant;

use second::falling::{self, Falling};
use second::planted::Planted;
use second::sheet::{write_sheet, Tag, BINARY, MAXBIT, NO_TAGS};
use second::{solver, wide_digits, worst};

/// One row: what is timed, and the two calls.
struct Row {
    name: String,
    proved: f64,
    second: f64,
}

/// The shortest time of a call, in microseconds: of 25 rounds, or of fewer where they take long.
fn shortest<T>(mut call: impl FnMut() -> T) -> f64 {
    let mut round = |calls: u32| {
        let start = Instant::now();
        (0..calls).for_each(|_| drop(black_box(call())));
        start.elapsed().as_secs_f64() * 1e6 / f64::from(calls)
    };
    let once = round(1).max(0.01);
    let calls = (3000.0 / once).clamp(1.0, 20_000.0) as u32;
    let rounds = (3e6 / once).clamp(5.0, 25.0) as u32;
    (0..rounds).map(|_| round(calls)).fold(f64::INFINITY, f64::min)
}

fn row<T, U>(name: impl Into<String>, proved: impl FnMut() -> T, second: impl FnMut() -> U) -> Row {
    Row { name: name.into(), proved: shortest(proved), second: shortest(second) }
}

fn reading(name: &str, circuit: &[u8]) -> Row {
    assert_eq!(yolqushek::read_circuit(circuit).map_err(|r| r.number).err(), second::read_circuit(circuit).map_err(|r| r.number.into()).err());
    row(format!("read {name}"), || yolqushek::read_circuit(circuit), || second::read_circuit(circuit))
}

/// Solving, and the derivation's bytes, which both find.
fn solved(name: &str, circuit: &[u8], sheet: &[u8]) -> (Row, Vec<u8>) {
    let (mut one, mut two) = (vec![0; longest(circuit)], vec![0; longest(circuit)]);
    let (marked, length) = yolqushek::solve(circuit, sheet, &mut one).expect("the buffer is long enough");
    let (judgement, second_length) = second::solve(circuit, sheet, &mut two).expect("the buffer is long enough");
    assert_eq!((marked.count as usize, marked.shown as usize, length), (judgement.count, judgement.shown, second_length));
    assert_eq!(one, two);
    let derivation = one[..length].to_vec();
    (row(format!("solve {name}"), || yolqushek::solve(circuit, sheet, &mut one), || second::solve(circuit, sheet, &mut two)), derivation)
}

/// The solver's derivation.
fn solution(circuit: &[u8], sheet: &[u8]) -> Vec<u8> {
    let mut output = vec![0; longest(circuit)];
    let (_, length) = yolqushek::solve(circuit, sheet, &mut output).expect("the buffer is long enough");
    output.truncate(length);
    output
}

fn signals(circuit: &[u8]) -> usize {
    second::read_circuit(circuit).expect("a valid circuit").signals.into()
}

/// The bytes that a derivation of the solver takes at most.
fn longest(circuit: &[u8]) -> usize {
    solver::longest(signals(circuit))
}

/// Solving, marking the derivation, and renewing 4,096 steps, the derivation again and again.
fn solving(name: &str, circuit: &[u8], sheet: &[u8], rows: &mut Vec<Row>) {
    let (row, derivation) = solved(name, circuit, sheet);
    rows.push(row);
    rows.push(marking(&format!("mark {name}"), circuit, sheet, &derivation));
    if derivation.len() > 7 {
        rows.push(renewing(&format!("renew {name}, 4,096 steps"), circuit, sheet, &repeated(&derivation[7..])));
    }
}

/// Renewing 4,096 steps, all idle but the first, which is the solver's: a product, a root and a sum over 63 signals. And a padded derivation to be marked,
/// which is refused at its first idle step.
fn idle(rows: &mut Vec<Row>) {
    let decoys = worst::bits_behind_decoys();
    let wide = worst::tagged().into_iter().find(|tagged| tagged.name == "sums_over_tagged_inputs").expect("a circuit of that name");
    let circuits = [("case a", second::cases::case_a(), NO_TAGS.to_vec()), ("bits behind decoys", decoys.clone(), NO_TAGS.to_vec())];
    for (name, circuit, sheet) in circuits.into_iter().chain([("sums over tagged inputs, 256 tags", wide.circuit, wide.sheet)]) {
        let first = &solution(&circuit, &sheet)[7..14];
        rows.push(renewing(&format!("renew {name}, 4,096 steps, all idle but the first"), &circuit, &sheet, &repeated(first)));
    }
    let padded = repeated(&solution(&decoys, NO_TAGS)[7..]);
    rows.push(refused("mark bits behind decoys, 4,096 steps, refused at the first idle one", &decoys, &padded, 29, 1));
}

/// Sheets of 256 tags: solving and marking, where bounds fall only because of them too, and a pair whose inputs have them all.
fn tagged(largest: &Planted, rows: &mut Vec<Row>) {
    for worst::Tagged { name, circuit, sheet } in worst::tagged() {
        solving(&format!("{}, 256 tags", name.replace('_', " ")), &circuit, &sheet, rows);
    }
    rows.push(pairing("of the largest circuit, 256 tags", &largest.circuit, &worst::obeyed_sheet(largest), &pair_file(largest)));
    let small = second::cases::case_c(13);
    solving("case c", &small, NO_TAGS, rows);
    // The input is a number of 3 bits, and the bits are bits.
    let tags = [(1, MAXBIT, 3), (2, BINARY, 0), (3, BINARY, 0), (4, BINARY, 0)].map(|(signal, kind, v)| Tag::new(signal, kind, v));
    solving("case c, 4 tags", &small, &write_sheet(&tags), rows);
}

/// The widest digits tests: renewing 4,096 steps of which most are idle, marking a step that is refused at the second signal, and solving circuits with more
/// and more sums that nothing settles.
fn wide_digits(rows: &mut Vec<Row>) {
    for padded in wide_digits::all_padded() {
        rows.push(renewing(&format!("renew digits on {}, 4,096 steps", padded.name), &padded.circuit, NO_TAGS, &padded.derivation));
    }
    let (circuit, derivation) = wide_digits::reached_at_second();
    rows.push(refused("mark a digits step on 64 signals, p reached at the second, 4,096 times", &circuit, &derivation, 17, 4096));
    for sums in [35, 71, wide_digits::MOST_SUMS] {
        rows.push(solved(&format!("{sums} broken sums"), &wide_digits::broken_sums(sums), NO_TAGS).0);
    }
}

/// Derivations of 4,096 steps of which none is idle.
fn falling() -> impl Iterator<Item = (&'static str, Falling)> {
    [("a chain", falling::chain()), ("a chain of wide sums", falling::wide_chain())].into_iter()
}

/// 4,096 steps: those given, again and again.
fn repeated(steps: &[u8]) -> Vec<u8> {
    let mut derivation = b"DQT\x01\x00\x00\x10".to_vec();
    derivation.extend(steps.iter().cycle().take(7 * 4096));
    derivation
}

fn marking(name: &str, circuit: &[u8], sheet: &[u8], derivation: &[u8]) -> Row {
    let (mut one, mut two) = (vec![9; signals(circuit)], vec![9; signals(circuit)]);
    assert!(yolqushek::check_derivation(circuit, sheet, derivation, &mut one).is_ok());
    assert!(second::check_derivation(circuit, sheet, derivation, &mut two).is_ok());
    assert_eq!(one, two);
    row(name, || yolqushek::check_derivation(circuit, sheet, derivation, &mut one), || second::check_derivation(circuit, sheet, derivation, &mut two))
}

/// Marking, so many times, a derivation that both refuse with this number.
fn refused(name: &str, circuit: &[u8], derivation: &[u8], number: u32, times: usize) -> Row {
    let (mut one, mut two) = (vec![9; signals(circuit)], vec![9; signals(circuit)]);
    assert_eq!(yolqushek::check_derivation(circuit, NO_TAGS, derivation, &mut one).map_err(|refusal| refusal.number).err(), Some(number));
    assert_eq!(second::check_derivation(circuit, NO_TAGS, derivation, &mut two).map_err(|refusal| refusal.number.into()).err(), Some(number));
    row(
        name,
        || (0..times).map(|_| black_box(yolqushek::check_derivation(circuit, NO_TAGS, derivation, &mut one))).last(),
        || (0..times).map(|_| black_box(second::check_derivation(circuit, NO_TAGS, derivation, &mut two))).last(),
    )
}

fn renewing(name: &str, circuit: &[u8], sheet: &[u8], derivation: &[u8]) -> Row {
    let (mut one, mut two) = (vec![9; derivation.len()], vec![9; derivation.len()]);
    let length = second::renew(circuit, sheet, derivation, &mut two).expect("every step is met");
    assert_eq!(yolqushek::renew(circuit, sheet, derivation, &mut one), Ok(length));
    assert_eq!(one, two);
    row(name, || yolqushek::renew(circuit, sheet, derivation, &mut one), || second::renew(circuit, sheet, derivation, &mut two))
}

/// Renewing against marking in the proved library, on derivations that both accept: none of their steps is idle.
fn renewing_against_marking() {
    println!("\n| derivation | steps | mark µs | renew µs | renew / mark |\n|---|---:|---:|---:|---:|");
    let falling = falling().map(|(name, Falling { circuit, derivation })| (name.to_string(), circuit, derivation));
    let solved = worst::all().into_iter().map(|(name, circuit)| {
        let derivation = solution(&circuit, NO_TAGS);
        (format!("the solver's of {}", name.replace('_', " ")), circuit, derivation)
    });
    for (name, circuit, derivation) in falling.chain(solved) {
        let (mut marks, mut output) = (vec![9; signals(&circuit)], vec![9; derivation.len()]);
        let mark = shortest(|| yolqushek::check_derivation(&circuit, NO_TAGS, &derivation, &mut marks));
        let renew = shortest(|| yolqushek::renew(&circuit, NO_TAGS, &derivation, &mut output));
        assert_eq!(output, derivation);
        println!("| {name} | {} | {mark:.2} | {renew:.2} | {:.2} |", derivation.len() / 7 - 1, renew / mark);
    }
}

/// The planted runs as a pair file.
fn pair_file(planted: &Planted) -> Vec<u8> {
    let mut pair = b"PQT\x01\x00".to_vec();
    pair.extend(planted.q.to_le_bytes());
    planted.first.iter().chain(&planted.second).for_each(|value| pair.extend(value.to_le_bytes()));
    pair
}

fn pairing(name: &str, circuit: &[u8], sheet: &[u8], pair: &[u8]) -> Row {
    let q = second::check_pair(circuit, sheet, pair).expect("an accepted pair");
    assert_eq!(yolqushek::check_pair(circuit, sheet, pair), Ok(q.into()));
    row(format!("pair {name}"), || yolqushek::check_pair(circuit, sheet, pair), || second::check_pair(circuit, sheet, pair))
}

/// How the cost of a call grows: sizes with their times, and the power of the size that the time grows by from the one before.
fn growth(name: &str, timed: &[(usize, f64)]) {
    println!("\n| {name} | proved µs | grows as size to the power of |\n|---|---:|---:|");
    for (index, &(size, time)) in timed.iter().enumerate() {
        let power = index.checked_sub(1).map(|before| (time / timed[before].1).ln() / (size as f64 / timed[before].0 as f64).ln());
        println!("| {size} | {time:.1} | {} |", power.map_or(String::new(), |power| format!("{power:.1}")));
    }
}

/// Solving and reading circuits of growing size, marking derivations of growing length with nothing idle, and renewing padded ones.
fn all_growth() {
    let circuits: Vec<Vec<u8>> = [2, 4, 8].map(worst::numbers_behind_decoys).into();
    let mut output = vec![0; solver::longest(256)];
    let mut solve = |circuit: &[u8]| shortest(|| yolqushek::solve(circuit, NO_TAGS, &mut output));
    growth("solve: bytes of the circuit", &circuits.iter().map(|circuit| (circuit.len(), solve(circuit))).collect::<Vec<_>>());
    let read = |circuit: &[u8]| shortest(|| yolqushek::read_circuit(circuit));
    growth("read: bytes of the circuit", &circuits.iter().map(|circuit| (circuit.len(), read(circuit))).collect::<Vec<_>>());
    let Falling { circuit, derivation } = falling::wide_chain();
    let mark = |steps: usize| {
        let (cut, mut marks) = (first_steps(&derivation, steps), vec![0; 256]);
        assert!(yolqushek::check_derivation(&circuit, NO_TAGS, &cut, &mut marks).is_ok());
        shortest(|| yolqushek::check_derivation(&circuit, NO_TAGS, &cut, &mut marks))
    };
    growth("mark: steps, none idle", &[512, 1024, 2048, 4096].map(|steps| (steps, mark(steps))));
    let circuit = &circuits[2];
    let whole = repeated(&solution(circuit, NO_TAGS)[7..]);
    let renew = |steps: usize| {
        let (cut, mut output) = (first_steps(&whole, steps), vec![0; whole.len()]);
        assert!(yolqushek::renew(circuit, NO_TAGS, &cut, &mut output).is_ok());
        shortest(|| yolqushek::renew(circuit, NO_TAGS, &cut, &mut output))
    };
    growth("renew: steps", &[512, 1024, 2048, 4096].map(|steps| (steps, renew(steps))));
}

/// The derivation of the first steps of another.
fn first_steps(derivation: &[u8], steps: usize) -> Vec<u8> {
    let mut cut = derivation[..7 + 7 * steps].to_vec();
    cut[5..7].copy_from_slice(&(steps as u16).to_le_bytes());
    cut
}

/// Keeps the processor busy for a second, so that the first rows find it as fast as the later ones.
fn warm_up(circuit: &[u8]) {
    let (start, mut output) = (Instant::now(), vec![0; solver::longest(256)]);
    while start.elapsed().as_secs() < 1 {
        let _ = black_box(yolqushek::solve(circuit, NO_TAGS, &mut output));
    }
}

fn print(rows: &[Row]) {
    println!("| call | proved µs | second µs | ratio |\n|---|---:|---:|---:|");
    for row in rows {
        println!("| {} | {:.2} | {:.2} | {:.2} |", row.name, row.proved, row.second, row.proved / row.second);
    }
}

fn main() {
    let largest = worst::largest(1);
    warm_up(&largest.circuit);
    match std::env::args().nth(1).as_deref() {
        Some("runs") => return print(&every_run::rows()),
        Some("watch") => {
            print(&records::rows(&largest));
            return records::cost_a_record();
        }
        _ => (),
    }
    let bare = second::writer::Draft::new(2_147_483_647, 1, 0, 1).bytes();
    let mut rows = vec![
        reading("case c", &second::cases::case_c(13)),
        reading("a circuit of the largest prime, no constraints", &bare),
        reading("the largest circuit", &largest.circuit),
        reading("the largest circuit, last byte missing", &largest.circuit[..largest.circuit.len() - 1]),
        pairing("of the largest circuit", &largest.circuit, NO_TAGS, &pair_file(&largest)),
    ];
    for bits in [3, 7, 15, 30] {
        solving(&format!("{bits} bits and their sum"), &worst::bits_and_long_sum(bits), NO_TAGS, &mut rows);
    }
    for (name, circuit) in worst::all() {
        solving(&name.replace('_', " "), &circuit, NO_TAGS, &mut rows);
    }
    wide_digits(&mut rows);
    for (name, Falling { circuit, derivation }) in falling() {
        rows.push(marking(&format!("mark {name}, 4,096 steps, none idle"), &circuit, NO_TAGS, &derivation));
        rows.push(renewing(&format!("renew {name}, 4,096 steps, none idle"), &circuit, NO_TAGS, &derivation));
    }
    idle(&mut rows);
    tagged(&largest, &mut rows);
    rows.extend(every_run::rows());
    rows.extend(records::rows(&largest));
    print(&rows);
    renewing_against_marking();
    all_growth();
    records::cost_a_record();
}
