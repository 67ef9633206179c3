//! How much stack the calls need: each of them on a thread with as much as is said to be enough, and, if asked, the least that is enough, by trial.

use std::process::{Command, Stdio};
use std::thread::Builder;

use second::pair::write_pair;
use second::sheet::NO_TAGS;
use second::wide_digits::{broken_sums, MOST_SUMS};
use second::worst;
use second::worst_runs::dense;
use second::writer::Draft;

/// What is enough for every call.
const ENOUGH: usize = 256 << 10;

/// Stacks are tried in multiples of this.
const STEP: usize = 4 << 10;

/// The longest derivation that the solver writes, so that every call has the room that it asks for.
const MOST: usize = 7 + 21 * 256;

/// The variable that tells a child process what to try: the call, the circuit and the stack's size.
const TRIAL: &str = "STACK_TRIAL";

/// A circuit with hand-ins for it.
struct Input {
    name: &'static str,
    circuit: Vec<u8>,
    sheet: Vec<u8>,
    derivation: Vec<u8>,
    pair: Vec<u8>,
    run: Vec<u32>,
}

impl Input {
    /// With the solver's derivation, as the second implementation finds it, and a run of zeros; where the circuit is refused, without steps and values.
    fn new(name: &'static str, circuit: Vec<u8>, sheet: &[u8], pair: Vec<u8>) -> Input {
        let mut derivation = vec![0; MOST];
        let length = second::solve(&circuit, sheet, &mut derivation).map_or(7, |(_, length)| length);
        derivation.truncate(length);
        let run = second::read_circuit(&circuit).map_or_else(|_| Vec::new(), |read| vec![0; read.signals.into()]);
        Input { name, circuit, sheet: sheet.to_vec(), derivation, pair, run }
    }

    /// The pair's runs as recorded ones.
    fn records(&self) -> &[u8] {
        self.pair.get(7..).unwrap_or_default()
    }
}

/// Two refused circuits that are short, a small one, one that is refused at its last byte, and the two that have most to work on, one also with 256 tags; one
/// with 256 nonzero steps and 255 quotients; then three whose runs can be listed, as large as they may be, of which the last has none.
fn inputs() -> [Input; 11] {
    let (largest, zeros) = (worst::largest(1), [0; 256]);
    let tags = worst::obeyed_sheet(&largest);
    let pair = write_pair(largest.q, &largest.first, &largest.second);
    let small = |p: u32| Draft::new(p, 1, 0, 1).bytes();
    let listed = |name, p, n: u16, end| Input::new(name, dense(p, n, end).bytes(), NO_TAGS, write_pair(1, &zeros[..n.into()], &zeros[..n.into()]));
    [
        Input::new("no bytes", Vec::new(), &[], Vec::new()),
        Input::new("no prime", small(2_147_483_645), NO_TAGS, write_pair(1, &[0], &[1])),
        Input::new("no constraints", small(2_147_483_647), NO_TAGS, write_pair(1, &[0], &[1])),
        Input::new("the largest, last byte missing", largest.circuit[..largest.circuit.len() - 1].to_vec(), NO_TAGS, pair.clone()),
        Input::new("the largest", largest.circuit.clone(), NO_TAGS, pair.clone()),
        Input::new("the largest, 256 tags", largest.circuit, &tags, pair),
        Input::new("142 broken sums", broken_sums(MOST_SUMS), NO_TAGS, write_pair(1, &zeros, &zeros)),
        Input::new("256 divisions in a chain", worst::division_chain(), NO_TAGS, write_pair(2, &zeros, &zeros)),
        listed("10 signals over 3, many constraints", 3, 10, |_| ()),
        listed("1 signal over 65,521, many constraints", 65_521, 1, |_| ()),
        listed("10 signals over 3, never satisfied", 3, 10, |draft| draft.add(&[], &[], &[(0, 1)])),
    ]
}

/// A call that answers the number of its refusal, or 0.
type Call = fn(&Input, &mut [u8]) -> u32;

/// What is tried: nothing at all, for what a thread itself takes, and the calls. The second implementation says what each answers.
const CALLS: [(&str, Call, Call); 9] = [
    ("nothing", |_, _| 0, |_, _| 0),
    ("read", |i, _| yolqushek::read_circuit(&i.circuit).map_or_else(|r| r.number, |_| 0), |i, _| number(second::read_circuit(&i.circuit))),
    (
        "mark",
        |i, lent| yolqushek::check_derivation(&i.circuit, &i.sheet, &i.derivation, lent).map_or_else(|r| r.number, |_| 0),
        |i, lent| number(second::check_derivation(&i.circuit, &i.sheet, &i.derivation, lent)),
    ),
    (
        "pair",
        |i, _| yolqushek::check_pair(&i.circuit, &i.sheet, &i.pair).map_or_else(|r| r.number, |_| 0),
        |i, _| number(second::check_pair(&i.circuit, &i.sheet, &i.pair)),
    ),
    (
        "solve",
        |i, lent| yolqushek::solve(&i.circuit, &i.sheet, lent).map_or_else(|r| r.number, |_| 0),
        |i, lent| number(second::solve(&i.circuit, &i.sheet, lent)),
    ),
    (
        "renew",
        |i, lent| yolqushek::renew(&i.circuit, &i.sheet, &i.derivation, lent).map_or_else(|r| r.number, |_| 0),
        |i, lent| number(second::renew(&i.circuit, &i.sheet, &i.derivation, lent)),
    ),
    (
        "first run",
        |i, _| yolqushek::first_run(&i.circuit, &mut i.run.clone()).map_or_else(|r| r.number, |_| 0),
        |i, _| number(second::first_run(&i.circuit, &mut i.run.clone())),
    ),
    (
        "next run",
        |i, _| yolqushek::next_run(&i.circuit, &i.run, &mut i.run.clone()).map_or_else(|r| r.number, |_| 0),
        |i, _| number(second::next_run(&i.circuit, &i.run, &mut i.run.clone())),
    ),
    (
        "watch",
        |i, lent| yolqushek::watch(&i.circuit, i.records(), 256, lent).map_or_else(|r| r.number, |_| 0),
        |i, lent| number(second::watch(&i.circuit, i.records(), 256, lent)),
    ),
];

fn number<T>(answer: Result<T, second::Refusal>) -> u32 {
    answer.map_or_else(|refusal| refusal.number.into(), |_| 0)
}

/// Makes the call on a thread with that much stack. An overflow ends the process.
fn on_stack(size: usize, call: Call, input: &Input) -> u32 {
    let mut lent = vec![9; MOST];
    std::thread::scope(|scope| Builder::new().stack_size(size).spawn_scoped(scope, || call(input, &mut lent)).unwrap().join().unwrap())
}

#[test]
fn every_call_runs_on_256_kilobytes() {
    for input in inputs() {
        for (name, call, expected) in CALLS {
            assert_eq!(on_stack(ENOUGH, call, &input), expected(&input, &mut [9; MOST]), "{name}, {}", input.name);
        }
    }
}

/// Whether a child process makes the call on that much stack and lives.
fn is_enough(call: usize, input: usize, size: usize) -> bool {
    let trial = format!("{call} {input} {size}");
    let mut child = Command::new(std::env::current_exe().unwrap());
    child.args(["--ignored", "--exact", "one_trial"]).env(TRIAL, trial).stdout(Stdio::null()).stderr(Stdio::null());
    child.status().unwrap().success()
}

#[test]
#[ignore = "a trial of least_stack"]
fn one_trial() {
    let Ok(trial) = std::env::var(TRIAL) else { return };
    let [call, input, size] = trial.split(' ').map(|word| word.parse().unwrap()).collect::<Vec<usize>>()[..] else { panic!("{trial}") };
    on_stack(size, CALLS[call].1, &inputs()[input]);
}

/// The least stack, in kilobytes, that is enough, up to 2 MB.
fn least(call: usize, input: usize) -> usize {
    let (mut too_small, mut enough) = (0, (2 << 20) / STEP);
    while too_small + 1 < enough {
        let middle = (too_small + enough) / 2;
        if is_enough(call, input, middle * STEP) {
            enough = middle;
        } else {
            too_small = middle;
        }
    }
    (enough * STEP) >> 10
}

/// Prints the least stack for every call and circuit: `cargo test --offline --release --test stack -- --ignored --exact least_stack --nocapture`.
#[test]
#[ignore = "takes a minute and prints a table"]
fn least_stack() {
    println!("| kB of stack | {} |\n|---|{}", CALLS.map(|(name, ..)| name).join(" | "), "---:|".repeat(CALLS.len()));
    for (index, input) in inputs().iter().enumerate() {
        let found: Vec<String> = (0..CALLS.len()).map(|call| least(call, index).to_string()).collect();
        println!("| {} | {} |", input.name, found.join(" | "));
    }
}
