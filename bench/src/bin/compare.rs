//! compare CALLS [SEED]: makes at least so many calls of the proved library and of the second implementation on the same inputs and stops at the first
//! that differs. Prints how many agree, by kind and by refusal, and how many had tags.

use std::collections::BTreeMap;

use bench::proved;
use second::compose::{compose, compose_random, WITH_WORST};
use second::falling::{self, Falling};
use second::planted::Planted;
use second::recorded::narrow;
use second::records::pair_length;
use second::sheet::NO_TAGS;
use second::vectors::{bytes_of, Record, DERIVATION, FIRST_RUN, NEXT_RUN, RENEW, SOLVE, WATCH};
use second::wide_digits::{all_padded, broken_sums, judged, MOST_SUMS};
use second::{worst, worst_runs};

/// Solving where the digits test is widest; digits steps whose adding ends early or not; marking and renewing 4,096 steps, most of them idle or none;
/// listing runs where every candidate is looked at; watching.
fn longest() -> Vec<Record> {
    let mut records: Vec<Record> = [1, 35, MOST_SUMS].map(|sums| Record::answered(SOLVE, &broken_sums(sums), NO_TAGS, &[], 7 + 21 * 256)).into();
    let padded = all_padded().map(|padded| (padded.circuit, padded.derivation));
    let falling = [falling::chain(), falling::wide_chain()].map(|Falling { circuit, derivation }| (circuit, derivation));
    for (circuit, derivation) in padded.into_iter().chain(falling) {
        records.push(Record::answered(DERIVATION, &circuit, NO_TAGS, &derivation, 256));
        records.push(Record::answered(RENEW, &circuit, NO_TAGS, &derivation, derivation.len()));
    }
    records.extend(judged().iter().map(|step| Record::answered(DERIVATION, &step.circuit, NO_TAGS, &step.derivation, 64)));
    for (_, circuit) in worst_runs::all() {
        let n = second::read_circuit(&circuit).expect("worst circuits are valid").signals.into();
        records.push(Record::answered(FIRST_RUN, &circuit, &[], &[], n));
        records.push(Record::answered(NEXT_RUN, &circuit, &[], &bytes_of(&vec![0; n]), n));
    }
    records.extend(watched());
    records
}

/// Watching runs of the largest circuit, and records whose numbers have more than 16 bits: a pair, and a value that is too large behind it.
fn watched() -> [Record; 4] {
    let Planted { circuit: largest, first, second, .. } = worst::largest(1);
    let largest_runs = [[&first, &first, &second], [&first, &first, &first]].map(|runs| runs.map(|run| &run[..]).concat());
    let mut many = [1, 2].repeat(70_000);
    many.extend([1, 0, 1, 1]);
    let many_and_high = [&many[..], &[13, 0]].concat();
    let watch = |circuit: &[u8], n: usize, runs: &[u32]| Record::answered(WATCH, circuit, &[0; 4], &bytes_of(runs), pair_length(n));
    let [pair, none] = largest_runs.map(|runs| watch(&largest, 256, &runs));
    [pair, none, watch(&narrow(), 2, &many), watch(&narrow(), 2, &many_and_high)]
}

fn main() {
    let mut arguments = std::env::args().skip(1);
    let wanted: u64 = arguments.next().and_then(|text| text.parse().ok()).expect("use: compare CALLS [SEED]");
    let mut seed: u64 = arguments.next().map_or(1, |text| text.parse().expect("a seed is a number"));
    let (mut calls, mut tagged, mut kinds, mut numbers) = (0, 0, BTreeMap::<u8, u64>::new(), BTreeMap::<u16, u64>::new());
    // The first records are the fixed calls, with the worst circuits among them; all others are random.
    let mut records = compose(seed, WITH_WORST);
    records.extend(longest());
    while calls < wanted {
        for record in records {
            let answer = proved(&record);
            if answer != record.answer {
                println!("seed {seed}: {record:?}\nproved: {answer:?}");
                std::process::exit(1);
            }
            calls += 1;
            tagged += u64::from(record.sheet.len() > NO_TAGS.len());
            *kinds.entry(record.kind).or_default() += 1;
            *numbers.entry(record.answer.number).or_default() += 1;
        }
        seed += 1;
        records = compose_random(seed, 400_000);
    }
    println!("{calls} calls agree, {tagged} of them with tags; by kind {kinds:?}; by refusal {numbers:?}");
}
