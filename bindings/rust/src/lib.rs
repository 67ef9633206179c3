//! Safe calls of the proved solver and marker. The library behind them has no precondition: every call ends on all bytes and lengths, and a refusal
//! writes into no buffer. Nothing checks the declarations here against the proved source, so they are few and on bytes and numbers alone. There is no heap;
//! the stack that a call needs was measured from 16 kB on, the least that a thread has (tests/stack.rs), and 256 kB are enough for every call.
//!
//! Marking, judging pairs, solving and renewing take a tag sheet right after the circuit: upper limits of signals, which are assumed of inputs and shown, or
//! not, of others. Where there are none it is [`NO_TAGS`]; an empty slice is refused.
//!
//! [`runs`] lists the satisfying runs of a small circuit, by [`first_run`] and [`next_run`], which need no heap. [`watch`] finds a pair among recorded ones.

use std::iter::FusedIterator;

/// The sheet without tags.
pub const NO_TAGS: &[u8] = &[84, 81, 84, 1, 0, 0, 0];

extern "C" {
    fn yolqushek_read(circuit: *const u8, circuit_length: usize, answer: *mut [u64; 5]) -> u64;
    fn yolqushek_mark(
        circuit: *const u8,
        circuit_length: usize,
        sheet: *const u8,
        sheet_length: usize,
        derivation: *const u8,
        derivation_length: usize,
        marks: *mut u8,
        marks_length: usize,
        answer: *mut [u64; 4],
    ) -> u64;
    fn yolqushek_pair(circuit: *const u8, circuit_length: usize, sheet: *const u8, sheet_length: usize, pair: *const u8, pair_length: usize) -> u64;
    fn yolqushek_solve(
        circuit: *const u8,
        circuit_length: usize,
        sheet: *const u8,
        sheet_length: usize,
        output: *mut u8,
        output_length: usize,
        answer: *mut [u64; 5],
    ) -> u64;
    fn yolqushek_renew(
        circuit: *const u8,
        circuit_length: usize,
        sheet: *const u8,
        sheet_length: usize,
        derivation: *const u8,
        derivation_length: usize,
        output: *mut u8,
        output_length: usize,
    ) -> u64;
    fn yolqushek_first_run(circuit: *const u8, circuit_length: usize, answer: *mut u32, answer_length: usize) -> u64;
    fn yolqushek_next_run(
        circuit: *const u8,
        circuit_length: usize,
        given: *const u32,
        given_length: usize,
        answer: *mut u32,
        answer_length: usize,
    ) -> u64;
    fn yolqushek_watch(
        circuit: *const u8,
        circuit_length: usize,
        records: *const u8,
        records_length: usize,
        window: u32,
        output: *mut u8,
        output_length: usize,
        answer: *mut [u64; 2],
    ) -> u64;
}

/// Why a call was refused: its number, 1 to 34, and its place; that of 33, a record, is told modulo 2^32, which only a file of 16 GB or more can show.
#[derive(Clone, Copy, Debug, PartialEq, Eq)]
pub struct Refusal {
    pub number: u32,
    pub place: u32,
}

/// A circuit's header.
#[derive(Clone, Copy, Debug, PartialEq, Eq)]
pub struct Sizes {
    pub prime: u32,
    pub signals: u32,
    pub inputs: u32,
    pub outputs: u32,
    pub constraints: u32,
}

/// How many signals are marked, and whether every output is; how many tags on signals other than inputs are shown, and the sheet's entry number of the first
/// that isn't, or 0.
#[derive(Clone, Copy, Debug, PartialEq, Eq)]
pub struct Marked {
    pub count: u32,
    pub fixed: bool,
    pub shown: u32,
    pub unshown: u32,
}

impl Marked {
    /// From the four numbers that marking and solving begin their answers with.
    fn of(count: u64, fixed: u64, shown: u64, unshown: u64) -> Marked {
        Marked { count: count as u32, fixed: fixed == 1, shown: shown as u32, unshown: unshown as u32 }
    }
}

/// Two recorded runs that make a pair, counted from 1, and the lowest output at which they differ.
#[derive(Clone, Copy, Debug, PartialEq, Eq)]
pub struct Watched {
    pub q: u32,
    pub earlier: u64,
    pub later: u64,
}

/// Takes a returned value apart: a refusal's number in the high half and its place in the low half, or 0 and the low half.
fn taken(returned: u64) -> Result<u32, Refusal> {
    match ((returned >> 32) as u32, returned as u32) {
        (0, low) => Ok(low),
        (number, place) => Err(Refusal { number, place }),
    }
}

/// Reads a circuit: refusals 1 to 10. Needs 16 kB of stack.
pub fn read_circuit(circuit: &[u8]) -> Result<Sizes, Refusal> {
    let mut answer = [0; 5];
    taken(unsafe { yolqushek_read(circuit.as_ptr(), circuit.len(), &mut answer) })?;
    let [prime, signals, inputs, outputs, constraints] = answer.map(|value| value as u32);
    Ok(Sizes { prime, signals, inputs, outputs, constraints })
}

/// Judges a derivation and writes a byte for each signal to `marks`: refusals 1 to 10, 26, 27, 11 to 14, and step by step 15, 16, 17 and 29, which meets an
/// idle step: one that lowers no bound and adds no mark of either sort. The other sort, nonzero marks, says that a signal is never 0, so that a quotient by it
/// may be marked; it is neither written nor counted. Needs 104 kB of stack.
pub fn check_derivation(circuit: &[u8], sheet: &[u8], derivation: &[u8], marks: &mut [u8]) -> Result<Marked, Refusal> {
    let mut answer = [0; 4];
    taken(unsafe {
        yolqushek_mark(
            circuit.as_ptr(),
            circuit.len(),
            sheet.as_ptr(),
            sheet.len(),
            derivation.as_ptr(),
            derivation.len(),
            marks.as_mut_ptr(),
            marks.len(),
            &mut answer,
        )
    })?;
    let [count, fixed, shown, unshown] = answer;
    Ok(Marked::of(count, fixed, shown, unshown))
}

/// Judges a pair of runs and answers its signal: refusals 1 to 10, 26, 27, 18 to 23, 28 and 24. Needs 16 kB of stack.
pub fn check_pair(circuit: &[u8], sheet: &[u8], pair: &[u8]) -> Result<u32, Refusal> {
    taken(unsafe { yolqushek_pair(circuit.as_ptr(), circuit.len(), sheet.as_ptr(), sheet.len(), pair.as_ptr(), pair.len()) })
}

/// Solves a circuit, writes its derivation to `output`, and answers the derivation's length too: refusals 1 to 10, 26, 27, and 25 where `output` has fewer than
/// 7 + 21·n bytes, room for three steps a signal. Needs 164 kB of stack, and 16 for refused circuits.
pub fn solve(circuit: &[u8], sheet: &[u8], output: &mut [u8]) -> Result<(Marked, usize), Refusal> {
    let mut answer = [0; 5];
    taken(unsafe { yolqushek_solve(circuit.as_ptr(), circuit.len(), sheet.as_ptr(), sheet.len(), output.as_mut_ptr(), output.len(), &mut answer) })?;
    let [count, fixed, shown, unshown, length] = answer;
    Ok((Marked::of(count, fixed, shown, unshown), length as usize))
}

/// Renews a derivation that may have idle steps, writes it without them to `output`, which is no shorter than the derivation given, and answers the new length:
/// refusals 1 to 10, 26, 27, 11 to 13, step by step 15 to 17, and 25. What is written is accepted with the same sheet and reaches the same bounds and marks
/// of both sorts. Needs 108 kB of stack.
pub fn renew(circuit: &[u8], sheet: &[u8], derivation: &[u8], output: &mut [u8]) -> Result<usize, Refusal> {
    let length = taken(unsafe {
        yolqushek_renew(
            circuit.as_ptr(),
            circuit.len(),
            sheet.as_ptr(),
            sheet.len(),
            derivation.as_ptr(),
            derivation.len(),
            output.as_mut_ptr(),
            output.len(),
        )
    })?;
    Ok(length as usize)
}

/// Writes the first satisfying run of a small circuit to `answer`, a value for each signal: refusals 1 to 10, 30 where p to the power n is above 65,536, and 31
/// where `answer` hasn't exactly n values. False if no run satisfies; then nothing is written. Needs 16 kB of stack.
pub fn first_run(circuit: &[u8], answer: &mut [u32]) -> Result<bool, Refusal> {
    let written = taken(unsafe { yolqushek_first_run(circuit.as_ptr(), circuit.len(), answer.as_mut_ptr(), answer.len()) })?;
    Ok(written == 1)
}

/// The same of the satisfying runs that come after the given one in lexicographic order: refusals 1 to 10, 30 and 31, which also meets a given run that hasn't
/// exactly n values, or has one that isn't below p; it needn't satisfy anything. Needs 16 kB of stack.
pub fn next_run(circuit: &[u8], given: &[u32], answer: &mut [u32]) -> Result<bool, Refusal> {
    let written =
        taken(unsafe { yolqushek_next_run(circuit.as_ptr(), circuit.len(), given.as_ptr(), given.len(), answer.as_mut_ptr(), answer.len()) })?;
    Ok(written == 1)
}

/// Every satisfying run of a small circuit, one after the other in lexicographic order: refusals 1 to 10 and 30. Each step is a call, which reads the circuit
/// anew.
pub fn runs(circuit: &[u8]) -> Result<Runs<'_>, Refusal> {
    let mut first = vec![0; read_circuit(circuit)?.signals as usize];
    let found = first_run(circuit, &mut first)?;
    Ok(Runs { circuit, last: found.then_some(first), is_new: true })
}

/// The iterator of [`runs`].
#[derive(Clone, Debug)]
pub struct Runs<'a> {
    circuit: &'a [u8],
    /// The run that was found last, none where there are no more.
    last: Option<Vec<u32>>,
    /// Whether it is still to be handed over.
    is_new: bool,
}

impl Iterator for Runs<'_> {
    type Item = Vec<u32>;

    fn next(&mut self) -> Option<Vec<u32>> {
        if !std::mem::take(&mut self.is_new) {
            let given = self.last.take()?;
            let mut answer = vec![0; given.len()];
            let found = next_run(self.circuit, &given, &mut answer).expect("a run of the circuit is never refused");
            self.last = found.then_some(answer);
        }
        self.last.clone()
    }
}

impl FusedIterator for Runs<'_> {}

/// Finds a pair among recorded runs, each of them n values of 4 bytes, little-endian: two that satisfy the circuit, share their inputs, differ at an output and
/// are fewer than `window` places apart, 2 to 256, where 0 stands for 64. It is the one with the earliest later record, then the nearest earlier one. Refusals
/// 1 to 10, 32 where the length isn't a multiple of 4·n, 33 where a value isn't below p, and 34 for another window or where `output` has fewer than 7 + 8·n
/// bytes: those get the pair file, the earlier record as first run. Nothing is written where no two records make a pair. Needs 16 kB of stack.
pub fn watch(circuit: &[u8], records: &[u8], window: u32, output: &mut [u8]) -> Result<Option<Watched>, Refusal> {
    let mut answer = [0; 2];
    let q = taken(unsafe {
        yolqushek_watch(circuit.as_ptr(), circuit.len(), records.as_ptr(), records.len(), window, output.as_mut_ptr(), output.len(), &mut answer)
    })?;
    let [earlier, later] = answer;
    Ok((q != 0).then_some(Watched { q, earlier, later }))
}
