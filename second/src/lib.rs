//! A second solver, marker, pair checker, lister and watcher of runs for rank-1 circuits.
//!
//! Written from documents 01 and 02 and docs/RULES.md alone, in plain unverified Rust, so that its answers can be held against those of the verified
//! program. It computes by other means: forms are sorted lists, inverses are Fermat powers, marks are sets, sums are 128 bits wide, and the solver keeps
//! every sum and every set of digits up to date instead of searching anew for each step.
//!
//! The eight calls take bytes and answer a result or a [`Refusal`]; a refusal writes nothing. Four of them take a tag sheet right after the circuit,
//! [`sheet::NO_TAGS`] where nothing is to be said. With their refusals in the order in which they are asked:
//! - [`read_circuit`] reads a circuit (refusals 1 to 10);
//! - [`check_derivation`] follows a derivation, writes its marks and says which tags are shown (1 to 10, 26, 27, 11 to 14, for each step
//!   15 to 17 and 29);
//! - [`check_pair`] checks a pair of runs (1 to 10, 26, 27, 18 to 23, 28, 24);
//! - [`solve`] writes the derivation that document 01 prescribes and says which tags are shown (1 to 10, 26, 27, 25);
//! - [`renew`] writes a derivation without its idle steps (1 to 10, 26, 27, 11 to 13, for each step 15 to 17, then 25);
//! - [`first_run`] and [`next_run`] write the first satisfying run of a small circuit, and the first after a given one; these are lent runs as values
//!   (1 to 10, 30, 31);
//! - [`watch`] finds a pair among recorded runs and writes it (1 to 10, 32 to 34).
//!
//! [`vectors`] is the file format of the test vectors, [`compose`] fills such a file, [`generate`], [`grow`] and [`planted`] make the
//! circuits for it, [`two_faults`] and [`ties`] what comes first, [`tagged`] where tags count, [`idle`] steps that change nothing, [`divisions`] where a
//! quotient is marked or nearly so, [`worst`] the circuits on which a solver works longest, [`wide_digits`] those on which the digits rule does, [`worst_runs`]
//! those on which a listing of runs does, [`falling`] those with the most steps of which none is idle, [`listed`] what is stored of listings, and [`recorded`]
//! what is stored of recorded runs.

pub mod brute;
pub mod cases;
pub mod compose;
pub mod damage;
pub mod divisions;
pub mod edge;
pub mod falling;
pub mod field;
pub mod generate;
pub mod grow;
pub mod hand_in;
pub mod idle;
pub mod limits;
pub mod listed;
pub mod marker;
pub mod pair;
pub mod planted;
pub mod random;
pub mod reader;
pub mod recorded;
pub mod records;
pub mod renewal;
pub mod rules;
pub mod runs;
pub mod sheet;
pub mod solver;
pub mod tagged;
pub mod ties;
pub mod two_faults;
pub mod vectors;
pub mod wide_digits;
pub mod worst;
pub mod worst_runs;
pub mod writer;

pub use marker::{check_derivation, Judgement};
pub use pair::check_pair;
pub use reader::{read_circuit, Circuit, Refusal};
pub use records::watch;
pub use renewal::renew;
pub use runs::{first_run, next_run};
pub use solver::solve;
