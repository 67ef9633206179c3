//! The proved library and the second implementation on digits steps about where the adding ends.

use bench::proved;
use second::sheet::NO_TAGS;
use second::vectors::{Record, DERIVATION};
use second::wide_digits::judged;

#[test]
fn digits_steps_are_judged_alike() {
    for step in judged() {
        let record = Record::answered(DERIVATION, &step.circuit, NO_TAGS, &step.derivation, 64);
        assert_eq!(record.answer.number, if step.met { 0 } else { 17 }, "{}", step.name);
        assert_eq!(proved(&record), record.answer, "{}", step.name);
    }
}
