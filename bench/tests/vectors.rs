//! The proved library and the second implementation on a file's worth of vectors.

use bench::proved;

#[test]
fn all_vectors_agree() {
    let records = second::compose::compose(2, 400_000);
    assert!(records.len() > 1000);
    for record in &records {
        assert_eq!(proved(record), record.answer);
    }
}
