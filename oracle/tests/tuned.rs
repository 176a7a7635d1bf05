//! The tuned verifier answers as the oracle does and leaves all lent memory as the oracle does:
//! a benchmark against a faster verifier that is wrong would tell nothing.

use oracle::compare;
use oracle::tuned;

/// Seeds that stand in no other run.
const SEEDS: std::ops::Range<u64> = 1 << 41..(1 << 41) + 100_000;

#[test]
fn the_tuned_verifier_is_right_on_generated_cases() {
    let tally = compare::sweep(SEEDS, &tuned::verify).unwrap_or_else(|found| panic!("{found}"));
    for (kind, &count) in tally.kinds.iter().enumerate() {
        assert!(count >= 100, "kind {kind} came {count} times\n{tally}");
    }
}
