//! Readings begin with every boundary, fault and left-out code, and reach every refusal before 23.

use second::cases;
use second::count::Tally;
use second::generate::{readings, targeted, Case};

#[test]
fn readings_reach_every_refusal() {
    let tally = Tally::of(readings::cases(1, 1000));
    for number in (1..=16).chain(20..=22) {
        let count = tally.refusals.get(&number).copied().unwrap_or_default();
        assert!(count >= 8, "refusal {number} came {count} times");
    }
    for number in 23..=25 {
        assert!(!tally.refusals.contains_key(&number), "refusal {number}");
    }
    assert!(tally.reads >= 500 && tally.answers["accepted"] >= 100);
}

#[test]
fn written_faults_are_refused() {
    for case in targeted::written() {
        let outcome = cases::outcome(&case);
        assert!(outcome.starts_with("refused"), "{}", cases::line(&case));
    }
}

#[test]
fn written_readings_come_first() {
    let written = readings::written();
    let first: Vec<Case> = readings::cases(5, written.len()).collect();
    assert_eq!(first, written);
    let next = |seed| readings::cases(seed, written.len() + 1).last();
    assert_ne!(next(5), next(6));
}
