//! Between: every value missing or there, below, inside and above, the ends, and missing limits.

use super::sheet::{date, long, reading, short, text, Sheet, Stored, Where};
use crate::generate::assemble::{self, operator};
use crate::generate::Case;
use crate::wire::{ADD, BETWEEN, NOT};

/// Three values of a kind, in order, and where they stand.
fn kinds() -> [([Stored; 3], Where); 4] {
    [
        ([long(0, -5), long(-1, 0), long(0, 7)], Where::Field),
        ([short(0, -7), short(0, -1), short(-2, 3)], Where::Flagged),
        ([text(b"a "), text(b"ab"), text(b"b ")], Where::Flagged),
        ([date(-2, 9), date(-1, 3), date(-1, 4)], Where::Field),
    ]
}

/// The bits of `between`'s missing values.
const FIRST: usize = 1;
const SECOND: usize = 2;
const THIRD: usize = 4;

/// A between of three values; bit i of `missing` says that value i is missing.
fn between(place: Where, values: [&Stored; 3], missing: usize) -> Case {
    let mut sheet = Sheet::default();
    let operands: Vec<Vec<u8>> = (0..3)
        .map(|at| {
            let stored = values[at];
            sheet.value(place, stored, missing >> at & 1 == 1)
        })
        .collect();
    sheet.case(&operator(BETWEEN, &[&operands[0], &operands[1], &operands[2]]))
}

/// Below, inside and above with every choice of missing values.
pub fn missing() -> Vec<Case> {
    let mut cases = Vec::new();
    for ([low, middle, high], place) in kinds() {
        for values in [[&low, &middle, &high], [&middle, &low, &high], [&high, &low, &middle]] {
            for missing in 0..8 {
                cases.push(between(place, values, missing));
            }
        }
    }
    cases
}

/// The ends, which are included, and ends in the wrong order.
pub fn ends() -> Vec<Case> {
    let mut cases = Vec::new();
    for ([low, middle, high], place) in kinds() {
        for values in [
            [&low, &low, &high],
            [&high, &low, &high],
            [&middle, &middle, &middle],
            [&middle, &high, &low],
            [&low, &high, &low],
            [&high, &high, &low],
        ] {
            cases.push(between(place, values, 0));
        }
    }
    cases
}

/// A value equal to the one end that is there, and a missing value with ends in the wrong order.
pub fn missing_ends() -> Vec<Case> {
    let mut cases = Vec::new();
    for ([low, middle, high], place) in kinds() {
        for (values, missing) in [
            ([&low, &low, &high], THIRD),
            ([&high, &high, &low], THIRD),
            ([&high, &low, &high], SECOND),
            ([&low, &high, &low], SECOND),
            ([&middle, &high, &low], FIRST),
        ] {
            cases.push(between(place, values, missing));
        }
    }
    cases
}

/// Five and nine beside seven and a limit that was never set: a reading of 65535, and under not a
/// sum with it.
pub fn unset_limits() -> Vec<Case> {
    let mut sheet = Sheet::default();
    let unset = sheet.field(&reading(-1, u16::MAX), false);
    let sum = operator(ADD, &[&unset, &assemble::short(0, 1)]);
    let seven = assemble::short(0, 7);
    let mut cases = Vec::new();
    for value in [5, 9].map(|number| assemble::short(0, number)) {
        for [second, third] in [[&seven, &unset], [&unset, &seven]] {
            cases.push(sheet.case(&operator(BETWEEN, &[&value, second, third])));
        }
        for [second, third] in [[&seven, &sum], [&sum, &seven]] {
            let boolean = operator(BETWEEN, &[&value, second, third]);
            cases.push(sheet.case(&operator(NOT, &[&boolean])));
        }
    }
    cases
}
