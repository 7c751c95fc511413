//! Version 5: 64-bit integers in every place, and its quotients.

use super::sheet::{int64, reading, short, text, Sheet, Stored, Where};
use crate::decimal;
use crate::generate::assemble::{self, operator};
use crate::generate::Case;
use crate::wire::{DIVIDE, EQL, GTR, LSS, MISSING};

const PLACES: [Where; 4] = [Where::Literal, Where::Field, Where::Parameter, Where::Flagged];

/// 64-bit integers in every place, there and missing: the same as a literal, and below zero.
pub fn stored() -> Vec<Case> {
    let numbers = [0, -1, 1 << 32, -(1 << 32), i64::MAX, i64::MIN, 65_535];
    let scales = [0, -18, -9, -10, 0, -18, 0];
    let mut cases = Vec::new();
    for (number, scale) in numbers.into_iter().zip(scales) {
        let stored = int64(scale, number);
        for place in PLACES {
            let mut sheet = Sheet::version_5();
            let value = sheet.there(place, &stored);
            cases.push(sheet.case(&operator(EQL, &[&value, &stored.literal()])));
            cases.push(sheet.case(&operator(LSS, &[&value, &assemble::short(0, 0)])));
        }
        for place in [Where::Field, Where::Flagged] {
            let mut sheet = Sheet::version_5();
            let value = sheet.missing(place, &stored);
            cases.push(sheet.case(&operator(GTR, &[&value, &stored.literal()])));
            cases.push(sheet.case(&operator(MISSING, &[&value])));
        }
    }
    cases
}

/// Fields behind one of type 16, in both versions; 64-bit integers as flags.
pub fn beside() -> Vec<Case> {
    let mut cases = Vec::new();
    for mut sheet in [Sheet::default(), Sheet::version_5()] {
        sheet.field(&int64(-18, -1), false);
        let heat = sheet.field(&reading(-1, 301), false);
        let name = sheet.field(&text(b"ab"), false);
        cases.push(sheet.case(&operator(GTR, &[&heat, &assemble::short(0, 30)])));
        cases.push(sheet.case(&operator(EQL, &[&name, &assemble::text(b"ab")])));
    }
    for flag in [0, 1, -1, 1 << 56, i64::MIN] {
        let mut sheet = Sheet::version_5();
        let value = sheet.flagged(&short(0, 3), &int64(-18, flag));
        cases.push(sheet.case(&operator(EQL, &[&value, &assemble::short(0, 3)])));
    }
    cases
}

/// A number as a value and a scale.
type Scaled = (i64, i8);

/// The greatest number that fits a hundred times, and its successor.
const HUNDREDTH: i64 = i64::MAX / 100;

const OPERANDS: [[Scaled; 2]; 26] = [
    [(7, 0), (2, 0)],
    [(-7, 0), (2, 0)],
    [(7, 0), (-2, 0)],
    [(7, -1), (2, -1)],
    [(-7, -1), (3, -2)],
    [(7, -3), (2, 0)],
    [(1, 0), (3, -9)],
    [(9, 0), (1, -9)],
    [(-9, -9), (1, -9)],
    [(10, 0), (1, -9)],
    [(-10, 0), (7, -9)],
    [(0, 0), (1, -10)],
    [(0, 0), (-3, -18)],
    [(1, 0), (1, -10)],
    [(-1, 0), (i64::MIN, -18)],
    [(HUNDREDTH, 0), (1, -1)],
    [(HUNDREDTH + 1, 0), (1, -1)],
    [(HUNDREDTH + 1, 0), (i64::MAX, -1)],
    [(-HUNDREDTH, -17), (-1, -1)],
    [(-HUNDREDTH - 1, -17), (-1, -1)],
    [(i64::MIN, 0), (1, 0)],
    [(i64::MIN, 0), (-1, 0)],
    [(i64::MAX, -18), (-1, 0)],
    [(5, -9), (0, -9)],
    [(0, 0), (0, -18)],
    [(i64::MAX, 0), (0, -9)],
];

/// Quotients of version 5 against what they are, or against zero; and beside a missing dividend.
pub fn quotients() -> Vec<Case> {
    let mut cases = Vec::new();
    for (turn, [left, right]) in OPERANDS.into_iter().enumerate() {
        let expected = decimal::divide5(left.0, left.1, right.0, right.1).unwrap_or((0, 0));
        let mut sheet = Sheet::version_5();
        let place = |at: usize| PLACES[(turn + at) % 4];
        let first = sheet.there(place(0), &int64(left.1, left.0));
        let second = sheet.there(place(turn / 4), &int64(right.1, right.0));
        let value = operator(DIVIDE, &[&first, &second]);
        let literal = assemble::int64(expected.1, expected.0);
        cases.push(sheet.case(&operator(EQL, &[&value, &literal])));
        cases.push(sheet.case(&operator(LSS, &[&value, &assemble::short(0, 1)])));
        let mut sheet = Sheet::version_5();
        let absent = sheet.missing(Where::Field, &int64(left.1, left.0));
        let value = operator(DIVIDE, &[&absent, &int64(right.1, right.0).literal()]);
        cases.push(sheet.case(&operator(GTR, &[&value, &literal])));
    }
    cases
}

/// The same quotient in both versions.
pub fn both_versions() -> Vec<Case> {
    let operands: [[Stored; 2]; 4] = [
        [short(-2, 700), short(-1, 20)],
        [short(-2, -7), short(-2, 2)],
        [short(-9, 1), short(-9, 0)],
        [short(-9, 30_000), short(-9, 1)],
    ];
    let mut cases = Vec::new();
    for [left, right] in &operands {
        for mut sheet in [Sheet::default(), Sheet::version_5()] {
            let value = sheet.there(Where::Parameter, left);
            let quotient = operator(DIVIDE, &[&value, &right.literal()]);
            for other in [assemble::short(0, -3), assemble::short(-1, 35), assemble::short(-1, 350)]
            {
                cases.push(sheet.case(&operator(EQL, &[&quotient, &other])));
                cases.push(sheet.case(&operator(GTR, &[&quotient, &other])));
            }
        }
    }
    cases
}
