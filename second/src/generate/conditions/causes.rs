//! Causes of missing values: each alone, and different ones in every order.

use super::sheet::{reading, short, text, Sheet, Where};
use super::texts::SEARCHES;
use super::COMPARISONS;
use crate::evaluator::Answer;
use crate::generate::assemble::{self, operator};
use crate::generate::evaluations::CAUSES;
use crate::generate::Case;
use crate::record::Cause;
use crate::wire::{
    ADD, AND, BETWEEN, DIVIDE, EQL, GTR, LSS, MISSING, MULTIPLY, NEGATE, NOT, OR, SUBTRACT,
};

/// Two different causes.
type Pair = [Cause; 2];

const PAIRS: [Pair; 3] =
    [[Cause::Bit, Cause::Reading], [Cause::Reading, Cause::Flag], [Cause::Flag, Cause::Bit]];

/// A pair in both orders.
fn orders([first, second]: Pair) -> [Pair; 2] {
    [[first, second], [second, first]]
}

/// A number that is missing by a cause. The bit is that of a reading of 65535.
fn number(sheet: &mut Sheet, cause: Cause) -> Vec<u8> {
    match cause {
        Cause::Bit => sheet.field(&reading(0, u16::MAX), true),
        Cause::Reading => sheet.field(&reading(0, u16::MAX), false),
        Cause::Flag => sheet.flagged(&short(0, 1), &short(0, -1)),
        Cause::Nothing => unreachable!("a field or parameter is never missing so"),
    }
}

/// A test that comes out so.
fn test(sheet: &mut Sheet, answer: Answer) -> Vec<u8> {
    let one = assemble::short(0, 1);
    match answer {
        Answer::True => operator(EQL, &[&one, &one]),
        Answer::False => operator(LSS, &[&one, &one]),
        Answer::Missing(cause) => operator(EQL, &[&number(sheet, cause), &one]),
    }
}

/// Each cause in a test, also a bit without a reading of 65535; and each under negate and not.
pub fn alone() -> Vec<Case> {
    let one = assemble::short(0, 1);
    let mut sheet = Sheet::default();
    let filled = sheet.field(&reading(-1, 300), true);
    let mut cases = vec![sheet.case(&operator(GTR, &[&filled, &one]))];
    for cause in CAUSES {
        let mut sheet = Sheet::default();
        let value = number(&mut sheet, cause);
        cases.push(sheet.case(&operator(GTR, &[&value, &one])));
        let equal = operator(EQL, &[&one, &operator(NEGATE, &[&value])]);
        cases.push(sheet.case(&operator(NOT, &[&equal])));
    }
    cases
}

/// Every operator with two causes.
pub fn arithmetic() -> Vec<Case> {
    let mut cases = Vec::new();
    for (turn, code) in [ADD, SUBTRACT, MULTIPLY, DIVIDE].into_iter().enumerate() {
        for pair in orders(PAIRS[turn % 3]) {
            let mut sheet = Sheet::default();
            let [left, right] = pair.map(|cause| number(&mut sheet, cause));
            let value = operator(code, &[&left, &right]);
            cases.push(sheet.case(&operator(EQL, &[&value, &assemble::short(0, 1)])));
        }
    }
    cases
}

/// Every comparison with two causes.
pub fn comparisons() -> Vec<Case> {
    let mut cases = Vec::new();
    for (turn, code) in COMPARISONS.into_iter().enumerate() {
        for pair in orders(PAIRS[turn % 3]) {
            let mut sheet = Sheet::default();
            let [left, right] = pair.map(|cause| number(&mut sheet, cause));
            cases.push(sheet.case(&operator(code, &[&left, &right])));
        }
    }
    cases
}

/// Every search of texts with two causes: the bit and the flag.
pub fn searches() -> Vec<Case> {
    let mut cases = Vec::new();
    for code in SEARCHES {
        for places in [[Where::Field, Where::Flagged], [Where::Flagged, Where::Field]] {
            let mut sheet = Sheet::default();
            let [left, right] = places.map(|place| sheet.missing(place, &text(b"ab")));
            cases.push(sheet.case(&operator(code, &[&left, &right])));
        }
    }
    cases
}

/// Between with the three causes in every order, and with two beside a first value that is there.
pub fn betweens() -> Vec<Case> {
    let mut cases = Vec::new();
    for (first, pair) in CAUSES.into_iter().zip([PAIRS[1], PAIRS[2], PAIRS[0]]) {
        for [second, third] in orders(pair) {
            let mut sheet = Sheet::default();
            let values = [first, second, third].map(|cause| number(&mut sheet, cause));
            cases.push(sheet.case(&operator(BETWEEN, &[&values[0], &values[1], &values[2]])));
        }
    }
    for pair in orders(PAIRS[1]) {
        let mut sheet = Sheet::default();
        let [second, third] = pair.map(|cause| number(&mut sheet, cause));
        let first = assemble::short(0, 1);
        cases.push(sheet.case(&operator(BETWEEN, &[&first, &second, &third])));
    }
    cases
}

/// And or or of two sides.
fn joined(code: u8, sides: [Answer; 2]) -> Case {
    let mut sheet = Sheet::default();
    let [left, right] = sides.map(|side| test(&mut sheet, side));
    sheet.case(&operator(code, &[&left, &right]))
}

/// And, or of two causes, and of the bit or a reading beside the truth value that leaves it missing.
pub fn logic() -> Vec<Case> {
    let mut cases = Vec::new();
    for (code, other, pair) in [(AND, Answer::True, PAIRS[0]), (OR, Answer::False, PAIRS[2])] {
        for causes in orders(pair) {
            cases.push(joined(code, causes.map(Answer::Missing)));
        }
        cases.push(joined(code, [Answer::Missing(Cause::Bit), other]));
        cases.push(joined(code, [other, Answer::Missing(Cause::Reading)]));
    }
    cases
}

/// A cause after a missing value that does not count: under an and that is false, an or that is
/// true, a missing 61, and a between that is false.
pub fn settled() -> Vec<Case> {
    let [one, five] = [1, 5].map(|number| assemble::short(0, number));
    let mut cases = Vec::new();
    for (code, outer, side) in [(AND, OR, Answer::False), (OR, AND, Answer::True)] {
        for (turn, pair) in PAIRS.into_iter().take(2).enumerate() {
            let mut sheet = Sheet::default();
            let [absent, last] = pair.map(|cause| test(&mut sheet, Answer::Missing(cause)));
            let side = test(&mut sheet, side);
            let first = match turn {
                0 => operator(code, &[&absent, &side]),
                _ => operator(code, &[&side, &absent]),
            };
            cases.push(sheet.case(&operator(outer, &[&first, &last])));
        }
    }
    let mut sheet = Sheet::default();
    let absent = number(&mut sheet, Cause::Flag);
    let last = test(&mut sheet, Answer::Missing(Cause::Bit));
    let missing = operator(MISSING, &[&absent]);
    cases.push(sheet.case(&operator(AND, &[&missing, &last])));
    let between = operator(BETWEEN, &[&one, &five, &absent]);
    cases.push(sheet.case(&operator(OR, &[&between, &last])));
    cases
}
