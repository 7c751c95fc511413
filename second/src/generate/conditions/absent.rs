//! Missing operands, refusals beside them, and flags.

use super::sheet::{cstring, date, long, short, text, varying, Sheet, Stored, Where};
use super::texts::SEARCHES;
use super::COMPARISONS;
use crate::generate::assemble::{self, operator};
use crate::generate::Case;
use crate::wire::{
    ADD, BETWEEN, CONTAINING, DIVIDE, EQL, GTR, LSS, MISSING, MULTIPLY, NEGATE, NEQ, PARAMETER2,
    STARTING, SUBTRACT,
};

const OPERATORS: [u8; 4] = [ADD, SUBTRACT, MULTIPLY, DIVIDE];

/// Which of two operands are missing.
const MISSING_SIDES: [[bool; 2]; 3] = [[true, false], [false, true], [true, true]];

/// Two values of a type, missing or there, in a place.
fn pair(sheet: &mut Sheet, place: Where, stored: &Stored, missing: [bool; 2]) -> [Vec<u8>; 2] {
    missing.map(|missing| sheet.value(place, stored, missing))
}

/// Every test with a missing operand, of the kinds that it takes. The last two of each kind are a value
/// that is missing, which may be malformed, and one that is there.
pub fn tests() -> Vec<Case> {
    let kinds = [
        (&COMPARISONS[..], Where::Field, long(-1, 3), long(-1, 3)),
        (&COMPARISONS[..2], Where::Flagged, text(b"ab"), text(b"ab")),
        (&SEARCHES[..], Where::Field, varying(9, b"ab"), text(b"ab")),
        (&COMPARISONS[2..5], Where::Flagged, date(3, 4), date(3, 4)),
    ];
    let mut cases = Vec::new();
    for (codes, place, absent, present) in &kinds {
        for code in *codes {
            for sides in MISSING_SIDES {
                let mut sheet = Sheet::default();
                let value = |missing| if missing { absent } else { present };
                let operands = sides.map(|missing| sheet.value(*place, value(missing), missing));
                cases.push(sheet.case(&operator(*code, &[&operands[0], &operands[1]])));
            }
        }
    }
    cases
}

/// Arithmetic with a missing operand: missing, also over a zero divisor.
pub fn arithmetic() -> Vec<Case> {
    let mut cases = Vec::new();
    for (turn, code) in OPERATORS.into_iter().enumerate() {
        for missing in MISSING_SIDES {
            let mut sheet = Sheet::default();
            let place = [Where::Field, Where::Flagged][turn % 2];
            let [left, right] = pair(&mut sheet, place, &short(-1, 0), missing);
            let value = operator(code, &[&left, &right]);
            cases.push(sheet.case(&operator(EQL, &[&value, &assemble::short(0, 0)])));
            cases.push(sheet.case(&operator(MISSING, &[&value])));
            cases.push(sheet.case(&operator(MISSING, &[&operator(NEGATE, &[&value])])));
        }
    }
    cases
}

/// Missing 61 of values of every kind, missing and there.
pub fn missing_tests() -> Vec<Case> {
    let kinds =
        [short(0, 0), long(0, -1), date(0, 0), text(b" "), cstring(b"\0"), varying(0, b"a")];
    let mut cases = Vec::new();
    for stored in &kinds {
        for place in [Where::Field, Where::Flagged, Where::Parameter] {
            for missing in [false, true] {
                let mut sheet = Sheet::default();
                let value = sheet.value(place, stored, missing);
                cases.push(sheet.case(&operator(MISSING, &[&value])));
            }
        }
    }
    cases
}

/// Values that are refused: 24 of a sum, 25, and 24 of a product under a negation.
fn refused_values(sheet: &mut Sheet) -> [Vec<u8>; 3] {
    let one = assemble::short(0, 1);
    let two = sheet.there(Where::Field, &long(0, 2));
    let product = operator(MULTIPLY, &[&assemble::least(), &two]);
    [
        operator(ADD, &[&one, &assemble::greatest()]),
        operator(DIVIDE, &[&one, &assemble::short(0, 0)]),
        operator(NEGATE, &[&product]),
    ]
}

/// A refused value before and after a missing one, in tests and in arithmetic, under missing, and
/// in a between that is false by its other end.
pub fn refusals() -> Vec<Case> {
    let mut cases = Vec::new();
    for at in 0..3 {
        let mut sheet = Sheet::default();
        let values = refused_values(&mut sheet);
        let (refused, other) = (&values[at], &values[(at + 1) % 3]);
        let absent = sheet.missing(Where::Field, &long(0, 3));
        let [one, five] = [1, 5].map(|number| assemble::short(0, number));
        let test = |code: u8, operands: &[&[u8]]| operator(code, operands);
        let sum = |left: &[u8], right: &[u8]| operator(SUBTRACT, &[left, right]);
        for boolean in [
            test(MISSING, &[refused]),
            test(EQL, &[&absent, refused]),
            test(NEQ, &[refused, &absent]),
            test(LSS, &[refused, other]),
            test(GTR, &[&sum(&absent, refused), &one]),
            test(EQL, &[&sum(refused, &absent), other]),
            test(EQL, &[&sum(refused, other), &absent]),
            test(MISSING, &[&operator(NEGATE, &[refused])]),
            test(BETWEEN, &[&absent, &absent, refused]),
            test(BETWEEN, &[&absent, refused, other]),
            test(BETWEEN, &[refused, &one, other]),
            test(BETWEEN, &[&five, &one, refused]),
            test(BETWEEN, &[&one, &five, refused]),
            test(BETWEEN, &[&five, refused, &one]),
        ] {
            cases.push(sheet.case(&boolean));
        }
    }
    cases
}

/// A malformed text before and after a missing one, and as the third value of a between that is
/// false by its second.
pub fn malformed() -> Vec<Case> {
    let mut cases = Vec::new();
    for (turn, stored) in [varying(3, b"ab"), cstring(b"ab")].iter().enumerate() {
        for place in [Where::Field, Where::Parameter, Where::Flagged] {
            let mut sheet = Sheet::default();
            let absent = sheet.missing([Where::Flagged, Where::Field][turn], stored);
            let refused = sheet.there(place, stored);
            let [letter, next] = [b"a", b"b"].map(|bytes| assemble::text(bytes));
            for boolean in [
                operator(CONTAINING, &[&absent, &refused]),
                operator(STARTING, &[&refused, &absent]),
                operator(EQL, &[&refused, &refused]),
                operator(BETWEEN, &[&letter, &absent, &refused]),
                operator(BETWEEN, &[&absent, &refused, &letter]),
                operator(BETWEEN, &[&letter, &next, &refused]),
                operator(MISSING, &[&refused]),
            ] {
                cases.push(sheet.case(&boolean));
            }
        }
    }
    cases
}

/// A parameter2 by its flag, which may be negative, of any scale, a long, or the parameter itself.
pub fn flags() -> Vec<Case> {
    let flags = [
        short(0, 0),
        short(0, 1),
        short(0, -1),
        short(-9, i16::MIN),
        short(-2, 256),
        long(0, 0),
        long(-9, 0),
        long(0, 65_536),
        long(0, i32::MIN),
        long(-3, -1),
    ];
    let mut cases = Vec::new();
    for flag in &flags {
        let mut sheet = Sheet::default();
        let value = sheet.flagged(&short(0, -1), flag);
        cases.push(sheet.case(&operator(EQL, &[&value, &assemble::short(0, -1)])));
        cases.push(sheet.case(&operator(MISSING, &[&value])));
        // The same parameter without its flag, and the flag as its own flag.
        let plain = assemble::parameter(0, 0);
        cases.push(sheet.case(&operator(LSS, &[&plain, &assemble::short(0, 0)])));
        let own = [PARAMETER2, 0, 1, 0, 1, 0];
        cases.push(sheet.case(&operator(EQL, &[&own, &assemble::short(0, 0)])));
    }
    cases
}
