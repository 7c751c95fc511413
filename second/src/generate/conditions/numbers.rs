//! Numbers: signs in every place, scales, and arithmetic at the ends of the range.

use super::sheet::{long, reading, short, Sheet, Stored, Where};
use super::COMPARISONS;
use crate::decimal;
use crate::generate::assemble::{self, operator};
use crate::generate::Case;
use crate::wire::{ADD, DIVIDE, EQL, GEQ, GTR, LEQ, LSS, MISSING, MULTIPLY, NEGATE, NEQ, SUBTRACT};

const PLACES: [Where; 4] = [Where::Literal, Where::Field, Where::Parameter, Where::Flagged];

/// A test of a value that stands somewhere against a literal.
fn tested(code: u8, place: Where, stored: &Stored, literal: &Stored) -> Case {
    let mut sheet = Sheet::default();
    let value = sheet.there(place, stored);
    sheet.case(&operator(code, &[&value, &literal.literal()]))
}

/// Shorts and longs of both signs in every place: the same as a long literal, and below zero.
pub fn signs() -> Vec<Case> {
    let shorts = [-1, 255, 256, -256, i16::MAX, i16::MIN];
    let longs = [-1, 65_536, -65_536, i32::MAX, i32::MIN];
    let stored_shorts = shorts.map(|number| (short(0, number), i32::from(number)));
    let stored_longs = longs.map(|number| (long(0, number), number));
    let mut cases = Vec::new();
    for (stored, number) in stored_shorts.iter().chain(&stored_longs) {
        for place in PLACES {
            cases.push(tested(LSS, place, stored, &short(0, 0)));
            cases.push(tested(EQL, place, stored, &long(0, *number)));
        }
    }
    cases
}

/// Readings: unsigned, 65535 missing, and missing under their bit.
pub fn readings() -> Vec<Case> {
    let mut cases = Vec::new();
    for number in [0, 1, 256, 32_767, 32_768, 65_534, 65_535] {
        let stored = reading(-1, number);
        cases.push(tested(EQL, Where::Field, &stored, &long(-1, i32::from(number))));
        cases.push(tested(GTR, Where::Field, &stored, &short(0, -1)));
        for missing in [false, true] {
            let mut sheet = Sheet::default();
            let value = sheet.field(&stored, missing);
            cases.push(sheet.case(&operator(MISSING, &[&value])));
        }
    }
    // A short of -1 and a short parameter of -1 are values.
    for place in [Where::Field, Where::Parameter, Where::Flagged] {
        let mut sheet = Sheet::default();
        let value = sheet.there(place, &short(-1, -1));
        cases.push(sheet.case(&operator(MISSING, &[&value])));
    }
    cases
}

/// Every comparison below, at and above.
pub fn comparisons() -> Vec<Case> {
    let mut cases = Vec::new();
    for code in COMPARISONS {
        for number in [-8, -7, -6] {
            cases.push(tested(code, Where::Field, &short(0, number), &short(0, -7)));
        }
    }
    cases
}

/// Numbers of different scales.
pub fn scales() -> Vec<Case> {
    let pairs = [
        (long(0, 30), long(-1, 300)),
        (long(-1, 29), long(0, 3)),
        (long(0, -30), long(-1, -300)),
        (long(0, -31), long(-1, -300)),
        (long(-9, 1), long(0, 0)),
        (long(-9, -1), long(-3, 0)),
        (long(0, i32::MAX), long(-9, i32::MAX)),
        (long(-9, i32::MIN), long(0, i32::MIN)),
        (short(-2, 300), short(-1, 30)),
    ];
    let mut cases = Vec::new();
    for (turn, (left, right)) in pairs.iter().enumerate() {
        for code in [EQL, LSS, GEQ] {
            cases.push(tested(code, PLACES[turn % 4], left, right));
        }
    }
    // One at 18 places beside one at nine, and beside zero and one.
    for other in [long(-9, 1), long(-9, 0), short(0, 1)] {
        for code in [EQL, LSS] {
            let small = assemble::scale_18(1);
            cases.push(Sheet::default().case(&operator(code, &[&small, &other.literal()])));
        }
    }
    let small = assemble::scale_18(1);
    let wide = [assemble::greatest(), assemble::least(), assemble::two_to_62()];
    for value in &wide {
        for code in [NEQ, LSS, LEQ] {
            cases.push(Sheet::default().case(&operator(code, &[value, &small])));
            cases.push(Sheet::default().case(&operator(code, &[value, &assemble::greatest()])));
        }
    }
    cases
}

/// A number as a value and a scale.
type Scaled = (i32, i8);

const OPERANDS: [[Scaled; 2]; 16] = [
    [(7, 0), (2, 0)],
    [(-7, 0), (2, 0)],
    [(7, 0), (-2, 0)],
    [(-7, 0), (-2, 0)],
    [(7, -1), (2, 0)],
    [(7, 0), (2, -2)],
    [(-70, -2), (3, -1)],
    [(75, -3), (-4, -3)],
    [(1, -9), (1, 0)],
    [(3, 0), (-1, -9)],
    [(0, 0), (5, 0)],
    [(-1, 0), (2, 0)],
    [(i32::MAX, 0), (i32::MIN, 0)],
    [(i32::MIN, 0), (-1, 0)],
    [(i32::MIN, -9), (i32::MAX, -9)],
    [(12, -1), (0, 0)],
];

/// What an operator gives, if that is a number that a long literal can have.
fn expected(code: u8, [left, right]: [Scaled; 2]) -> Option<Stored> {
    let (left, right) = ((i64::from(left.0), left.1), (i64::from(right.0), right.1));
    let operate = match code {
        ADD => decimal::add,
        SUBTRACT => decimal::subtract,
        MULTIPLY => decimal::multiply,
        _ => decimal::divide,
    };
    let (value, scale) = operate(left.0, left.1, right.0, right.1).ok()?;
    let is_scale = (-9..=0).contains(&scale);
    i32::try_from(value).ok().filter(|_| is_scale).map(|value| long(scale, value))
}

/// An operator with two numbers, against what it gives, or against zero.
fn operated(code: u8, operands: [Scaled; 2], places: [Where; 2], test: u8) -> Case {
    let mut sheet = Sheet::default();
    let [left, right] = [0, 1].map(|at| {
        let (value, scale) = operands[at];
        sheet.there(places[at], &long(scale, value))
    });
    let against = expected(code, operands).unwrap_or(short(0, 0));
    sheet.case(&operator(test, &[&operator(code, &[&left, &right]), &against.literal()]))
}

/// Every operator with numbers of all signs and of different scales.
pub fn arithmetic() -> Vec<Case> {
    let mut cases = Vec::new();
    for code in [ADD, SUBTRACT, MULTIPLY, DIVIDE] {
        for (turn, operands) in OPERANDS.into_iter().enumerate() {
            // A quotient's scale is the first minus the second, at most 0.
            if code == DIVIDE && operands[0].1 > operands[1].1 {
                continue;
            }
            let places = [PLACES[turn % 4], PLACES[(turn / 2 + 1) % 4]];
            cases.push(operated(code, operands, places, EQL));
            cases.push(operated(code, operands, places, [LSS, GTR][turn % 2]));
        }
    }
    cases
}

/// Sums and differences whose scale counts in what stands around them, and those that fit while an
/// operand at their scale does not.
pub fn sums() -> Vec<Case> {
    let long = |scale, number| assemble::long(scale, number);
    // Four, at 18 places.
    let four = operator(MULTIPLY, &[&long(-9, 2_000_000_000), &long(-9, 2_000_000_000)]);
    let ten = assemble::short(0, 10);
    let less_ten = assemble::short(0, -10);
    let values = [
        operator(SUBTRACT, &[&ten, &four]),
        operator(SUBTRACT, &[&four, &ten]),
        operator(ADD, &[&less_ten, &four]),
        operator(ADD, &[&four, &less_ten]),
        operator(SUBTRACT, &[&assemble::short(0, 9), &four]),
        operator(DIVIDE, &[&operator(ADD, &[&long(-2, 70), &ten]), &long(-1, 3)]),
        operator(DIVIDE, &[&operator(SUBTRACT, &[&ten, &long(-2, 70)]), &long(-1, 3)]),
        operator(DIVIDE, &[&operator(MULTIPLY, &[&ten, &long(-1, 7)]), &long(-1, 3)]),
        operator(DIVIDE, &[&operator(NEGATE, &[&long(-1, 7)]), &long(-1, 3)]),
    ];
    let mut cases = Vec::new();
    for value in &values {
        for code in [GTR, LEQ] {
            cases.push(Sheet::default().case(&operator(code, &[value, &long(-1, 35)])));
        }
    }
    cases
}

/// Numbers and their opposites.
pub fn negations() -> Vec<Case> {
    let mut cases = Vec::new();
    for number in [0, 1, -1, 300, i32::MAX, i32::MIN] {
        for place in [Where::Literal, Where::Field] {
            let mut sheet = Sheet::default();
            let value = sheet.there(place, &long(-2, number));
            let opposite = operator(NEGATE, &[&value]);
            let sum = operator(ADD, &[&opposite, &long(-2, number).literal()]);
            cases.push(sheet.case(&operator(EQL, &[&sum, &short(0, 0).literal()])));
            cases.push(sheet.case(&operator(LSS, &[&opposite, &short(-9, 0).literal()])));
        }
    }
    cases
}

/// The ends of the range, on both sides of overflow and of a zero divisor.
pub fn edges() -> Vec<Case> {
    // The edge values name a short, a long and a reading.
    let mut sheet = Sheet::default();
    sheet.field(&short(-2, 7), false);
    sheet.field(&long(0, i32::MIN), false);
    sheet.field(&reading(-1, 65_534), false);
    let values = assemble::edge_values();
    let mut cases = Vec::new();
    for (value, other) in values.iter().zip(values.iter().skip(1).cycle()) {
        cases.push(sheet.case(&operator(MISSING, &[value])));
        cases.push(sheet.case(&operator(GEQ, &[value, &assemble::short(0, 1)])));
        cases.push(sheet.case(&operator(LSS, &[value, other])));
    }
    cases
}
