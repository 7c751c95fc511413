//! And, or, not of all truth values, and of a condition that is refused.

use super::sheet::{short, Sheet, Where};
use crate::generate::assemble::{self, operator};
use crate::generate::Case;
use crate::wire::{ADD, AND, DIVIDE, EQL, LSS, NOT, OR};

/// A truth value, or a refusal.
#[derive(Clone, Copy, PartialEq, Eq)]
enum Side {
    True,
    False,
    Missing,
    Overflow,
    ZeroDivisor,
}

const TRUTHS: [Side; 3] = [Side::True, Side::False, Side::Missing];
const REFUSALS: [Side; 2] = [Side::Overflow, Side::ZeroDivisor];

/// A boolean that comes out so.
fn boolean(sheet: &mut Sheet, side: Side) -> Vec<u8> {
    let one = assemble::short(0, 1);
    match side {
        Side::True => operator(EQL, &[&one, &one]),
        Side::False => operator(LSS, &[&one, &one]),
        Side::Missing => {
            let value = sheet.missing(Where::Flagged, &short(0, 1));
            operator(EQL, &[&value, &one])
        }
        Side::Overflow => {
            let sum = operator(ADD, &[&assemble::greatest(), &one]);
            operator(EQL, &[&sum, &one])
        }
        Side::ZeroDivisor => {
            let quotient = operator(DIVIDE, &[&one, &assemble::short(0, 0)]);
            operator(EQL, &[&one, &quotient])
        }
    }
}

/// And or or of two sides, after so many nots.
fn connected(code: u8, left: Side, right: Side, nots: usize) -> Case {
    let mut sheet = Sheet::default();
    let left = boolean(&mut sheet, left);
    let right = boolean(&mut sheet, right);
    let both = operator(code, &[&left, &right]);
    sheet.case(&[vec![NOT; nots], both].concat())
}

/// Not of a side.
fn not(side: Side, nots: usize) -> Case {
    let mut sheet = Sheet::default();
    let side = boolean(&mut sheet, side);
    sheet.case(&[vec![NOT; nots], side].concat())
}

/// Every pair of truth values, also under not; every truth value under one and two nots.
pub fn tables() -> Vec<Case> {
    let mut cases = Vec::new();
    for code in [AND, OR] {
        for left in TRUTHS {
            for right in TRUTHS {
                cases.push(connected(code, left, right, 0));
                cases.push(connected(code, left, right, 1));
            }
        }
    }
    for side in TRUTHS {
        cases.extend([not(side, 1), not(side, 2)]);
    }
    cases
}

/// A refusal on either side of every truth value, and both refusals in either order.
pub fn refusals() -> Vec<Case> {
    let mut cases = vec![not(Side::Overflow, 1), not(Side::ZeroDivisor, 2)];
    for code in [AND, OR] {
        for (refusal, other) in [(REFUSALS[0], REFUSALS[1]), (REFUSALS[1], REFUSALS[0])] {
            cases.push(connected(code, refusal, other, 0));
            for side in TRUTHS {
                cases.push(connected(code, side, refusal, 0));
                cases.push(connected(code, refusal, side, 0));
            }
        }
    }
    cases
}
