//! Dates: signed days, and unsigned fractions where the days are equal.

use super::sheet::{date, Sheet, Where};
use super::COMPARISONS;
use crate::generate::assemble::operator;
use crate::generate::Case;

/// Two dates, each a day and a fraction.
type Pair = [(i32, u32); 2];

const PAIRS: [Pair; 12] = [
    [(0, 0), (0, 0)],
    [(0, 0), (0, 1)],
    [(7, 1), (7, 0)],
    [(-1, 5), (0, 0)],
    [(0, 0), (-1, 5)],
    [(-1, 1), (-1, 2)],
    [(-2, 0), (-1, 0)],
    [(i32::MIN, 0), (i32::MAX, 0)],
    [(i32::MAX, u32::MAX), (i32::MIN, 0)],
    [(0, 1 << 31), (0, 1)],
    [(0, 1), (0, 256)],
    [(256, 0), (1, 65_536)],
];

/// Where the two dates stand.
const PLACES: [[Where; 2]; 3] = [
    [Where::Field, Where::Field],
    [Where::Parameter, Where::Flagged],
    [Where::Field, Where::Parameter],
];

/// Every comparison of every pair.
pub fn comparisons() -> Vec<Case> {
    let mut cases = Vec::new();
    for (turn, pair) in PAIRS.iter().enumerate() {
        for (code, places) in COMPARISONS.iter().zip(PLACES.iter().cycle().skip(turn)) {
            let mut sheet = Sheet::default();
            let [left, right] = [0, 1].map(|at| {
                let (day, fraction) = pair[at];
                sheet.there(places[at], &date(day, fraction))
            });
            cases.push(sheet.case(&operator(*code, &[&left, &right])));
        }
    }
    cases
}
