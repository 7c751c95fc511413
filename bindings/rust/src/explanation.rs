//! Why a condition came out as it did: the tests that decide it.

use crate::codes::TestCode;
use crate::layout::*;
use crate::refusal::Refusal;
use std::fmt;

/// What a test came out as.
#[derive(Clone, Copy, PartialEq, Eq, Hash, Debug)]
pub enum Outcome {
    /// It does not hold.
    False,
    /// It holds.
    True,
    /// It cannot be told, since something that it needs is missing.
    Missing,
}

/// `true`, `false` or `missing`, as the program `explain` prints it.
impl fmt::Display for Outcome {
    fn fmt(&self, f: &mut fmt::Formatter<'_>) -> fmt::Result {
        f.pad(match self {
            Outcome::False => "false",
            Outcome::True => "true",
            Outcome::Missing => "missing",
        })
    }
}

/// A test of a condition.
#[derive(Clone, Copy, PartialEq, Eq, Hash, Debug)]
#[non_exhaustive]
pub struct Test {
    /// The place of its code in the request.
    pub place: usize,
    /// Its code.
    pub code: TestCode,
    /// What it came out as, also under a not its own outcome.
    pub outcome: Outcome,
}

/// The test in words, as `gtr at 27 is missing`.
impl fmt::Display for Test {
    fn fmt(&self, f: &mut fmt::Formatter<'_>) -> fmt::Result {
        write!(f, "{} at {} is {}", self.code, self.place, self.outcome)
    }
}

/// A row of the table. The library promises its numbers: the place of a test's code in the request, and an outcome.
fn test(request: &[u8], row: &[u32]) -> Test {
    let place = row[TEST_PLACE] as usize;
    let outcome = match row[TEST_OUTCOME] {
        0 => Outcome::False,
        1 => Outcome::True,
        _ => Outcome::Missing,
    };
    Test { place, code: TestCode::from_code(request[place]), outcome }
}

/// An explanation's one number, with its table: 7 in the lowest byte and the count of rows above 16 bits, or a refusal as an evaluation has it.
pub(crate) fn taken_apart(given: u64, tests: &[u32], request: &[u8]) -> Result<Vec<Test>, Refusal> {
    match given as u8 {
        7 => {
            let rows = tests.chunks_exact(TEST_ROW).take((given >> 16) as usize);
            Ok(rows.map(|row| test(request, row)).collect())
        }
        _ => Err(Refusal::of_request(u32::from((given >> 8) as u8), given >> 16)),
    }
}
