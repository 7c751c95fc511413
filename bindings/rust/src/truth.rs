//! What a condition comes out as, and what the value of an assignment does.

use crate::refusal::Refusal;
use std::fmt;

/// What a condition comes out as. There are these three and no more: a caller has to say what it does with a missing answer.
#[derive(Clone, Copy, PartialEq, Eq, Hash, Debug)]
pub enum Truth {
    /// The condition does not hold.
    False,
    /// The condition holds.
    True,
    /// It cannot be told, since something that it needs is missing: the cause is that of the first missing operand in reading
    /// order.
    Missing(Cause),
}

impl Truth {
    /// Whether the condition holds: `false` where it does not, and where it cannot be told.
    pub fn is_true(self) -> bool {
        self == Truth::True
    }

    /// The cause of a missing answer.
    pub fn cause(self) -> Option<Cause> {
        match self {
            Truth::Missing(cause) => Some(cause),
            _ => None,
        }
    }
}

/// `true`, `false` or `missing`, as the program `evaluate` prints it.
impl fmt::Display for Truth {
    fn fmt(&self, f: &mut fmt::Formatter<'_>) -> fmt::Result {
        f.pad(match self {
            Truth::False => "false",
            Truth::True => "true",
            Truth::Missing(_) => "missing",
        })
    }
}

/// Why a value is missing. A later version may have more causes.
#[derive(Clone, Copy, PartialEq, Eq, Hash, Debug)]
#[non_exhaustive]
pub enum Cause {
    /// The missing bit of a field is set: nobody filled it.
    Bit,
    /// A reading is 65535: the node could not measure.
    Reading,
    /// The flag of a parameter says that it is missing.
    Flag,
    /// An average, a maximum or a minimum goes over no record that has a value for it.
    Nothing,
    /// A number that this version of the crate has no name for.
    Unlisted(u8),
}

impl Cause {
    /// The cause of a number.
    pub fn from_number(number: u8) -> Cause {
        match number {
            1 => Cause::Bit,
            2 => Cause::Reading,
            3 => Cause::Flag,
            4 => Cause::Nothing,
            other => Cause::Unlisted(other),
        }
    }

    /// The number that C has for it.
    pub fn number(self) -> u8 {
        match self {
            Cause::Bit => 1,
            Cause::Reading => 2,
            Cause::Flag => 3,
            Cause::Nothing => 4,
            Cause::Unlisted(number) => number,
        }
    }
}

impl fmt::Display for Cause {
    fn fmt(&self, f: &mut fmt::Formatter<'_>) -> fmt::Result {
        f.pad(match self {
            Cause::Bit => "the missing bit of a field is set",
            Cause::Reading => "a reading is 65535: the node could not measure",
            Cause::Flag => "the flag of a parameter says that it is missing",
            Cause::Nothing => "an average, maximum or minimum has no value to go over",
            Cause::Unlisted(_) => "a number that is no cause of this version",
        })
    }
}

/// An evaluation's one number: the answer in its lowest byte, the cause or the number of a refusal in the next, the place above.
pub(crate) fn taken_apart(given: u64) -> Result<Truth, Refusal> {
    let second = (given >> 8) as u8;
    match given as u8 {
        0 => Ok(Truth::False),
        1 => Ok(Truth::True),
        2 => Ok(Truth::Missing(Cause::from_number(second))),
        _ => Err(Refusal::of_request(u32::from(second), given >> 16)),
    }
}

/// What the value of an assignment comes out as. There are these four and no more: a caller has to say what it does with a missing
/// one.
#[derive(Clone, Copy, PartialEq, Eq, Hash, Debug)]
pub enum Answer<'a> {
    /// A number and its scale: 301 and -1 are 30.1.
    Number(i64, i8),
    /// A text, where it stands in what was given, without the blanks at its end.
    Text(&'a [u8]),
    /// A date: a day and a fraction.
    Date(i32, u32),
    /// It cannot be told, since something that it needs is missing: the cause is that of the first missing operand in reading order.
    Missing(Cause),
}

impl Answer<'_> {
    /// The number and its scale, of a number alone.
    pub fn number(self) -> Option<(i64, i8)> {
        match self {
            Answer::Number(number, scale) => Some((number, scale)),
            _ => None,
        }
    }

    /// The cause of a missing value.
    pub fn cause(self) -> Option<Cause> {
        match self {
            Answer::Missing(cause) => Some(cause),
            _ => None,
        }
    }
}

/// What was given to the evaluation of a value, which a text may stand in.
pub(crate) struct Given<'a> {
    pub request: &'a [u8],
    pub messages: &'a [u8],
    pub records: &'a [u8],
    pub runs: &'a [u8],
}

/// The number and the three numbers of a value's evaluation. Those of a text are what it stands in, numbered as the header's inputs, and
/// two places there; of a number value and scale; of a date day and fraction.
pub(crate) fn value_taken_apart<'a>(
    given: u64,
    answer: [i64; 3],
    all: &Given<'a>,
) -> Result<Answer<'a>, Refusal> {
    let second = (given >> 8) as u8;
    // The library promises that each number fits where it goes, so that the casts lose nothing, and that a text stands inside
    // what was given.
    match given as u8 {
        2 => Ok(Answer::Missing(Cause::from_number(second))),
        4 => Ok(Answer::Number(answer[0], answer[1] as i8)),
        5 => {
            let bytes = match answer[0] {
                2 => all.messages,
                3 => all.records,
                4 => all.runs,
                _ => all.request,
            };
            Ok(Answer::Text(&bytes[answer[1] as usize..answer[2] as usize]))
        }
        6 => Ok(Answer::Date(answer[0] as i32, answer[1] as u32)),
        _ => Err(Refusal::of_request(u32::from(second), given >> 16)),
    }
}
