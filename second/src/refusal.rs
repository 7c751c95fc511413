//! A refusal: a number of document 01's table "Numbers given back", or of a request of document 02,
//! and a place.

/// The first refusal met, with the place that the table gives for it.
#[derive(Clone, Copy, Debug, PartialEq, Eq)]
pub struct Refusal {
    pub number: u32,
    pub place: usize,
}

/// A refusal as an error.
pub fn refuse<T>(number: u32, place: usize) -> Result<T, Refusal> {
    Err(Refusal { number, place })
}

/// 1: the lent tables are too short.
pub const SHORT_TABLES: u32 = 1;
/// 2: the request is too long.
pub const LONG_REQUEST: u32 = 2;
/// 3: the dictionary breaks a rule or a greatest size.
pub const BAD_DICTIONARY: u32 = 3;
/// 4: the request ends early.
pub const ENDS_EARLY: u32 = 4;
/// 5: the version is neither 4 nor 5.
pub const WRONG_VERSION: u32 = 5;
/// 6: a code is not due here.
pub const NOT_DUE: u32 = 6;
/// 7: a left-out code.
pub const LEFT_OUT: u32 = 7;
/// 8: a greatest size of a request is passed.
pub const TOO_MANY: u32 = 8;
/// 9: a message is declared or selected twice, or undeclared.
pub const WRONG_MESSAGE: u32 = 9;
/// 10: there is no such parameter.
pub const NO_PARAMETER: u32 = 10;
/// 11: a context is in scope already, or not in scope.
pub const WRONG_CONTEXT: u32 = 11;
/// 12: an unknown relation or field.
pub const UNKNOWN_NAME: u32 = 12;
/// 13: kinds or scales don't fit.
pub const NO_FIT: u32 = 13;
/// 14: a statement stands where it may not, or has a wrong target.
pub const WRONG_STATEMENT: u32 = 14;
/// 15: bytes after eoc.
pub const BYTES_AFTER: u32 = 15;
/// 16: a size, scale, stream count or sort count is out of range.
pub const OUT_OF_RANGE: u32 = 16;
/// 20: there is no such boolean, or no such assignment.
pub const NO_BOOLEAN: u32 = 20;
/// 21: the message bytes are not the exact total.
pub const WRONG_MESSAGES: u32 = 21;
/// 22: the records are not as due.
pub const WRONG_RECORDS: u32 = 22;
/// 23: a varying's length is above n, or a cstring has no zero.
pub const MALFORMED_TEXT: u32 = 23;
/// 24: overflow.
pub const OVERFLOW: u32 = 24;
/// 25: a zero divisor.
pub const ZERO_DIVISOR: u32 = 25;
/// 26: the runs are not as due.
pub const WRONG_RUNS: u32 = 26;
/// 50: the store is malformed.
pub const BAD_STORE: u32 = 50;
/// 51: the store has no such position.
pub const NO_POSITION: u32 = 51;
/// 52: the record is not as due.
pub const BAD_RECORD: u32 = 52;
/// 53: there are not enough free bytes.
pub const NO_ROOM: u32 = 53;
