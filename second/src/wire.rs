//! Numbers and codes as they stand in a request.
//!
//! "Words are little-endian" (document 01). The codes have their names of the public InterBase
//! header blr.h, without the prefix `blr_`.

/// The word at a place, or nothing if it isn't whole.
pub fn word(bytes: &[u8], at: usize) -> Option<u16> {
    let low = *bytes.get(at)?;
    let high = *bytes.get(at + 1)?;
    Some(u16::from(low) + 256 * u16::from(high))
}

/// The four-byte number at a place, or nothing if it isn't whole.
pub fn four_bytes(bytes: &[u8], at: usize) -> Option<u32> {
    let low = word(bytes, at)?;
    let high = word(bytes, at + 2)?;
    Some(u32::from(low) + 65536 * u32::from(high))
}

/// The signed eight-byte number at a place, or nothing if it isn't whole.
pub fn signed_eight_bytes(bytes: &[u8], at: usize) -> Option<i64> {
    let mut number = [0; 8];
    number.copy_from_slice(bytes.get(at..at + 8)?);
    Some(i64::from_le_bytes(number))
}

/// A byte read as a signed number from -128 to 127.
pub fn signed_byte(byte: u8) -> i8 {
    i8::from_le_bytes([byte])
}

/// A word read as a signed number.
pub fn signed_word(word: u16) -> i16 {
    i16::from_le_bytes(word.to_le_bytes())
}

/// A four-byte number read as a signed number.
pub fn signed_four_bytes(number: u32) -> i32 {
    i32::from_le_bytes(number.to_le_bytes())
}

pub const VERSION4: u8 = 4;
pub const VERSION5: u8 = 5;
pub const EOC: u8 = 76;
pub const END: u8 = 255;

// Statements.
pub const ASSIGNMENT: u8 = 1;
pub const BEGIN: u8 = 2;
pub const MESSAGE: u8 = 4;
pub const ERASE: u8 = 5;
pub const FOR: u8 = 7;
pub const IF: u8 = 8;
pub const LOOP: u8 = 9;
pub const MODIFY: u8 = 10;
pub const HANDLER: u8 = 11;
pub const RECEIVE: u8 = 12;
pub const SELECT: u8 = 13;
pub const SEND: u8 = 14;
pub const STORE: u8 = 15;
pub const LABEL: u8 = 17;
pub const LEAVE: u8 = 18;

// Values.
pub const LITERAL: u8 = 21;
pub const FIELD: u8 = 23;
pub const FID: u8 = 24;
pub const PARAMETER: u8 = 25;
pub const AVERAGE: u8 = 27;
pub const COUNT: u8 = 28;
pub const MAXIMUM: u8 = 29;
pub const MINIMUM: u8 = 30;
pub const TOTAL: u8 = 31;
pub const ADD: u8 = 34;
pub const SUBTRACT: u8 = 35;
pub const MULTIPLY: u8 = 36;
pub const DIVIDE: u8 = 37;
pub const NEGATE: u8 = 38;
pub const PARAMETER2: u8 = 41;

// Booleans.
pub const EQL: u8 = 47;
pub const NEQ: u8 = 48;
pub const GTR: u8 = 49;
pub const GEQ: u8 = 50;
pub const LSS: u8 = 51;
pub const LEQ: u8 = 52;
pub const CONTAINING: u8 = 53;
pub const MATCHING: u8 = 54;
pub const STARTING: u8 = 55;
pub const BETWEEN: u8 = 56;
pub const OR: u8 = 57;
pub const AND: u8 = 58;
pub const NOT: u8 = 59;
pub const ANY: u8 = 60;
pub const MISSING: u8 = 61;
pub const UNIQUE: u8 = 62;

// Record selection expressions.
pub const RSE: u8 = 67;
pub const SORT: u8 = 70;
pub const BOOLEAN: u8 = 71;
pub const ASCENDING: u8 = 72;
pub const DESCENDING: u8 = 73;
pub const RELATION: u8 = 74;
pub const RID: u8 = 75;

// Data types; a reading is a house type, in dictionaries only.
pub const SHORT: u8 = 7;
pub const LONG: u8 = 8;
pub const TEXT: u8 = 14;
/// A 64-bit integer, by No. 8 of document 02.
pub const INT64: u8 = 16;
pub const DATE: u8 = 35;
pub const VARYING: u8 = 37;
pub const CSTRING: u8 = 40;
pub const READING: u8 = 200;

/// The statements that document 01 takes.
pub const STATEMENTS: [u8; 14] = [
    ASSIGNMENT, BEGIN, ERASE, FOR, IF, LOOP, MODIFY, HANDLER, RECEIVE, SELECT, SEND, STORE, LABEL,
    LEAVE,
];
/// The values that document 01 takes, and the statistics of No. 9 of document 02.
pub const VALUES: [u8; 15] = [
    LITERAL, FIELD, FID, PARAMETER, ADD, SUBTRACT, MULTIPLY, DIVIDE, NEGATE, PARAMETER2, AVERAGE,
    COUNT, MAXIMUM, MINIMUM, TOTAL,
];
/// The statistics.
pub const STATISTICS: [u8; 5] = [AVERAGE, COUNT, MAXIMUM, MINIMUM, TOTAL];
/// The values that may be a target.
pub const TARGETS: [u8; 4] = [FIELD, FID, PARAMETER, PARAMETER2];
/// The booleans that document 01 takes, and any and unique by No. 4 of document 02.
pub const BOOLEANS: [u8; 16] = [
    EQL, NEQ, GTR, GEQ, LSS, LEQ, CONTAINING, MATCHING, STARTING, BETWEEN, OR, AND, NOT, MISSING,
    ANY, UNIQUE,
];
/// The streams that document 01 takes.
pub const STREAMS: [u8; 2] = [RELATION, RID];
/// The types of a message's parameters in version 4.
pub const DESCRIPTORS: [u8; 6] = [SHORT, LONG, TEXT, DATE, VARYING, CSTRING];
/// The types of a message's parameters in version 5.
pub const DESCRIPTORS5: [u8; 7] = [SHORT, LONG, TEXT, INT64, DATE, VARYING, CSTRING];
/// The types of literals in version 4.
pub const LITERALS: [u8; 3] = [SHORT, LONG, TEXT];
/// The types of literals in version 5.
pub const LITERALS5: [u8; 4] = [SHORT, LONG, TEXT, INT64];

/// The types of a message's parameters in a version.
pub fn descriptors(version: u8) -> &'static [u8] {
    match version {
        VERSION5 => &DESCRIPTORS5,
        _ => &DESCRIPTORS,
    }
}

/// The types of literals in a version.
pub fn literals(version: u8) -> &'static [u8] {
    match version {
        VERSION5 => &LITERALS5,
        _ => &LITERALS,
    }
}

// The codes left out, each refused by name in its own kind of place.
/// dcl_variable, fetch, store2, post.
pub const LEFT_OUT_STATEMENTS: [u8; 4] = [3, 6, 19, 20];
/// dbkey, variable, concatenate, substring, from, via, user_name, null.
pub const LEFT_OUT_VALUES: [u8; 8] = [22, 26, 39, 40, 42, 43, 44, 45];
/// like.
pub const LEFT_OUT_BOOLEANS: [u8; 1] = [63];
/// union, aggregate.
pub const LEFT_OUT_STREAMS: [u8; 2] = [76, 79];
/// first, project.
pub const LEFT_OUT_CLAUSES: [u8; 2] = [68, 69];
/// quad, float, d_float, double.
pub const LEFT_OUT_DESCRIPTORS: [u8; 4] = [9, 10, 11, 27];
/// The same, and date, varying and cstring.
pub const LEFT_OUT_LITERALS: [u8; 7] = [9, 10, 11, 27, DATE, VARYING, CSTRING];
