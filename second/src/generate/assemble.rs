//! Pieces of requests written by hand, beside the relation of `dictionaries::house`.

use crate::wire::{
    ADD, ASSIGNMENT, BEGIN, BOOLEAN, COUNT, DIVIDE, END, EOC, FID, FOR, INT64, LITERAL, LONG,
    MESSAGE, MULTIPLY, NEGATE, PARAMETER, RID, RSE, SHORT, SUBTRACT, TEXT, VERSION4,
};

/// The empty begin.
pub const NOTHING: [u8; 2] = [BEGIN, END];

/// Version 4, begin, the parts, end, eoc.
pub fn request(parts: &[&[u8]]) -> Vec<u8> {
    request_of(VERSION4, parts)
}

/// Version, begin, the parts, end, eoc.
pub fn request_of(version: u8, parts: &[&[u8]]) -> Vec<u8> {
    [&[version, BEGIN], parts.concat().as_slice(), &[END, EOC]].concat()
}

/// A message with descriptors.
pub fn message(number: u8, descriptors: &[&[u8]]) -> Vec<u8> {
    let count = (descriptors.len() as u16).to_le_bytes();
    [&[MESSAGE, number], &count[..], &descriptors.concat()].concat()
}

/// A short literal.
pub fn short(scale: i8, number: i16) -> Vec<u8> {
    let head = [LITERAL, SHORT, scale.to_le_bytes()[0]];
    [&head[..], &number.to_le_bytes()].concat()
}

/// A long literal.
pub fn long(scale: i8, number: i32) -> Vec<u8> {
    let head = [LITERAL, LONG, scale.to_le_bytes()[0]];
    [&head[..], &number.to_le_bytes()].concat()
}

/// A literal of a 64-bit integer.
pub fn int64(scale: i8, number: i64) -> Vec<u8> {
    let head = [LITERAL, INT64, scale.to_le_bytes()[0]];
    [&head[..], &number.to_le_bytes()].concat()
}

/// A text literal.
pub fn text(bytes: &[u8]) -> Vec<u8> {
    let n = (bytes.len() as u16).to_le_bytes();
    [&[LITERAL, TEXT], &n[..], bytes].concat()
}

/// A field by id.
pub fn fid(context: u8, field: u8) -> Vec<u8> {
    vec![FID, context, field, 0]
}

/// A parameter.
pub fn parameter(message: u8, number: u8) -> Vec<u8> {
    vec![PARAMETER, message, number, 0]
}

/// A code with its operands: an operator, a test, and, or, not.
pub fn operator(code: u8, operands: &[&[u8]]) -> Vec<u8> {
    [&[code], operands.concat().as_slice()].concat()
}

/// A stream by id.
pub fn rid(relation: u8, context: u8) -> Vec<u8> {
    vec![RID, relation, 0, context]
}

/// A for over streams, with clauses and a statement.
pub fn for_loop(streams: &[&[u8]], clauses: &[u8], statement: &[u8]) -> Vec<u8> {
    let head = [FOR, RSE, streams.len() as u8];
    [&head[..], &streams.concat(), clauses, &[END], statement].concat()
}

/// A code that goes over a run, with the rse of a stream and clauses.
pub fn over(code: u8, stream: &[u8], clauses: &[u8]) -> Vec<u8> {
    [&[code, RSE, 1], stream, clauses, &[END]].concat()
}

/// A statistic with the rse of a stream and clauses, and a number unless it is count.
pub fn statistic(code: u8, stream: &[u8], clauses: &[u8], number: &[u8]) -> Vec<u8> {
    let number = if code == COUNT { &[] } else { number };
    [&over(code, stream, clauses), number].concat()
}

/// A for over relation 1 in context 0, with a statement.
pub fn for_house(statement: &[u8]) -> Vec<u8> {
    for_loop(&[&rid(1, 0)], &[], statement)
}

/// A for over relation 1 in context 0 with a boolean.
pub fn condition(boolean: &[u8]) -> Vec<u8> {
    for_loop(&[&rid(1, 0)], &[&[BOOLEAN], boolean].concat(), &NOTHING)
}

/// An assignment.
pub fn assignment(from: &[u8], to: &[u8]) -> Vec<u8> {
    [&[ASSIGNMENT], from, to].concat()
}

/// An expression of 2^62.
pub fn two_to_62() -> Vec<u8> {
    operator(MULTIPLY, &[&long(0, i32::MIN), &long(0, i32::MIN)])
}

/// An expression of 2^63 - 1.
pub fn greatest() -> Vec<u8> {
    let less_one = operator(SUBTRACT, &[&two_to_62(), &short(0, 1)]);
    operator(ADD, &[&two_to_62(), &less_one])
}

/// An expression of -2^63.
pub fn least() -> Vec<u8> {
    operator(MULTIPLY, &[&two_to_62(), &short(0, -2)])
}

/// An expression of a number of scale -18.
pub fn scale_18(number: i16) -> Vec<u8> {
    operator(MULTIPLY, &[&short(-9, number), &short(-9, 1)])
}

/// Expressions at the ends of the range, on both sides of overflow and of a zero divisor.
pub fn edge_values() -> Vec<Vec<u8>> {
    let one = short(0, 1);
    let less = short(0, -1);
    let zero = short(0, 0);
    vec![
        greatest(),
        operator(ADD, &[&greatest(), &one]),
        least(),
        operator(SUBTRACT, &[&least(), &one]),
        operator(NEGATE, &[&greatest()]),
        operator(NEGATE, &[&least()]),
        operator(DIVIDE, &[&least(), &less]),
        operator(DIVIDE, &[&least(), &one]),
        operator(DIVIDE, &[&greatest(), &less]),
        operator(MULTIPLY, &[&least(), &less]),
        operator(MULTIPLY, &[&greatest(), &less]),
        operator(DIVIDE, &[&short(0, -7), &short(0, 2)]),
        operator(DIVIDE, &[&short(-9, 7), &short(-9, -2)]),
        operator(DIVIDE, &[&one, &zero]),
        operator(DIVIDE, &[&zero, &zero]),
        operator(DIVIDE, &[&least(), &zero]),
        operator(DIVIDE, &[&fid(0, 0), &fid(0, 0)]),
        operator(DIVIDE, &[&fid(0, 2), &short(-1, 0)]),
        operator(ADD, &[&short(0, 9), &scale_18(1)]),
        operator(ADD, &[&short(0, 10), &scale_18(1)]),
        operator(SUBTRACT, &[&scale_18(1), &short(0, -9)]),
        operator(SUBTRACT, &[&scale_18(-1), &short(0, 10)]),
        operator(ADD, &[&fid(0, 1), &scale_18(-1)]),
        operator(MULTIPLY, &[&fid(0, 1), &two_to_62()]),
    ]
}
