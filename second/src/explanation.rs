//! The explanation program.
//!
//! Document 02, No. 6: "For an evaluated boolean the tool prints the tests that decide it, in
//! reading order, a line each with place and outcome, as `27 missing`. It reads entries of kinds 4,
//! 5, 9 (the boolean's number, a word), then any of kind 10 (message bytes, joined), then of 3, then
//! of 7, in all at most 3,000,000 bytes, else `bad input`." "Where the library refuses, the tool
//! prints only that".

use crate::cases::answer_name;
use crate::evaluator::{deciders, Decider, Lent};
use crate::listing::entry;
use crate::refusal::Refusal;
use crate::wire;

/// Greatest length of an input.
pub const GREATEST_LENGTH: usize = 3_000_000;

/// What an input holds.
struct Input<'a> {
    dictionary: &'a [u8],
    request: &'a [u8],
    condition: usize,
    messages: Vec<u8>,
    records: &'a [u8],
    runs: &'a [u8],
}

/// The output for an input of bytes; every line ends with a line feed.
pub fn explanation(input: &[u8]) -> String {
    match split(input) {
        Some(input) => explain(&input),
        None => "bad input\n".to_string(),
    }
}

/// The parts of an input, if it is whole entries of the kinds due and not too long.
fn split(input: &[u8]) -> Option<Input<'_>> {
    if input.len() > GREATEST_LENGTH {
        return None;
    }
    let (dictionary, rest) = entry(input, 4)?;
    let (request, rest) = entry(rest, 5)?;
    let (number, rest) = entry(rest, 9)?;
    let condition = wire::word(number, 0).filter(|_| number.len() == 2)?;
    let (bodies, rest) = entries(rest, 10);
    let messages = bodies.concat();
    let records = &rest[..rest.len() - entries(rest, 3).1.len()];
    let rest = &rest[records.len()..];
    let runs = &rest[..rest.len() - entries(rest, 7).1.len()];
    let is_whole = runs.len() == rest.len();
    let input = Input { dictionary, request, condition: condition.into(), messages, records, runs };
    is_whole.then_some(input)
}

/// The bodies of the first entries of a kind, and the bytes behind them.
fn entries(bytes: &[u8], kind: u16) -> (Vec<&[u8]>, &[u8]) {
    let mut bodies = Vec::new();
    let mut rest = bytes;
    while let Some((body, behind)) = entry(rest, kind) {
        bodies.push(body);
        rest = behind;
    }
    (bodies, rest)
}

/// The tests that decide the condition, or its refusal.
fn explain(input: &Input) -> String {
    let lent = Lent { messages: &input.messages, records: input.records, runs: input.runs };
    let line = |test: &Decider| format!("{} {}\n", test.place, answer_name(test.answer));
    match deciders(input.request, input.dictionary, input.condition, lent) {
        Ok(tests) => tests.iter().map(line).collect(),
        Err(Refusal { number, place }) => format!("refused {number} at {place}\n"),
    }
}
