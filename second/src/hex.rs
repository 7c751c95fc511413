//! Byte strings as text.
//!
//! Lower-case hex digits; the empty string is `-`; a run of 64 or more equal bytes is written
//! `(bb*count)`.

use std::fmt::Write;

/// The least run that is abbreviated.
const LEAST_RUN: usize = 64;

/// A byte string as text.
pub fn write(bytes: &[u8]) -> String {
    if bytes.is_empty() {
        return "-".to_string();
    }
    let mut output = String::new();
    let mut at = 0;
    while at < bytes.len() {
        let run = bytes[at..].iter().take_while(|byte| **byte == bytes[at]).count();
        write_run(&mut output, bytes[at], run);
        at += run;
    }
    output
}

/// One run of equal bytes.
fn write_run(output: &mut String, byte: u8, count: usize) {
    let digits = format!("{byte:02x}");
    let written = if count < LEAST_RUN {
        write!(output, "{}", digits.repeat(count))
    } else {
        write!(output, "({digits}*{count})")
    };
    written.expect("a string takes all writes");
}

/// The byte string of a text, or nothing if it isn't one.
pub fn read(text: &str) -> Option<Vec<u8>> {
    if text == "-" {
        return Some(Vec::new());
    }
    let mut bytes = Vec::new();
    let mut rest = text;
    while !rest.is_empty() {
        rest = match rest.strip_prefix('(') {
            Some(run) => read_run(run, &mut bytes)?,
            None => read_byte(rest, &mut bytes)?,
        };
    }
    Some(bytes)
}

/// Two digits; gives the text behind them.
fn read_byte<'a>(text: &'a str, bytes: &mut Vec<u8>) -> Option<&'a str> {
    let digits = text.get(..2).filter(|digits| !digits.starts_with('+'))?;
    bytes.push(u8::from_str_radix(digits, 16).ok()?);
    text.get(2..)
}

/// The part of a run behind its bracket; gives the text behind it.
fn read_run<'a>(text: &'a str, bytes: &mut Vec<u8>) -> Option<&'a str> {
    let (run, rest) = text.split_once(')')?;
    let (digits, count) = run.split_once('*')?;
    let byte = u8::from_str_radix(digits, 16).ok()?;
    let count: usize = count.parse().ok()?;
    bytes.resize(bytes.len() + count, byte);
    Some(rest)
}
