//! The listing program.
//!
//! Document 01: "The listing program reads an entry of kind 4 (dictionary), then kind 5 (request);
//! a length, four-, six- and five-number rows as above"; "A refusal prints only `refused 11 at
//! 18`; input that isn't these two entries, `bad input`." A length word counts the whole entry, so
//! a body has at most 65,531 bytes. By No. 7 of document 02 rows have five, six and six numbers.

use crate::reader::{self, TABLE_LENGTHS, WIDTHS};
use crate::wire;
use std::fmt::Write;

/// The output for an input of bytes; every line ends with a line feed.
pub fn listing(input: &[u8]) -> String {
    match split(input) {
        Some((dictionary, request)) => list(dictionary, request),
        None => "bad input\n".to_string(),
    }
}

/// The bodies of the two entries, if the input is these and nothing more.
fn split(input: &[u8]) -> Option<(&[u8], &[u8])> {
    let (dictionary, rest) = entry(input, 4)?;
    let (request, rest) = entry(rest, 5)?;
    Some((dictionary, request)).filter(|_| rest.is_empty())
}

/// The body of the first entry, if it is whole and of this kind, and the bytes behind it.
pub fn entry(bytes: &[u8], kind: u16) -> Option<(&[u8], &[u8])> {
    let length = usize::from(wire::word(bytes, 0)?);
    if length < 4 || length > bytes.len() || wire::word(bytes, 2) != Some(kind) {
        return None;
    }
    Some((&bytes[4..length], &bytes[length..]))
}

/// The rows of a request, or its refusal.
fn list(dictionary: &[u8], request: &[u8]) -> String {
    let [mut statements, mut parameters, mut contexts] =
        TABLE_LENGTHS.map(|length| vec![0; length]);
    let result = reader::read(request, dictionary, &mut statements, &mut parameters, &mut contexts);
    let mut output = String::new();
    match result {
        Ok(counts) => {
            write_line(&mut output, &format!("request {}", request.len()));
            write_rows(&mut output, "statement", &statements, WIDTHS[0], counts.statements);
            write_rows(&mut output, "parameter", &parameters, WIDTHS[1], counts.parameters);
            write_rows(&mut output, "context", &contexts, WIDTHS[2], counts.contexts);
        }
        Err(refusal) => {
            write_line(&mut output, &format!("refused {} at {}", refusal.number, refusal.place));
        }
    }
    output
}

fn write_line(output: &mut String, line: &str) {
    writeln!(output, "{line}").expect("a string takes all writes");
}

/// One line for each of the first rows of a table.
fn write_rows(output: &mut String, name: &str, table: &[u32], width: usize, count: u32) {
    for row in table.chunks(width).take(count as usize) {
        let numbers: Vec<String> = row.iter().map(u32::to_string).collect();
        write_line(output, &format!("{name} {}", numbers.join(" ")));
    }
}
