//! The three lent tables.
//!
//! Document 01: "Statement row: place, code, parent's row number plus one (outer: 0), place after
//! it. Parameter row: message, parameter, type, scale byte, offset, bytes held. Context row:
//! number, place of the stream or modify code, scope start, scope end, relation id (modify: of its
//! from-ctx). Rows stand in reading order."
//!
//! Document 02, No. 7: "Each statement row gets a fifth number, its boolean's number plus one, or 0
//! where it has none. Each context row gets a sixth, the code that opened it".

use super::parsed::{Message, Parsed};
use crate::dictionary::Dictionary;

/// The numbers in a row of statements, of parameters, of contexts.
pub const WIDTHS: [usize; 3] = [5, 6, 6];

/// The counts of rows.
#[derive(Clone, Copy, Debug, PartialEq, Eq)]
pub struct Counts {
    pub statements: u32,
    pub parameters: u32,
    pub contexts: u32,
}

/// The counts of rows of an accepted request.
pub fn counts(parsed: &Parsed) -> Counts {
    Counts {
        statements: cell(parsed.statements.len()),
        parameters: cell(parsed.parameter_count()),
        contexts: cell(parsed.contexts.len()),
    }
}

/// A number of a table; all of them are below 2^17.
fn cell(number: usize) -> u32 {
    u32::try_from(number).expect("a place or count below 2^32")
}

/// Fills the first rows of the table of statements.
pub fn fill_statements(parsed: &Parsed, table: &mut [u32]) {
    for (row, statement) in table.chunks_mut(WIDTHS[0]).zip(&parsed.statements) {
        let parent = statement.parent.map_or(0, |parent| parent + 1);
        let condition = statement.condition.map_or(0, |number| number + 1);
        row.copy_from_slice(&[
            cell(statement.place),
            u32::from(statement.code),
            cell(parent),
            cell(statement.end),
            cell(condition),
        ]);
    }
}

/// Fills the first rows of the table of parameters.
pub fn fill_parameters(parsed: &Parsed, table: &mut [u32]) {
    let rows = parsed.messages.iter().flat_map(parameter_rows);
    for (row, numbers) in table.chunks_mut(WIDTHS[1]).zip(rows) {
        row.copy_from_slice(&numbers);
    }
}

/// The rows of one message.
fn parameter_rows(message: &Message) -> Vec<[u32; 6]> {
    let row = |parameter: usize| {
        let data = message.parameters[parameter];
        [
            u32::from(message.number),
            cell(parameter),
            u32::from(data.code),
            u32::from(data.scale.to_le_bytes()[0]),
            cell(message.offset(parameter)),
            cell(data.held()),
        ]
    };
    (0..message.parameters.len()).map(row).collect()
}

/// Fills the first rows of the table of contexts.
pub fn fill_contexts(parsed: &Parsed, dictionary: &Dictionary, table: &mut [u32]) {
    for (row, context) in table.chunks_mut(WIDTHS[2]).zip(&parsed.contexts) {
        row.copy_from_slice(&[
            u32::from(context.number),
            cell(context.place),
            cell(context.start),
            cell(context.end),
            u32::from(dictionary.relations[context.relation].id),
            u32::from(context.opener),
        ]);
    }
}
