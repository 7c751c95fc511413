//! Reading of a request.
//!
//! Document 01: "Acceptance gives the counts of rows and fills three lent tables of 32-bit numbers,
//! the rest zero"; "Order: 1, 2, 3, then reading order"; "A refusal by the reader zeroes all lent
//! tables of any length". Document 02, No. 8: "5 now for a first byte other than 4 or 5".

/// Booleans and conditions.
mod boolean;
/// The bytes of a request in order: codes and fields.
mod cursor;
/// Messages and their parameters.
mod message;
/// What a reading finds.
pub mod parsed;
/// Record selection expressions and streams.
mod rse;
/// Contexts, messages and labels in scope, and greatest sizes.
mod scope;
/// Statements.
mod statement;
/// The three lent tables.
mod tables;
/// Values and targets.
mod value;

use crate::dictionary::Dictionary;
use crate::refusal::{self, refuse, Refusal};
use crate::wire::{BEGIN, END, EOC, MESSAGE, VERSION4, VERSION5};
use cursor::Cursor;
use parsed::Parsed;
use scope::Scope;

pub use tables::{Counts, WIDTHS};

/// Greatest length of a request.
pub const GREATEST_LENGTH: usize = 65_535;
/// Least lengths of the tables of statements, parameters and contexts, by No. 7 of document 02.
pub const TABLE_LENGTHS: [usize; 3] = [2560, 1536, 192];

/// Reads a request beside a dictionary and fills the lent tables.
pub fn read(
    request: &[u8],
    dictionary: &[u8],
    statements: &mut [u32],
    parameters: &mut [u32],
    contexts: &mut [u32],
) -> Result<Counts, Refusal> {
    statements.fill(0);
    parameters.fill(0);
    contexts.fill(0);
    let lengths = [statements.len(), parameters.len(), contexts.len()];
    if (0..3).any(|table| lengths[table] < TABLE_LENGTHS[table]) {
        return refuse(refusal::SHORT_TABLES, 0);
    }
    let (parsed, dictionary) = parse(request, dictionary)?;
    tables::fill_statements(&parsed, statements);
    tables::fill_parameters(&parsed, parameters);
    tables::fill_contexts(&parsed, &dictionary, contexts);
    Ok(tables::counts(&parsed))
}

/// Reads a request and gives what it holds, with the dictionary; never refuses with 1.
pub fn parse(request: &[u8], dictionary: &[u8]) -> Result<(Parsed, Dictionary), Refusal> {
    if request.len() > GREATEST_LENGTH {
        return refuse(refusal::LONG_REQUEST, 0);
    }
    let dictionary =
        Dictionary::check(dictionary).or_else(|place| refuse(refusal::BAD_DICTIONARY, place))?;
    let mut reader = Reader {
        cursor: Cursor::new(request),
        dictionary: &dictionary,
        scope: Scope::default(),
        runs: Vec::new(),
        parsed: Parsed::default(),
    };
    reader.request()?;
    let parsed = reader.parsed;
    Ok((parsed, dictionary))
}

/// A reading under way.
struct Reader<'a> {
    cursor: Cursor<'a>,
    dictionary: &'a Dictionary,
    scope: Scope,
    /// The contexts of the codes met in the present condition or from-value that go over a run.
    runs: Vec<usize>,
    parsed: Parsed,
}

impl Reader<'_> {
    /// Request: version, begin, messages, statements, end, eoc, nothing more.
    fn request(&mut self) -> Result<(), Refusal> {
        self.parsed.version = self.cursor.byte()?;
        if !matches!(self.parsed.version, VERSION4 | VERSION5) {
            return refuse(refusal::WRONG_VERSION, 0);
        }
        let place = self.cursor.place();
        self.due(BEGIN)?;
        let row = self.open_statement(place, BEGIN, None, 1)?;
        while self.cursor.peek()? == MESSAGE {
            self.message()?;
        }
        while self.cursor.peek()? != END {
            self.statement(row, 2)?;
        }
        self.due(END)?;
        self.close_statement(row);
        self.due(EOC)?;
        if !self.cursor.is_at_end() {
            return refuse(refusal::BYTES_AFTER, self.cursor.place());
        }
        Ok(())
    }

    /// One code where no other is due.
    fn due(&mut self, code: u8) -> Result<(), Refusal> {
        self.cursor.code(&[code], &[])?;
        Ok(())
    }
}
