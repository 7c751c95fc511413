//! Dictionaries, requests and their rows.

use crate::codes::{Opener, StatementCode, Type};
use crate::explanation::{self, Test};
use crate::ffi;
use crate::layout::*;
use crate::refusal::Refusal;
use crate::truth::{self, Answer, Given, Truth};
use std::ops::Range;
use std::slice::ChunksExact;

/// A house dictionary that has been found proper: the relations and fields that requests and records are read beside.
///
/// ```
/// use greenblr::{Dictionary, Reason};
///
/// // relation 1 BEDS; its field 0, HEAT, a reading of scale -1
/// let bytes = b"\x0b\0\x01\0\x01\0\x04BEDS\x0f\0\x02\0\0\0\xc8\xff\x02\0\x04HEAT";
/// let dictionary = Dictionary::new(bytes)?;
/// assert_eq!(dictionary.bytes(), bytes);
///
/// let refusal = Dictionary::new(&bytes[..20]).unwrap_err();
/// assert_eq!(refusal.reason(), Reason::BadDictionary);
/// assert_eq!(refusal.place(), 11); // the entry of HEAT is cut short
/// # Ok::<(), greenblr::Refusal>(())
/// ```
#[derive(Clone, Copy, PartialEq, Eq, Debug)]
pub struct Dictionary<'a> {
    bytes: &'a [u8],
}

impl<'a> Dictionary<'a> {
    /// A dictionary of these bytes, or refusal 3.
    ///
    /// # Panics
    ///
    /// Where the linked library is not of this crate's version: its rows could be others.
    pub fn new(bytes: &'a [u8]) -> Result<Dictionary<'a>, Refusal> {
        let (library, due) = (crate::library_version(), env!("CARGO_PKG_VERSION"));
        assert!(library == due, "libgreenblr.a is of version {library}, and {due} is due");
        // A store's call tests the dictionary first, and finds no store in no bytes.
        match ffi::store_read(bytes, &[]) {
            Err((3, place)) => Err(Refusal::of_request(3, place)),
            _ => Ok(Dictionary { bytes }),
        }
    }

    /// The bytes of the dictionary.
    pub fn bytes(&self) -> &'a [u8] {
        self.bytes
    }
}

/// An accepted request: it keeps the grammar and the rules of scope, kind and size beside its dictionary.
///
/// ```
/// use greenblr::{Dictionary, Request, StatementCode, Type};
///
/// let dictionary = Dictionary::new(b"\x0b\0\x01\0\x01\0\x04BEDS\x0f\0\x02\0\0\0\xc8\xff\x02\0\x04HEAT")?;
/// // for each bed whose heat is above 30.0, send 1
/// let bytes = [
///     4, 2, 4, 0, 1, 0, 7, 0, 7, 67, 1, 75, 1, 0, 0, 71, 49, 24, 0, 0, 0, 21, 7, 255, 44, 1, 255,
///     14, 0, 1, 21, 7, 0, 1, 0, 25, 0, 0, 0, 255, 76,
/// ];
/// let request = Request::read(&dictionary, &bytes)?;
///
/// let codes: Vec<_> = request.statements().map(|s| s.code).collect();
/// assert_eq!(
///     codes,
///     [StatementCode::Begin, StatementCode::For, StatementCode::Send, StatementCode::Assignment]
/// );
/// let parameter = request.parameters().next().unwrap();
/// assert_eq!((parameter.message, parameter.kind, parameter.scale), (0, Type::Short, 0));
/// let context = request.contexts().next().unwrap();
/// assert_eq!((context.number, context.relation, context.scope), (0, 1, 15..39));
/// # Ok::<(), greenblr::Refusal>(())
/// ```
#[derive(Clone, PartialEq, Eq, Debug)]
pub struct Request<'a> {
    dictionary: Dictionary<'a>,
    bytes: &'a [u8],
    statements: Vec<u32>,
    parameters: Vec<u32>,
    contexts: Vec<u32>,
}

impl<'a> Request<'a> {
    /// Reads a request beside a dictionary: the rows of its statements, parameters and contexts, or a refusal, 2 or 4 to 16.
    ///
    /// Any bytes may be given. The library uses up to 135 kilobytes of stack for the requests that were tried; that is measured
    /// and not proved.
    pub fn read(dictionary: &Dictionary<'a>, bytes: &'a [u8]) -> Result<Request<'a>, Refusal> {
        let mut statements = vec![0; STATEMENT_TABLE];
        let mut parameters = vec![0; PARAMETER_TABLE];
        let mut contexts = vec![0; CONTEXT_TABLE];
        let [s, p, c] =
            ffi::read(bytes, dictionary.bytes, &mut statements, &mut parameters, &mut contexts)
                .map_err(|(number, place)| Refusal::of_request(number, place))?;
        statements.truncate(s * STATEMENT_ROW);
        parameters.truncate(p * PARAMETER_ROW);
        contexts.truncate(c * CONTEXT_ROW);
        Ok(Request { dictionary: *dictionary, bytes, statements, parameters, contexts })
    }

    /// The bytes of the request.
    pub fn bytes(&self) -> &'a [u8] {
        self.bytes
    }

    /// The dictionary that it was read beside.
    pub fn dictionary(&self) -> Dictionary<'a> {
        self.dictionary
    }

    /// The statements in reading order, the outer begin first.
    pub fn statements(&self) -> Statements<'_> {
        Statements(self.statements.chunks_exact(STATEMENT_ROW))
    }

    /// The parameters of all messages in reading order.
    pub fn parameters(&self) -> Parameters<'_> {
        Parameters(self.parameters.chunks_exact(PARAMETER_ROW))
    }

    /// The contexts in reading order.
    pub fn contexts(&self) -> Contexts<'_> {
        Contexts(self.contexts.chunks_exact(CONTEXT_ROW))
    }

    /// Evaluates a condition by its number: from 0 in reading order, those inside another condition not counted.
    ///
    /// `messages` are the bytes of all messages in declaration order, joined; `records` one record's entry for each context in
    /// scope at the condition in declaration order, joined ([`record`](crate::record()) makes one). Refusals are 20 to 25, and 26 where the
    /// condition has an any, a unique or a statistic: [`evaluate_over`](Request::evaluate_over) takes their runs.
    ///
    /// ```
    /// use greenblr::{record, Cause, Dictionary, Field, Request, Truth};
    ///
    /// let dictionary = Dictionary::new(b"\x0b\0\x01\0\x01\0\x04BEDS\x0f\0\x02\0\0\0\xc8\xff\x02\0\x04HEAT")?;
    /// // for each bed whose heat is above 30.0, send 1
    /// let bytes = [
    ///     4, 2, 4, 0, 1, 0, 7, 0, 7, 67, 1, 75, 1, 0, 0, 71, 49, 24, 0, 0, 0, 21, 7, 255, 44, 1, 255,
    ///     14, 0, 1, 21, 7, 0, 1, 0, 25, 0, 0, 0, 255, 76,
    /// ];
    /// let request = Request::read(&dictionary, &bytes)?;
    /// let heat = |stored| request.evaluate(0, &[0, 0], &record(1, &[Field::Reading(stored)]));
    /// assert_eq!(heat(301)?, Truth::True);
    /// assert_eq!(heat(300)?, Truth::False);
    /// assert_eq!(heat(65535)?, Truth::Missing(Cause::Reading)); // the node could not measure
    /// # Ok::<(), greenblr::Refusal>(())
    /// ```
    ///
    /// A request of version 5 may name fields of eight bytes:
    ///
    /// ```
    /// use greenblr::{codes, record, Cause, Dictionary, Field, Request, Truth};
    ///
    /// // relation 1 BEDS; its field 0, DROPS, a number of type 16
    /// let dictionary = Dictionary::new(b"\x0b\0\x01\0\x01\0\x04BEDS\x10\0\x02\0\0\0\x10\0\x08\0\x05DROPS")?;
    /// // for each bed that has had over a billion drops, nothing
    /// let bytes = [
    ///     codes::VERSION5, 2, 7, 67, 1, 75, 1, 0, 0, 71, 49, 24, 0, 0, 0, 21, 8, 0, 0x00, 0xca, 0x9a,
    ///     0x3b, 255, 2, 255, 255, 76,
    /// ];
    /// let request = Request::read(&dictionary, &bytes)?;
    /// let drops = |field| request.evaluate(0, &[], &record(1, &[field]));
    /// assert_eq!(drops(Field::Int64(5_000_000_000))?, Truth::True);
    /// assert_eq!(drops(Field::Int64(65535))?, Truth::False); // a number as any other
    /// assert_eq!(drops(Field::Missing(8))?, Truth::Missing(Cause::Bit));
    /// # Ok::<(), greenblr::Refusal>(())
    /// ```
    pub fn evaluate(
        &self,
        condition: usize,
        messages: &[u8],
        records: &[u8],
    ) -> Result<Truth, Refusal> {
        self.evaluate_over(condition, messages, records, &[])
    }

    /// Evaluates a condition with any, unique and statistics in it over runs: `runs` are an entry of kind 7 for each of them, in the
    /// order of their codes, those in sorts left out, joined ([`run`](crate::run()) makes one). All else is as with [`evaluate`](Request::evaluate); 26 is refused too.
    ///
    /// Is any bed above thirty?
    ///
    /// ```
    /// use greenblr::{codes, record, run, Dictionary, Field, Request, Truth};
    ///
    /// let dictionary = Dictionary::new(b"\x0b\0\x01\0\x01\0\x04BEDS\x0f\0\x02\0\0\0\xc8\xff\x02\0\x04HEAT")?;
    /// // if any bed's heat is above 30.0, nothing
    /// let bytes = [
    ///     4, 2, 8, codes::ANY, 67, 1, 75, 1, 0, 0, 71, 49, 24, 0, 0, 0, 21, 7, 255, 44, 1, 255, 2, 255, 255,
    ///     255, 76,
    /// ];
    /// let request = Request::read(&dictionary, &bytes)?;
    /// let house = |heats: &[u16]| {
    ///     let beds: Vec<_> = heats.iter().map(|heat| record(1, &[Field::Reading(*heat)])).collect();
    ///     request.evaluate_over(0, &[], &[], &run(&beds))
    /// };
    /// assert_eq!(house(&[300, 301, 65535])?, Truth::True);
    /// assert_eq!(house(&[300, 65535])?, Truth::False); // a bed that could not measure is not above thirty
    /// assert_eq!(house(&[])?, Truth::False);
    /// # Ok::<(), greenblr::Refusal>(())
    /// ```
    pub fn evaluate_over(
        &self,
        condition: usize,
        messages: &[u8],
        records: &[u8],
        runs: &[u8],
    ) -> Result<Truth, Refusal> {
        let Request { bytes, dictionary, .. } = self;
        truth::taken_apart(ffi::evaluate(
            bytes,
            dictionary.bytes,
            condition,
            messages,
            records,
            runs,
        ))
    }

    /// Evaluates the value that an assignment puts into its target, by the assignment's position among the
    /// [`statements`](Request::statements), from 0.
    ///
    /// `messages`, `records` and `runs` are as with [`evaluate_over`](Request::evaluate_over): a record for each context in scope at the
    /// assignment, that of its store or modify among them, and a run for each any, unique and statistic of the value. The target is not
    /// looked at. Refusals are 20 to 26; 20 if the statement is no assignment.
    ///
    /// The average of all beds, which leaves out a node that could not measure:
    ///
    /// ```
    /// use greenblr::{codes, record, run, Answer, Cause, Dictionary, Field, Request};
    ///
    /// let dictionary = Dictionary::new(b"\x0b\0\x01\0\x01\0\x04BEDS\x0f\0\x02\0\0\0\xc8\xff\x02\0\x04HEAT")?;
    /// // send the average heat of the beds; the assignment is the third statement
    /// let bytes = [
    ///     4, 2, 4, 0, 1, 0, 8, 255, 14, 0, 1, codes::AVERAGE, 67, 1, 75, 1, 0, 0, 255, 24, 0, 0, 0, 25, 0, 0,
    ///     0, 255, 76,
    /// ];
    /// let request = Request::read(&dictionary, &bytes)?;
    /// let house = |heats: &[u16]| {
    ///     let beds: Vec<_> = heats.iter().map(|heat| record(1, &[Field::Reading(*heat)])).collect();
    ///     run(&beds)
    /// };
    /// let all = house(&[290, 65535, 301]);
    /// assert_eq!(request.evaluate_value(2, &[0; 4], &[], &all)?, Answer::Number(295, -1)); // 29.5
    /// let none = house(&[65535]);
    /// assert_eq!(request.evaluate_value(2, &[0; 4], &[], &none)?, Answer::Missing(Cause::Nothing));
    /// # Ok::<(), greenblr::Refusal>(())
    /// ```
    pub fn evaluate_value<'b>(
        &self,
        assignment: usize,
        messages: &'b [u8],
        records: &'b [u8],
        runs: &'b [u8],
    ) -> Result<Answer<'b>, Refusal>
    where
        'a: 'b,
    {
        let Request { bytes, dictionary, .. } = self;
        let (given, answer) =
            ffi::evaluate_value(bytes, dictionary.bytes, assignment, messages, records, runs);
        truth::value_taken_apart(given, answer, &Given { request: bytes, messages, records, runs })
    }

    /// Explains a condition by its number: the tests that decide it, in reading order, one at least.
    ///
    /// `messages`, `records` and `runs` are as with [`evaluate_over`](Request::evaluate_over), and so are the refusals. Each boolean but or, and
    /// and not is one test. A false and is decided by the tests of its first false side, a true or by those of its first true side, and every
    /// other and and or by those of both; a not by those of the boolean after it. Whatever the tests not listed came out as, the condition
    /// would come out the same; that is proved.
    ///
    /// Why was a bed left out? It is watered where it is warm enough, and dry or not measured:
    ///
    /// ```
    /// use greenblr::{record, Dictionary, Field, Request};
    ///
    /// // relation 1 BEDS; its fields WET and HEAT, readings of scale -1
    /// let dictionary = Dictionary::new(
    ///     b"\x0b\0\x01\0\x01\0\x04BEDS\x0e\0\x02\0\0\0\xc8\xff\x02\0\x03WET\x0f\0\x02\0\x01\0\xc8\xff\x02\0\x04HEAT",
    /// )?;
    /// // for each bed whose heat is above 5.0, and which is below 25.0 wet or whose wet is missing, nothing
    /// let bytes = [
    ///     4, 2, 7, 67, 1, 75, 1, 0, 0, 71, 58, 49, 24, 0, 1, 0, 21, 7, 255, 50, 0, 57, 51, 24, 0, 0, 0, 21, 7,
    ///     255, 250, 0, 61, 24, 0, 0, 0, 255, 2, 255, 255, 76,
    /// ];
    /// let request = Request::read(&dictionary, &bytes)?;
    /// let why = |wet, heat| {
    ///     let bed = record(1, &[Field::Reading(wet), Field::Reading(heat)]);
    ///     let tests = request.explain(0, &[], &bed, &[])?;
    ///     Ok::<_, greenblr::Refusal>(tests.iter().map(ToString::to_string).collect::<Vec<_>>())
    /// };
    /// assert_eq!(why(310, 120)?, ["lss at 22 is false", "missing at 32 is false"]); // it is wet
    /// assert_eq!(why(200, 40)?, ["gtr at 11 is false"]); // it is cold
    /// assert_eq!(why(200, 65535)?, ["gtr at 11 is missing", "lss at 22 is true"]);
    /// assert_eq!(why(65535, 120)?, ["gtr at 11 is true", "missing at 32 is true"]); // it is watered
    /// # Ok::<(), greenblr::Refusal>(())
    /// ```
    pub fn explain(
        &self,
        condition: usize,
        messages: &[u8],
        records: &[u8],
        runs: &[u8],
    ) -> Result<Vec<Test>, Refusal> {
        let Request { bytes, dictionary, .. } = self;
        let mut tests = vec![0; TEST_TABLE];
        let given =
            ffi::explain(bytes, dictionary.bytes, condition, messages, records, runs, &mut tests);
        explanation::taken_apart(given, &tests, bytes)
    }
}

/// A statement of a request.
#[derive(Clone, PartialEq, Eq, Hash, Debug)]
#[non_exhaustive]
pub struct Statement {
    /// The place of its code in the request.
    pub place: usize,
    /// Its code.
    pub code: StatementCode,
    /// The position, among the statements, of the one that holds it; none for the outer begin.
    pub parent: Option<usize>,
    /// The place after it.
    pub end: usize,
    /// The number of its own condition, which [`Request::evaluate`] takes: an if's, or that of a for's rse.
    pub condition: Option<usize>,
}

/// A parameter of a message.
#[derive(Clone, PartialEq, Eq, Hash, Debug)]
#[non_exhaustive]
pub struct Parameter {
    /// The number of its message.
    pub message: u8,
    /// Its number in the message, from 0.
    pub number: u16,
    /// Its type.
    pub kind: Type,
    /// Its scale: -1 for tenths; -9 to 0, of type 16 -18 to 0. 0 for texts and dates.
    pub scale: i8,
    /// Its first byte in the message's image.
    pub offset: usize,
    /// The bytes that it takes there.
    pub bytes: usize,
}

/// A context of a request: a number that stands for a record of a relation, in a part of the request.
#[derive(Clone, PartialEq, Eq, Hash, Debug)]
#[non_exhaustive]
pub struct Context {
    /// Its number.
    pub number: u8,
    /// The place of the stream's code that declares it, or of the modify.
    pub place: usize,
    /// The places of the request in which it is in scope.
    pub scope: Range<usize>,
    /// The id of its relation.
    pub relation: u16,
    /// The code that opened it: a for, a store, a modify, an any, a unique or a statistic.
    pub opener: Opener,
}

// A row's numbers are what the library promises of them: bytes and words fit, and the casts below lose nothing.

fn statement(row: &[u32]) -> Statement {
    Statement {
        place: row[STATEMENT_PLACE] as usize,
        code: StatementCode::from_code(row[STATEMENT_CODE] as u8),
        parent: (row[STATEMENT_PARENT] as usize).checked_sub(1),
        end: row[STATEMENT_END] as usize,
        condition: (row[STATEMENT_BOOLEAN] as usize).checked_sub(1),
    }
}

fn parameter(row: &[u32]) -> Parameter {
    Parameter {
        message: row[PARAMETER_MESSAGE] as u8,
        number: row[PARAMETER_NUMBER] as u16,
        kind: Type::from_code(row[PARAMETER_TYPE] as u8),
        scale: row[PARAMETER_SCALE] as u8 as i8,
        offset: row[PARAMETER_OFFSET] as usize,
        bytes: row[PARAMETER_BYTES] as usize,
    }
}

fn context(row: &[u32]) -> Context {
    Context {
        number: row[CONTEXT_NUMBER] as u8,
        place: row[CONTEXT_PLACE] as usize,
        scope: row[CONTEXT_START] as usize..row[CONTEXT_END] as usize,
        relation: row[CONTEXT_RELATION] as u16,
        opener: Opener::from_code(row[CONTEXT_OPENER] as u8),
    }
}

macro_rules! rows {
    ($(#[$doc:meta])* $name:ident, $item:ident, $make:ident) => {
        $(#[$doc])*
        #[derive(Clone, Debug)]
        pub struct $name<'r>(ChunksExact<'r, u32>);

        impl Iterator for $name<'_> {
            type Item = $item;

            fn next(&mut self) -> Option<$item> {
                self.0.next().map($make)
            }

            fn size_hint(&self) -> (usize, Option<usize>) {
                self.0.size_hint()
            }

            fn nth(&mut self, n: usize) -> Option<$item> {
                self.0.nth(n).map($make)
            }
        }

        impl DoubleEndedIterator for $name<'_> {
            fn next_back(&mut self) -> Option<$item> {
                self.0.next_back().map($make)
            }
        }

        impl ExactSizeIterator for $name<'_> {}
        impl std::iter::FusedIterator for $name<'_> {}
    };
}

rows!(
    /// The statements of a request: [`Request::statements`].
    Statements,
    Statement,
    statement
);
rows!(
    /// The parameters of a request: [`Request::parameters`].
    Parameters,
    Parameter,
    parameter
);
rows!(
    /// The contexts of a request: [`Request::contexts`].
    Contexts,
    Context,
    context
);
