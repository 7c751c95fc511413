//! A second, plain reader and evaluator of BLR requests over a house dictionary.
//!
//! It is written from document 01 and requests No. 1, No. 3, No. 4 and No. 6 to No. 10 of
//! document 02 alone, with vectors and 128-bit numbers where they make a rule short, so that its
//! results can be compared with those of another implementation. Places count bytes from the start
//! of the request or of the dictionary.

/// Printing of cases with their outcomes, one a line.
pub mod cases;
/// Counting of outcomes and of codes over a run of cases.
pub mod count;
/// Data types of fields and parameters: bytes held, scale and kind.
pub mod datatype;
/// Scaled signed 64-bit numbers.
pub mod decimal;
/// The house dictionary: its rules, relations and fields.
pub mod dictionary;
/// Evaluation of one condition or from-value over messages, records and runs.
pub mod evaluator;
/// The explanation program's output.
pub mod explanation;
/// Generation of cases from fixed seeds.
pub mod generate;
/// Byte strings as hex digits, long runs abbreviated.
pub mod hex;
/// The listing program's output.
pub mod listing;
/// Reading of a request: acceptance with three tables, or a refusal.
pub mod reader;
/// Records: kind 3 entries beside a relation of the dictionary, and the causes of missing values.
pub mod record;
/// The numbers given back, each with a place.
pub mod refusal;
/// Stores: the records of one relation in a lent buffer.
pub mod store;
/// Texts: the part that holds the value, order and the three text tests.
pub mod text;
/// Little-endian numbers and the codes of blr.h.
pub mod wire;
