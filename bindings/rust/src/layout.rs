//! The rows of the tables, as include/greenblr.h lays them out: tests/header.rs holds these numbers against it.

/// Numbers of a statement's row, and the place of each in it.
pub const STATEMENT_ROW: usize = 5;
pub const STATEMENT_PLACE: usize = 0;
pub const STATEMENT_CODE: usize = 1;
pub const STATEMENT_PARENT: usize = 2;
pub const STATEMENT_END: usize = 3;
pub const STATEMENT_BOOLEAN: usize = 4;

/// Numbers of a parameter's row, and the place of each in it.
pub const PARAMETER_ROW: usize = 6;
pub const PARAMETER_MESSAGE: usize = 0;
pub const PARAMETER_NUMBER: usize = 1;
pub const PARAMETER_TYPE: usize = 2;
pub const PARAMETER_SCALE: usize = 3;
pub const PARAMETER_OFFSET: usize = 4;
pub const PARAMETER_BYTES: usize = 5;

/// Numbers of a context's row, and the place of each in it.
pub const CONTEXT_ROW: usize = 6;
pub const CONTEXT_NUMBER: usize = 0;
pub const CONTEXT_PLACE: usize = 1;
pub const CONTEXT_START: usize = 2;
pub const CONTEXT_END: usize = 3;
pub const CONTEXT_RELATION: usize = 4;
pub const CONTEXT_OPENER: usize = 5;

/// Numbers of a test's row, and the place of each in it.
pub const TEST_ROW: usize = 2;
pub const TEST_PLACE: usize = 0;
pub const TEST_OUTCOME: usize = 1;

/// The most rows of each table, and with them its least numbers.
pub const MAX_STATEMENTS: usize = 512;
pub const MAX_PARAMETERS: usize = 256;
pub const MAX_CONTEXTS: usize = 32;
pub const MAX_TESTS: usize = 10922;
pub const STATEMENT_TABLE: usize = MAX_STATEMENTS * STATEMENT_ROW;
pub const PARAMETER_TABLE: usize = MAX_PARAMETERS * PARAMETER_ROW;
pub const CONTEXT_TABLE: usize = MAX_CONTEXTS * CONTEXT_ROW;
pub const TEST_TABLE: usize = MAX_TESTS * TEST_ROW;

/// The bytes of a store's header; the entries of its records follow.
pub const STORE_HEADER: usize = 10;
