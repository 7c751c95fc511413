//! greenblr reads BLR requests, evaluates their conditions over the records of a greenhouse, and keeps records in a buffer. BLR
//! is the binary request language of the InterBase and Rdb family. This crate calls the proved library `libgreenblr.a`.
//!
//! A node that can't measure sends 65535. That is no reading: a comparison with it comes out as
//! [`Truth::Missing`], and never as an answer about 65535.
//!
//! - [`Dictionary::new`] takes the relations and fields that all else is read beside.
//! - [`Request::read`] takes a request's bytes: its statements, parameters and contexts, or a [`Refusal`].
//! - [`Request::evaluate`] gives what a condition comes out as: [`Truth`], with its [`Cause`] where it is missing.
//! - [`Request::evaluate_value`] gives what the value of an assignment comes out as, as an average that leaves out 65535: [`Answer`].
//! - [`Request::explain`] gives the tests that decide a condition, each with its outcome: [`Test`].
//! - [`Store`] keeps the records of one relation in a buffer.
//!
//! ```
//! use greenblr::{record, Dictionary, Field, Request, Truth};
//!
//! # fn main() -> Result<(), greenblr::Refusal> {
//! // relation 1 BEDS with HEAT, a reading of scale -1, and NAME, a text of 4
//! let dictionary = Dictionary::new(
//!     b"\x0b\0\x01\0\x01\0\x04BEDS\x0f\0\x02\0\0\0\xc8\xff\x02\0\x04HEAT\x0f\0\x02\0\x01\0\x0e\0\x04\0\x04NAME",
//! )?;
//! // for each bed whose heat is above 30.0, send 1
//! let bytes = [
//!     4, 2, 4, 0, 1, 0, 7, 0, 7, 67, 1, 75, 1, 0, 0, 71, 49, 24, 0, 0, 0, 21, 7, 255, 44, 1, 255,
//!     14, 0, 1, 21, 7, 0, 1, 0, 25, 0, 0, 0, 255, 76,
//! ];
//! let request = Request::read(&dictionary, &bytes)?;
//! for heat in [301, 300, 65535] {
//!     let bed = record(1, &[Field::Reading(heat), Field::Bytes(b"ABCD")]);
//!     match request.evaluate(0, &[0, 0], &bed)? {
//!         Truth::True => println!("{heat}: above"),
//!         Truth::False => println!("{heat}: not above"),
//!         Truth::Missing(cause) => println!("{heat}: cannot be told: {cause}"),
//!     }
//! }
//! # Ok(())
//! # }
//! ```
//!
//! # What is proved
//!
//! The library is proved: every call returns for any bytes, a request is accepted exactly when the rules allow it, and an answer
//! is the one that the condition means. This crate is not: it passes slices to the library and takes numbers apart, and its tests
//! hold it against the header. It has no `unsafe` but in one private module, and none for its callers.
//!
//! # Linking
//!
//! The archive is found in the folder `GREENBLR_LIB_DIR`, or by pkg-config where greenblr of this version is installed, or in
//! `target/staticlib` of the repository, where `tools/archive greenblr` puts it. It is for x86-64 Linux.

#![deny(missing_docs)]
#![deny(unsafe_code)]
#![warn(rust_2018_idioms)]

pub mod codes;
mod explanation;
#[allow(unsafe_code)]
mod ffi;
mod layout;
mod record;
mod refusal;
mod request;
mod store;
mod truth;

pub use codes::{Opener, StatementCode, TestCode, Type};
pub use explanation::{Outcome, Test};
pub use record::{record, run, Field};
pub use refusal::{Input, Reason, Refusal};
pub use request::{
    Context, Contexts, Dictionary, Parameter, Parameters, Request, Statement, Statements,
};
pub use store::Store;
pub use truth::{Answer, Cause, Truth};

/// The version of the linked library, as `0.10.0`.
pub fn library_version() -> String {
    let number = ffi::version();
    format!("{}.{}.{}", number / 1_000_000, number / 1000 % 1000, number % 1000)
}

#[cfg(test)]
mod header;
