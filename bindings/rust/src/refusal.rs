//! Refusals: number, reason and place.

use std::error::Error;
use std::fmt;

macro_rules! reasons {
    ($($(#[$doc:meta])* $name:ident = $number:literal, $text:literal;)*) => {
        /// Why something is refused. A later version may have more reasons.
        #[derive(Clone, Copy, PartialEq, Eq, Hash, Debug)]
        #[non_exhaustive]
        pub enum Reason {
            $($(#[$doc])* $name,)*
            /// A number that this version of the crate has no name for.
            Unlisted(u32),
        }

        impl Reason {
            /// All reasons that have a name here.
            pub const ALL: &'static [Reason] = &[$(Reason::$name),*];

            /// The reason of a number.
            pub fn from_number(number: u32) -> Reason {
                match number {
                    $($number => Reason::$name,)*
                    other => Reason::Unlisted(other),
                }
            }

            /// The number, as the programs print it and as C has it.
            pub fn number(self) -> u32 {
                match self {
                    $(Reason::$name => $number,)*
                    Reason::Unlisted(number) => number,
                }
            }

            /// The reason in words.
            pub fn text(self) -> &'static str {
                match self {
                    $(Reason::$name => $text,)*
                    Reason::Unlisted(_) => "a number that is no refusal of this version",
                }
            }
        }
    };
}

reasons! {
    /// 1: a table is below its least size. This crate's tables never are.
    TablesTooShort = 1, "a table is below its least size";
    /// 2: the request has over 65,535 bytes.
    RequestTooLong = 2, "the request is too long";
    /// 3: the dictionary breaks a rule or a greatest size; the place is the entry's, or 0 if it is too long.
    BadDictionary = 3, "the dictionary breaks a rule or a greatest size";
    /// 4: the request ends early; the place is its length.
    EndsEarly = 4, "the request ends early";
    /// 5: the first byte is no version that is read, neither 4 nor 5.
    BadVersion = 5, "the first byte is no version that is read";
    /// 6: a code that is not due here, as type 16 in version 4.
    NotDue = 6, "the code is not due here";
    /// 7: a code of BLR that the library leaves out.
    LeftOut = 7, "the code is one that is left out";
    /// 8: a greatest size of a request is passed, or an any, a unique or a statistic has two streams or more.
    TooGreat = 8, "a greatest size is passed";
    /// 9: a message is declared or selected twice, or undeclared.
    BadMessage = 9, "the message is declared or selected twice, or undeclared";
    /// 10: there is no such parameter.
    NoParameter = 10, "there is no such parameter";
    /// 11: a context is in scope already, or not in scope.
    BadContext = 11, "the context is in scope already, or not in scope";
    /// 12: an unknown relation or field.
    Unknown = 12, "the relation or field is unknown";
    /// 13: kinds or scales do not fit, a statistic goes over a text or a date, or a request of version 4 names a field of type 16.
    Unfit = 13, "kinds or scales do not fit";
    /// 14: a context that is not of a for, a wrong target, a send or receive in a store or modify, a leave outside its label.
    Misplaced = 14, "the statement, its context or its target may not stand here";
    /// 15: bytes follow the end of the request.
    BytesAfterEnd = 15, "bytes follow the end of the request";
    /// 16: a size, scale, stream count or sort count is out of range.
    OutOfRange = 16, "a size, scale, stream count or sort count is out of range";
    /// 20: there is no condition of this number, or no assignment in this row.
    NoBoolean = 20, "there is no condition of this number, or no assignment in this row";
    /// 21: the message bytes are not as many as declared; the place is the length given.
    BadMessageBytes = 21, "the message bytes are not as many as declared";
    /// 22: the records are not as due; the place is the first wrong entry, the length given if one lacks, or the first byte too
    /// many.
    BadRecords = 22, "the records are not as due";
    /// 23: a varying is longer than its size, or a cstring has no zero.
    MalformedText = 23, "a varying is longer than its size, or a cstring has no zero";
    /// 24: a number does not fit in 64 bits; in version 5 also the multiplied dividend. A sum on the way of a total or an average, too.
    Overflow = 24, "a number does not fit";
    /// 25: a division by zero.
    ZeroDivisor = 25, "a division by zero";
    /// 26: the runs are not as due; the place is the first wrong entry of kind 7, the length given if one lacks, or the first byte
    /// too many.
    BadRuns = 26, "the runs are not as due";
    /// 50: the buffer holds no store, or has over 65,535 bytes.
    MalformedStore = 50, "the buffer holds no store, or is too long";
    /// 51: the store has no record at this position.
    NoPosition = 51, "the store has no record at this position";
    /// 52: not one proper record of the relation.
    WrongRecord = 52, "not one proper record of the relation";
    /// 53: the buffer has not enough free bytes.
    NoRoom = 53, "the buffer has not enough free bytes";
}

impl fmt::Display for Reason {
    fn fmt(&self, f: &mut fmt::Formatter<'_>) -> fmt::Result {
        f.write_str(self.text())
    }
}

/// What the place of a refusal is counted in.
#[derive(Clone, Copy, PartialEq, Eq, Hash, Debug)]
#[non_exhaustive]
pub enum Input {
    /// The bytes of the request.
    Request,
    /// The bytes of the dictionary.
    Dictionary,
    /// The message images, joined.
    Messages,
    /// The records, joined.
    Records,
    /// The runs, joined.
    Runs,
    /// The buffer of a store.
    Store,
}

impl fmt::Display for Input {
    fn fmt(&self, f: &mut fmt::Formatter<'_>) -> fmt::Result {
        f.write_str(match self {
            Input::Request => "the request",
            Input::Dictionary => "the dictionary",
            Input::Messages => "the messages",
            Input::Records => "the records",
            Input::Runs => "the runs",
            Input::Store => "the store",
        })
    }
}

/// A refusal: a reason, with its number, and a place.
///
/// ```
/// # const BEDS: &[u8] = b"\x0b\0\x01\0\x01\0\x04BEDS\x0f\0\x02\0\0\0\xc8\xff\x02\0\x04HEAT";
/// # fn main() -> Result<(), greenblr::Refusal> {
/// use greenblr::{Dictionary, Reason, Request};
///
/// let dictionary = Dictionary::new(BEDS)?;
/// let refusal = Request::read(&dictionary, &[4, 2, 255]).unwrap_err();
/// assert_eq!(refusal.reason(), Reason::EndsEarly);
/// assert_eq!((refusal.number(), refusal.place()), (4, 3));
/// assert_eq!(refusal.to_string(), "refused 4 at 3 of the request: the request ends early");
/// # Ok(())
/// # }
/// ```
#[derive(Clone, Copy, PartialEq, Eq, Hash, Debug)]
pub struct Refusal {
    reason: Reason,
    input: Input,
    place: u64,
}

impl Refusal {
    /// A refusal by reading or evaluation.
    pub(crate) fn of_request(number: u32, place: u64) -> Refusal {
        let reason = Reason::from_number(number);
        let input = match reason {
            Reason::BadDictionary => Input::Dictionary,
            Reason::BadMessageBytes => Input::Messages,
            Reason::BadRecords => Input::Records,
            Reason::BadRuns => Input::Runs,
            _ => Input::Request,
        };
        Refusal { reason, input, place }
    }

    /// A refusal by a store.
    pub(crate) fn of_store(number: u32, place: u64) -> Refusal {
        let reason = Reason::from_number(number);
        let input = match reason {
            Reason::BadDictionary => Input::Dictionary,
            _ => Input::Store,
        };
        Refusal { reason, input, place }
    }

    /// Why it was refused.
    pub fn reason(&self) -> Reason {
        self.reason
    }

    /// The number of the reason, as the programs print it and as C has it.
    pub fn number(&self) -> u32 {
        self.reason.number()
    }

    /// What the place is counted in.
    pub fn input(&self) -> Input {
        self.input
    }

    /// The place: a count of bytes from the first. Of a store's refusals but 3 it is 0.
    pub fn place(&self) -> u64 {
        self.place
    }
}

impl fmt::Display for Refusal {
    fn fmt(&self, f: &mut fmt::Formatter<'_>) -> fmt::Result {
        let Refusal { reason, input, place } = self;
        write!(f, "refused {} at {place} of {input}: {reason}", reason.number())
    }
}

impl Error for Refusal {}
