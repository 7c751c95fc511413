//! The codes of a request by the names of blr.h: `blr_gtr` there is [`GTR`](constant.GTR.html) here, and the number is the same.
//!
//! They are for writing requests. A number may stand for several things, each at its own kind of place: 7 is `FOR` where a
//! statement is due, and `SHORT` where a type is.
//!
//! A request begins with `VERSION4` or `VERSION5`. Version 5 has the type `INT64` too, and its `DIVIDE` is another: the quotient
//! has the sum of both scales, where in version 4 it has the first less the second.

use std::fmt;

macro_rules! constants {
    ($($name:ident = $number:literal)*) => {
        $(
            #[doc = concat!("Code ", stringify!($number), ".")]
            pub const $name: u8 = $number;
        )*

        /// The constants above, for the test against the header.
        #[cfg(test)]
        pub(crate) const ALL: &[(&str, u8)] = &[$((stringify!($name), $number)),*];
    };
}

constants! {
    VERSION4 = 4 VERSION5 = 5 EOC = 76 END = 255
    ASSIGNMENT = 1 BEGIN = 2 MESSAGE = 4 ERASE = 5 FOR = 7 IF = 8 LOOP = 9 MODIFY = 10 HANDLER = 11 RECEIVE = 12 SELECT = 13
    SEND = 14 STORE = 15 LABEL = 17 LEAVE = 18
    LITERAL = 21 FIELD = 23 FID = 24 PARAMETER = 25 AVERAGE = 27 COUNT = 28 MAXIMUM = 29 MINIMUM = 30 TOTAL = 31 ADD = 34
    SUBTRACT = 35 MULTIPLY = 36 DIVIDE = 37 NEGATE = 38 PARAMETER2 = 41
    EQL = 47 NEQ = 48 GTR = 49 GEQ = 50 LSS = 51 LEQ = 52 CONTAINING = 53 MATCHING = 54 STARTING = 55 BETWEEN = 56 OR = 57
    AND = 58 NOT = 59 ANY = 60 MISSING = 61 UNIQUE = 62
    RSE = 67 SORT = 70 BOOLEAN = 71 ASCENDING = 72 DESCENDING = 73 RELATION = 74 RID = 75
    SHORT = 7 LONG = 8 TEXT = 14 INT64 = 16 DATE = 35 VARYING = 37 CSTRING = 40
}

macro_rules! named {
    ($(#[$doc:meta])* $kind:ident { $($(#[$of:meta])* $name:ident = $code:ident $text:literal)* }) => {
        $(#[$doc])*
        #[derive(Clone, Copy, PartialEq, Eq, Hash, Debug)]
        #[non_exhaustive]
        pub enum $kind {
            $($(#[$of])* $name,)*
            /// A code that this version of the crate has no name for.
            Unlisted(u8),
        }

        impl $kind {
            /// The code's number.
            pub fn code(self) -> u8 {
                match self {
                    $($kind::$name => $code,)*
                    $kind::Unlisted(code) => code,
                }
            }

            /// The name of a number at this kind of place.
            pub fn from_code(code: u8) -> $kind {
                match code {
                    $($code => $kind::$name,)*
                    other => $kind::Unlisted(other),
                }
            }
        }

        /// The name of blr.h in small letters, without `blr_`; or the number.
        impl fmt::Display for $kind {
            fn fmt(&self, f: &mut fmt::Formatter<'_>) -> fmt::Result {
                match self {
                    $($kind::$name => f.pad($text),)*
                    $kind::Unlisted(code) => f.pad(&code.to_string()),
                }
            }
        }
    };
}

named! {
    /// The code of a statement.
    StatementCode {
        /// 1: a value put into a target.
        Assignment = ASSIGNMENT "assignment"
        /// 2: statements up to an end.
        Begin = BEGIN "begin"
        /// 5: the record of a context is erased.
        Erase = ERASE "erase"
        /// 7: a statement for each record of an rse.
        For = FOR "for"
        /// 8: a statement where a condition is true, and perhaps another where not.
        If = IF "if"
        /// 9: a statement again and again.
        Loop = LOOP "loop"
        /// 10: a record is changed.
        Modify = MODIFY "modify"
        /// 11: a statement with a handler of errors.
        Handler = HANDLER "handler"
        /// 12: a statement once a message has come.
        Receive = RECEIVE "receive"
        /// 13: one of several receives.
        Select = SELECT "select"
        /// 14: a statement, then a message goes out.
        Send = SEND "send"
        /// 15: a new record.
        Store = STORE "store"
        /// 17: a statement that a leave may leave.
        Label = LABEL "label"
        /// 18: leaves a label.
        Leave = LEAVE "leave"
    }
}

named! {
    /// The code that opened a context.
    Opener {
        /// 7: a for.
        For = FOR "for"
        /// 10: a modify.
        Modify = MODIFY "modify"
        /// 15: a store.
        Store = STORE "store"
        /// 27: an average, which goes over a run.
        Average = AVERAGE "average"
        /// 28: a count, which goes over a run.
        Count = COUNT "count"
        /// 29: a maximum, which goes over a run.
        Maximum = MAXIMUM "maximum"
        /// 30: a minimum, which goes over a run.
        Minimum = MINIMUM "minimum"
        /// 31: a total, which goes over a run.
        Total = TOTAL "total"
        /// 60: an any, which goes over a run.
        Any = ANY "any"
        /// 62: a unique, which goes over a run.
        Unique = UNIQUE "unique"
    }
}

named! {
    /// The code of a test: each boolean but or, and and not is one.
    TestCode {
        /// 47: two values are equal.
        Eql = EQL "eql"
        /// 48: two values are not equal.
        Neq = NEQ "neq"
        /// 49: the first value is the greater.
        Gtr = GTR "gtr"
        /// 50: the first value is not the less.
        Geq = GEQ "geq"
        /// 51: the first value is the less.
        Lss = LSS "lss"
        /// 52: the first value is not the greater.
        Leq = LEQ "leq"
        /// 53: a text contains another.
        Containing = CONTAINING "containing"
        /// 54: a text matches a pattern.
        Matching = MATCHING "matching"
        /// 55: a text starts with another.
        Starting = STARTING "starting"
        /// 56: a value lies between two others.
        Between = BETWEEN "between"
        /// 60: a record of a run makes a condition true.
        Any = ANY "any"
        /// 61: a value is missing.
        Missing = MISSING "missing"
        /// 62: exactly one record of a run makes a condition true.
        Unique = UNIQUE "unique"
    }
}

named! {
    /// The type of a parameter.
    Type {
        /// 7: a signed number of 2 bytes.
        Short = SHORT "short"
        /// 8: a signed number of 4 bytes.
        Long = LONG "long"
        /// 14: a text of n bytes.
        Text = TEXT "text"
        /// 16: a signed number of 8 bytes, in version 5 alone.
        Int64 = INT64 "int64"
        /// 35: a date of 8 bytes.
        Date = DATE "date"
        /// 37: a text of up to n bytes after a word that holds its length.
        Varying = VARYING "varying"
        /// 40: a text up to a zero, in n bytes.
        Cstring = CSTRING "cstring"
    }
}
