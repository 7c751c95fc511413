//! Data types of parameters and fields.
//!
//! Document 01: "short 7 and long 8, each with a signed scale byte (2 and 4 bytes); date 35 (8
//! bytes); text 14, varying 37, cstring 40, each with a word n (n, n+2, n bytes)", "Type 200 is a
//! house reading: 2 bytes, unsigned, with scale", "Kinds are number, text, date".
//!
//! Document 02, No. 8: "Version 5 adds type 16, a 64-bit integer of 8 bytes with a scale of -18 to
//! 0, in messages, dictionary and literals."

use crate::wire::{CSTRING, DATE, INT64, LONG, READING, SHORT, TEXT, VARYING};

/// The kind of a value.
#[derive(Clone, Copy, Debug, PartialEq, Eq)]
pub enum Kind {
    Number,
    Text,
    Date,
}

/// A data type: its code, its scale (0 for text and date) and its size word (2, 4, 8 or n).
#[derive(Clone, Copy, Debug, PartialEq, Eq)]
pub struct DataType {
    pub code: u8,
    pub scale: i8,
    pub size: u16,
}

impl DataType {
    /// A type of fixed size, or a text type with n bytes.
    pub fn new(code: u8, scale: i8, n: u16) -> DataType {
        let size = match code {
            SHORT | READING => 2,
            LONG => 4,
            DATE | INT64 => 8,
            _ => n,
        };
        DataType { code, scale, size }
    }

    /// The bytes that a field of this type holds in a message or record.
    pub fn held(&self) -> usize {
        let size = usize::from(self.size);
        if self.code == VARYING {
            size + 2
        } else {
            size
        }
    }

    /// The kind of a value of this type.
    pub fn kind(&self) -> Kind {
        match self.code {
            SHORT | LONG | READING | INT64 => Kind::Number,
            DATE => Kind::Date,
            _ => Kind::Text,
        }
    }
}

/// Whether the type has a scale byte in a request.
pub fn has_scale(code: u8) -> bool {
    matches!(code, SHORT | LONG | INT64)
}

/// Whether the type has a word n.
pub fn has_size(code: u8) -> bool {
    matches!(code, TEXT | VARYING | CSTRING)
}

/// "Scales -9 to 0", and -18 to 0 for type 16: the scales of literals, parameters and fields.
pub fn is_scale_of(code: u8, scale: i8) -> bool {
    let least = if code == INT64 { -18 } else { -9 };
    (least..=0).contains(&scale)
}

/// "Text n 1–255".
pub fn is_text_size(n: u16) -> bool {
    (1..=255).contains(&n)
}
