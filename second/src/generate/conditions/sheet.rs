//! One condition with the fields and parameters that it names, and no others.

use crate::datatype::{self, DataType};
use crate::dictionary::{Dictionary, Field, Relation};
use crate::generate::assemble::{self, fid, message, parameter, NOTHING};
use crate::generate::dictionaries;
use crate::generate::Case;
use crate::wire::{
    CSTRING, DATE, END, IF, INT64, LITERAL, LONG, PARAMETER2, READING, SHORT, TEXT, VARYING,
    VERSION4, VERSION5,
};

/// The bytes of a field, a parameter or a literal, with their type.
#[derive(Clone, Debug)]
pub struct Stored {
    pub data: DataType,
    pub bytes: Vec<u8>,
}

impl Stored {
    fn new(code: u8, scale: i8, bytes: &[u8]) -> Stored {
        Stored { data: DataType::new(code, scale, bytes.len() as u16), bytes: bytes.to_vec() }
    }

    /// The type as a message or a literal has it.
    pub fn descriptor(&self) -> Vec<u8> {
        let code = self.data.code;
        if datatype::has_scale(code) {
            return vec![code, self.data.scale.to_le_bytes()[0]];
        }
        if datatype::has_size(code) {
            return [&[code], &self.data.size.to_le_bytes()[..]].concat();
        }
        vec![code]
    }

    /// The literal with this value: a short, a long or a text.
    pub fn literal(&self) -> Vec<u8> {
        [&[LITERAL], &self.descriptor()[..], &self.bytes].concat()
    }
}

/// A short.
pub fn short(scale: i8, number: i16) -> Stored {
    Stored::new(SHORT, scale, &number.to_le_bytes())
}

/// A long.
pub fn long(scale: i8, number: i32) -> Stored {
    Stored::new(LONG, scale, &number.to_le_bytes())
}

/// A 64-bit integer, of version 5.
pub fn int64(scale: i8, number: i64) -> Stored {
    Stored::new(INT64, scale, &number.to_le_bytes())
}

/// A reading.
pub fn reading(scale: i8, number: u16) -> Stored {
    Stored::new(READING, scale, &number.to_le_bytes())
}

/// A date.
pub fn date(day: i32, fraction: u32) -> Stored {
    Stored::new(DATE, 0, &[day.to_le_bytes(), fraction.to_le_bytes()].concat())
}

/// A text.
pub fn text(bytes: &[u8]) -> Stored {
    Stored::new(TEXT, 0, bytes)
}

/// A varying of as many bytes, with its length word.
pub fn varying(length: u16, bytes: &[u8]) -> Stored {
    let stored = [&length.to_le_bytes()[..], bytes].concat();
    Stored { data: DataType::new(VARYING, 0, bytes.len() as u16), bytes: stored }
}

/// A cstring; its bytes have a zero, or it is malformed.
pub fn cstring(bytes: &[u8]) -> Stored {
    Stored::new(CSTRING, 0, bytes)
}

/// Where a value stands.
#[derive(Clone, Copy, Debug, PartialEq, Eq)]
pub enum Where {
    Literal,
    Field,
    Parameter,
    /// A parameter2, with a flag of its own.
    Flagged,
}

/// A value of one relation's record, with its missing bit.
pub type FieldValue = (Stored, bool);

/// The fields of one relation and the parameters of one message, as a condition needs them.
#[derive(Clone, Debug, Default)]
pub struct Sheet {
    is_version_5: bool,
    fields: Vec<FieldValue>,
    parameters: Vec<Stored>,
}

impl Sheet {
    /// A sheet whose request is of version 5.
    pub fn version_5() -> Sheet {
        Sheet { is_version_5: true, ..Sheet::default() }
    }

    /// Whether the request is of version 5.
    pub fn is_version_5(&self) -> bool {
        self.is_version_5
    }

    /// A value that is there; gives what names it.
    pub fn there(&mut self, place: Where, stored: &Stored) -> Vec<u8> {
        match place {
            Where::Literal => stored.literal(),
            Where::Field => self.field(stored, false),
            Where::Parameter => parameter(0, self.enter(stored)),
            Where::Flagged => self.flagged(stored, &short(0, 0)),
        }
    }

    /// A missing value: a field, or a parameter2 for the other places.
    pub fn missing(&mut self, place: Where, stored: &Stored) -> Vec<u8> {
        match place {
            Where::Field => self.field(stored, true),
            _ => self.flagged(stored, &short(0, -1)),
        }
    }

    /// A value that is missing or there.
    pub fn value(&mut self, place: Where, stored: &Stored, missing: bool) -> Vec<u8> {
        if missing {
            self.missing(place, stored)
        } else {
            self.there(place, stored)
        }
    }

    /// A field with its missing bit.
    pub fn field(&mut self, stored: &Stored, missing: bool) -> Vec<u8> {
        self.fields.push((stored.clone(), missing));
        fid(0, self.fields.len() as u8 - 1)
    }

    /// A parameter2 with its flag.
    pub fn flagged(&mut self, stored: &Stored, flag: &Stored) -> Vec<u8> {
        let number = self.enter(stored);
        let flag = self.enter(flag);
        vec![PARAMETER2, 0, number, 0, flag, 0]
    }

    /// A parameter; gives its number.
    fn enter(&mut self, stored: &Stored) -> u8 {
        self.parameters.push(stored.clone());
        self.parameters.len() as u8 - 1
    }

    /// The evaluation of a boolean: that of a for where there are fields, else that of an if.
    pub fn case(&self, boolean: &[u8]) -> Case {
        let statement = match self.fields.is_empty() {
            true => [&[IF], boolean, &NOTHING, &[END]].concat(),
            false => assemble::condition(boolean),
        };
        let descriptors: Vec<Vec<u8>> = self.parameters.iter().map(Stored::descriptor).collect();
        let declared = match descriptors.is_empty() {
            true => Vec::new(),
            false => message(0, &slices(&descriptors)),
        };
        let relations = match self.fields.is_empty() {
            true => Vec::new(),
            false => vec![relation(1, &self.fields)],
        };
        let records = relations.iter().map(|relation| record(relation, &self.fields));
        let version = if self.is_version_5 { VERSION5 } else { VERSION4 };
        Case::Evaluate {
            records: records.collect::<Vec<_>>().concat(),
            runs: Vec::new(),
            dictionary: dictionaries::encode(&Dictionary { relations }),
            request: assemble::request_of(version, &[&declared, &statement]),
            condition: 0,
            messages: self.parameters.iter().flat_map(|stored| stored.bytes.clone()).collect(),
        }
    }
}

/// Parts as slices.
pub fn slices(parts: &[Vec<u8>]) -> Vec<&[u8]> {
    parts.iter().map(Vec::as_slice).collect()
}

/// A relation with fields of these types, named A, B, C ..; its name is that letter which its id counts.
pub fn relation(id: u16, fields: &[FieldValue]) -> Relation {
    let name = |n: usize| vec![b'A' + n as u8];
    let field = |(n, value): (usize, &FieldValue)| Field { name: name(n), data: value.0.data };
    let fields = fields.iter().enumerate().map(field).collect();
    Relation { id, name: name(usize::from(id % 26)), fields }
}

/// The record of a relation with these values.
pub fn record(relation: &Relation, fields: &[FieldValue]) -> Vec<u8> {
    let mut bits = vec![0u8; fields.len().div_ceil(8)];
    for (n, (_, missing)) in fields.iter().enumerate() {
        bits[n / 8] |= u8::from(*missing) << (n % 8);
    }
    let length = relation.entry_length() as u16;
    let head = [length.to_le_bytes(), 3u16.to_le_bytes(), relation.id.to_le_bytes()].concat();
    let values = fields.iter().flat_map(|(stored, _)| stored.bytes.clone()).collect();
    [head, bits, values].concat()
}
