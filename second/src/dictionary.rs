//! The house dictionary.
//!
//! Document 01, "House dictionary and records": whole entries of kinds 1 (a relation) and 2 (a
//! field of the last relation), each a length word (the whole entry), a kind word and a body; and
//! "Greatest sizes": 65,535 bytes, 32 relations, 64 fields each. "4,096 bytes a record entry" is a
//! limit of records (see `record`), not of the dictionary.

use crate::datatype::{self, DataType, Kind};
use crate::wire::{self, DATE, INT64, LONG, READING, SHORT};

/// Greatest length of a dictionary.
pub const GREATEST_LENGTH: usize = 65_535;
/// Most relations in a dictionary.
pub const MOST_RELATIONS: usize = 32;
/// Most fields in a relation.
pub const MOST_FIELDS: usize = 64;

/// A field: its type, scale and size word, and its name.
#[derive(Clone, Debug, PartialEq, Eq)]
pub struct Field {
    pub name: Vec<u8>,
    pub data: DataType,
}

/// A relation with its fields; a field's id is its index.
#[derive(Clone, Debug, PartialEq, Eq)]
pub struct Relation {
    pub id: u16,
    pub name: Vec<u8>,
    pub fields: Vec<Field>,
}

/// A dictionary that keeps all rules.
#[derive(Clone, Debug, Default, PartialEq, Eq)]
pub struct Dictionary {
    pub relations: Vec<Relation>,
}

impl Dictionary {
    /// Checks a whole dictionary. At fault: the start of the first entry that breaks a rule, or 0
    /// if the dictionary is too long.
    pub fn check(bytes: &[u8]) -> Result<Dictionary, usize> {
        if bytes.len() > GREATEST_LENGTH {
            return Err(0);
        }
        let mut dictionary = Dictionary::default();
        let mut at = 0;
        while at < bytes.len() {
            let entry = whole_entry(&bytes[at..]).ok_or(at)?;
            dictionary.enter(entry).ok_or(at)?;
            at += entry.len();
        }
        Ok(dictionary)
    }

    /// Enters one entry, or nothing if it breaks a rule.
    fn enter(&mut self, entry: &[u8]) -> Option<()> {
        match wire::word(entry, 2)? {
            1 => self.enter_relation(entry),
            2 => self.relations.last_mut()?.enter_field(entry),
            _ => None,
        }
    }

    /// Kind 1: relation id word, counted name.
    fn enter_relation(&mut self, entry: &[u8]) -> Option<()> {
        let id = wire::word(entry, 4)?;
        let name = counted_name(entry, 6)?;
        let taken = self.relation_by_id(id).is_some() || self.relation_by_name(name).is_some();
        if taken || self.relations.len() == MOST_RELATIONS {
            return None;
        }
        self.relations.push(Relation { id, name: name.to_vec(), fields: Vec::new() });
        Some(())
    }

    /// The index of the relation with this name.
    pub fn relation_by_name(&self, name: &[u8]) -> Option<usize> {
        self.relations.iter().position(|relation| relation.name == name)
    }

    /// The index of the relation with this id.
    pub fn relation_by_id(&self, id: u16) -> Option<usize> {
        self.relations.iter().position(|relation| relation.id == id)
    }
}

impl Relation {
    /// Kind 2: id word, type byte, scale byte, size word, counted name.
    fn enter_field(&mut self, entry: &[u8]) -> Option<()> {
        let id = wire::word(entry, 4)?;
        let data = DataType {
            code: *entry.get(6)?,
            scale: wire::signed_byte(*entry.get(7)?),
            size: wire::word(entry, 8)?,
        };
        let name = counted_name(entry, 10)?;
        let in_order = usize::from(id) == self.fields.len() && self.fields.len() < MOST_FIELDS;
        if !in_order || !is_field_type(data) || self.field_by_name(name).is_some() {
            return None;
        }
        self.fields.push(Field { name: name.to_vec(), data });
        Some(())
    }

    /// The index of the field with this name.
    pub fn field_by_name(&self, name: &[u8]) -> Option<usize> {
        self.fields.iter().position(|field| field.name == name)
    }

    /// The index of the field with this id, which is the id itself.
    pub fn field_by_id(&self, id: u16) -> Option<usize> {
        Some(usize::from(id)).filter(|index| *index < self.fields.len())
    }

    /// Bytes before the first field in a record entry: length, kind, relation id, missing bits.
    pub fn header_length(&self) -> usize {
        6 + self.fields.len().div_ceil(8)
    }

    /// The place of a field's bytes within a record entry.
    pub fn field_offset(&self, field: usize) -> usize {
        let before = self.fields[..field].iter().map(|field| field.data.held());
        self.header_length() + before.sum::<usize>()
    }

    /// The length of a record entry of this relation.
    pub fn entry_length(&self) -> usize {
        self.field_offset(self.fields.len())
    }
}

/// The entry at the start of these bytes, if it is whole.
fn whole_entry(bytes: &[u8]) -> Option<&[u8]> {
    let length = usize::from(wire::word(bytes, 0)?);
    if length < 4 {
        return None;
    }
    bytes.get(..length)
}

/// The counted name at a place, if it is a name and ends the entry.
fn counted_name(entry: &[u8], at: usize) -> Option<&[u8]> {
    let count = usize::from(*entry.get(at)?);
    let name = &entry[at + 1..];
    if name.len() != count || !is_name(name) {
        return None;
    }
    Some(name)
}

/// "Names have 1 to 31 bytes of 33–126."
pub fn is_name(name: &[u8]) -> bool {
    (1..=31).contains(&name.len()) && name.iter().all(|byte| (33..=126).contains(byte))
}

/// Whether type, scale and size word are those of a field.
pub fn is_field_type(data: DataType) -> bool {
    let scale = match data.kind() {
        Kind::Number => datatype::is_scale_of(data.code, data.scale),
        _ => data.scale == 0,
    };
    let size = match data.code {
        SHORT | READING => data.size == 2,
        LONG => data.size == 4,
        DATE | INT64 => data.size == 8,
        code => datatype::has_size(code) && datatype::is_text_size(data.size),
    };
    scale && size
}
