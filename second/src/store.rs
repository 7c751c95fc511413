//! A store: the records of one relation in a lent buffer.
//!
//! Document 02, No. 10: "an entry of kind 8 (words: known relation id, record count, missing count),
//! then exactly those proper records, each 65535 marked, then zeros; anything else is malformed."
//! The entry is the header alone, of ten bytes. A call reads the whole buffer into a list of
//! records, changes the list, and writes the whole buffer anew.

use crate::dictionary::{Dictionary, Relation};
use crate::record::{self, Cause};
use crate::refusal::{
    refuse, Refusal, BAD_DICTIONARY, BAD_RECORD, BAD_STORE, NO_POSITION, NO_ROOM, UNKNOWN_NAME,
};
use crate::wire;

/// Greatest length of a buffer.
pub const GREATEST_LENGTH: usize = 65_535;
/// The length of the header.
pub const HEADER: usize = 10;
/// The kind of the header's entry.
pub const KIND: u16 = 8;

/// A call on a store.
#[derive(Clone, Debug, PartialEq, Eq)]
pub enum Call {
    /// "A first call makes it empty", of a relation's id.
    Make(u32),
    /// A record at the end.
    Add(Vec<u8>),
    /// "by position (from 0)"
    Erase(usize),
    /// Another record at a position.
    Replace(usize, Vec<u8>),
}

/// What a store holds.
#[derive(Clone, Debug, PartialEq, Eq)]
pub struct Contents {
    pub relation: u16,
    pub missing: usize,
    pub records: Vec<Vec<u8>>,
}

/// "Refusals: 3": the dictionary, if it is proper.
fn house(dictionary: &[u8]) -> Result<Dictionary, Refusal> {
    Dictionary::check(dictionary).or_else(|place| refuse(BAD_DICTIONARY, place))
}

/// The fields that are readings of 65535 without their bits.
fn unmarked(relation: &Relation, entry: &[u8]) -> Vec<usize> {
    let unmarked = |field: &usize| record::cause(relation, entry, *field) == Some(Cause::Reading);
    (0..relation.fields.len()).filter(unmarked).collect()
}

/// "Adding or replacing sets the missing bit of each reading of 65535."
fn marked(relation: &Relation, entry: &[u8]) -> Vec<u8> {
    let mut bytes = entry.to_vec();
    for field in unmarked(relation, entry) {
        bytes[6 + field / 8] |= 1 << (field % 8);
    }
    bytes
}

/// "The missing count is the number of bits set in all missing bytes."
fn missing_count(relation: &Relation, records: &[Vec<u8>]) -> usize {
    let bits = 6..relation.header_length();
    let bytes = records.iter().flat_map(|entry| &entry[bits.clone()]);
    bytes.map(|byte| byte.count_ones() as usize).sum()
}

/// The records of a buffer with their relation, or nothing if the store is malformed.
fn opened<'a>(house: &'a Dictionary, buffer: &[u8]) -> Option<(&'a Relation, Vec<Vec<u8>>)> {
    let header = [wire::word(buffer, 0)?, wire::word(buffer, 2)?];
    let relation = &house.relations[house.relation_by_id(wire::word(buffer, 4)?)?];
    let (count, missing) = (wire::word(buffer, 6)?, wire::word(buffer, 8)?);
    let mut records = Vec::new();
    let mut at = HEADER;
    for _ in 0..count {
        let entry = buffer.get(at..at + relation.entry_length())?;
        if !record::is_proper(relation, entry) || !unmarked(relation, entry).is_empty() {
            return None;
        }
        records.push(entry.to_vec());
        at += entry.len();
    }
    let good = buffer.len() <= GREATEST_LENGTH
        && header == [HEADER as u16, KIND]
        && missing_count(relation, &records) == usize::from(missing)
        && buffer[at..].iter().all(|byte| *byte == 0);
    good.then_some((relation, records))
}

/// Writes header, records and zeros.
fn write(buffer: &mut [u8], relation: &Relation, records: &[Vec<u8>]) {
    let missing = missing_count(relation, records);
    let words = [HEADER, usize::from(KIND), usize::from(relation.id), records.len(), missing];
    let header = words.iter().flat_map(|word| (*word as u16).to_le_bytes());
    let bytes: Vec<u8> = header.chain(records.concat()).collect();
    buffer.fill(0);
    buffer[..bytes.len()].copy_from_slice(&bytes);
}

/// A first call: looks at nothing of the buffer but its length.
fn make(house: &Dictionary, buffer: &mut [u8], id: u32) -> Result<(), Refusal> {
    let index = u16::try_from(id).ok().and_then(|id| house.relation_by_id(id));
    let Some(index) = index else {
        return refuse(UNKNOWN_NAME, 0);
    };
    if buffer.len() > GREATEST_LENGTH {
        return refuse(BAD_STORE, 0);
    }
    if buffer.len() < HEADER {
        return refuse(NO_ROOM, 0);
    }
    write(buffer, &house.relations[index], &[]);
    Ok(())
}

/// The record, marked, if it is exactly one proper record of the relation.
fn due(relation: &Relation, entry: &[u8]) -> Result<Vec<u8>, Refusal> {
    if !record::is_proper(relation, entry) {
        return refuse(BAD_RECORD, 0);
    }
    Ok(marked(relation, entry))
}

/// The records after a later call than the first.
fn changed(
    relation: &Relation,
    mut records: Vec<Vec<u8>>,
    call: &Call,
    room: usize,
) -> Result<Vec<Vec<u8>>, Refusal> {
    match call {
        Call::Erase(position) | Call::Replace(position, _) if *position >= records.len() => {
            return refuse(NO_POSITION, 0);
        }
        Call::Make(_) => records.clear(),
        Call::Add(entry) => records.push(due(relation, entry)?),
        Call::Erase(position) => drop(records.remove(*position)),
        Call::Replace(position, entry) => records[*position] = due(relation, entry)?,
    }
    if HEADER + records.iter().map(Vec::len).sum::<usize>() > room {
        return refuse(NO_ROOM, 0);
    }
    Ok(records)
}

/// A call on the store in a buffer; a refused one leaves the buffer unchanged.
pub fn call(dictionary: &[u8], buffer: &mut [u8], call: &Call) -> Result<(), Refusal> {
    let house = house(dictionary)?;
    if let Call::Make(id) = call {
        return make(&house, buffer, *id);
    }
    let Some((relation, records)) = opened(&house, buffer) else {
        return refuse(BAD_STORE, 0);
    };
    let records = changed(relation, records, call, buffer.len())?;
    write(buffer, relation, &records);
    Ok(())
}

/// What the store in a buffer holds.
pub fn contents(dictionary: &[u8], buffer: &[u8]) -> Result<Contents, Refusal> {
    let house = house(dictionary)?;
    let Some((relation, records)) = opened(&house, buffer) else {
        return refuse(BAD_STORE, 0);
    };
    let missing = missing_count(relation, &records);
    Ok(Contents { relation: relation.id, missing, records })
}
