//! Records as the library takes them.

/// A field of a record, as it is stored. A size is that of the dictionary's field.
#[derive(Clone, Copy, PartialEq, Eq, Hash, Debug)]
#[non_exhaustive]
pub enum Field<'a> {
    /// A house reading: two bytes, unsigned. 65535 is what a node sends that could not measure, and counts as missing.
    Reading(u16),
    /// A short: two bytes, signed.
    Short(i16),
    /// A long: four bytes, signed.
    Long(i32),
    /// A number of type 16: eight bytes, signed. It is missing by its bit only.
    Int64(i64),
    /// A date: a day, and a fraction of it.
    Date(i32, u32),
    /// The bytes of a field of any type, all of them: a text filled with blanks, a varying's length word and its bytes.
    Bytes(&'a [u8]),
    /// A missing field of so many bytes: its missing bit is set, and the bytes are zeros.
    Missing(usize),
}

/// A record of a relation, by its id and its fields in the dictionary's order: an entry of kind 3.
///
/// Nothing is tested here: a record that does not fit its relation is refused where it is used ([`Reason::BadRecords`],
/// [`Reason::WrongRecord`]). So is one over 65,535 bytes, whose length no entry holds.
///
/// [`Reason::BadRecords`]: crate::Reason::BadRecords
/// [`Reason::WrongRecord`]: crate::Reason::WrongRecord
///
/// ```
/// use greenblr::{record, Field};
///
/// let bed = record(1, &[Field::Reading(301), Field::Bytes(b"ABCD")]);
/// assert_eq!(bed, *b"\x0d\0\x03\0\x01\0\0\x2d\x01ABCD");
/// let unfilled = record(1, &[Field::Missing(2), Field::Bytes(b"ABCD")]);
/// assert_eq!(unfilled, *b"\x0d\0\x03\0\x01\0\x01\0\0ABCD");
/// ```
pub fn record(relation: u16, fields: &[Field<'_>]) -> Vec<u8> {
    const KIND: u16 = 3;
    const HEAD: usize = 6;
    let mut entry = vec![0; HEAD + fields.len().div_ceil(8)];
    for (i, field) in fields.iter().enumerate() {
        match field {
            Field::Reading(number) => entry.extend(number.to_le_bytes()),
            Field::Short(number) => entry.extend(number.to_le_bytes()),
            Field::Long(number) => entry.extend(number.to_le_bytes()),
            Field::Int64(number) => entry.extend(number.to_le_bytes()),
            Field::Date(day, fraction) => {
                entry.extend(day.to_le_bytes());
                entry.extend(fraction.to_le_bytes());
            }
            Field::Bytes(bytes) => entry.extend_from_slice(bytes),
            Field::Missing(size) => {
                entry[HEAD + i / 8] |= 1 << (i % 8);
                entry.resize(entry.len() + size, 0);
            }
        }
    }
    let length = u16::try_from(entry.len()).unwrap_or(u16::MAX);
    entry[0..2].copy_from_slice(&length.to_le_bytes());
    entry[2..4].copy_from_slice(&KIND.to_le_bytes());
    entry[4..6].copy_from_slice(&relation.to_le_bytes());
    entry
}

/// A run: an entry of kind 7 that holds records of one relation, each made by [`record`](crate::record()).
///
/// Nothing is tested here: a run that is not as due is refused where it is used ([`Reason::BadRuns`]). So is one over 65,535 bytes,
/// whose length no entry holds.
///
/// [`Reason::BadRuns`]: crate::Reason::BadRuns
///
/// ```
/// use greenblr::{record, run, Field};
///
/// let beds = [301, 300].map(|heat| record(1, &[Field::Reading(heat)]));
/// assert_eq!(run(&beds), *b"\x16\0\x07\0\x09\0\x03\0\x01\0\0\x2d\x01\x09\0\x03\0\x01\0\0\x2c\x01");
/// assert_eq!(run::<Vec<u8>>(&[]), *b"\x04\0\x07\0");
/// ```
pub fn run<R: AsRef<[u8]>>(records: &[R]) -> Vec<u8> {
    const KIND: u16 = 7;
    let mut entry = vec![0; 4];
    for record in records {
        entry.extend_from_slice(record.as_ref());
    }
    let length = u16::try_from(entry.len()).unwrap_or(u16::MAX);
    entry[0..2].copy_from_slice(&length.to_le_bytes());
    entry[2..4].copy_from_slice(&KIND.to_le_bytes());
    entry
}
