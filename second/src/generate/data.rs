//! Data of all types: numbers with the ends of their ranges, texts with blanks and pattern bytes,
//! dates, message images and records.

use super::rng::Rng;
use crate::datatype::DataType;
use crate::dictionary::{Dictionary, Relation};
use crate::reader::parsed::{Condition, Parsed};
use crate::record::GREATEST_LENGTH;
use crate::wire::{CSTRING, DATE, INT64, LONG, READING, SHORT, VARYING};

/// Bytes of texts: few letters in both cases, so that texts are often equal, and what the tests
/// treat apart.
const TEXT_BYTES: &[u8] = b"aaaAbbB   **??\x1f~";

/// A short, often an end of the range or a number near zero.
pub fn short(rng: &mut Rng) -> i16 {
    let usual = [0, 0, 1, -1, 2, 3, -7, 10, 30, 300, i16::MAX, i16::MIN];
    if rng.one_in(4) {
        return (rng.bits() % 65536) as u16 as i16;
    }
    rng.pick(&usual)
}

/// A long, often an end of the range or a number near zero.
pub fn long(rng: &mut Rng) -> i32 {
    let usual = [0, 0, 1, -1, 2, -7, 30, 300, 1_000_000_000, i32::MAX, i32::MIN];
    if rng.one_in(4) {
        return (rng.bits() >> 32) as u32 as i32;
    }
    rng.pick(&usual)
}

/// A 64-bit integer, often an end of the range, a power of ten or a number near zero.
pub fn int64(rng: &mut Rng) -> i64 {
    let ten = 10i64.pow(rng.below(19) as u32);
    let usual = [0, 0, 1, -1, 2, -7, 30, 300, ten, -ten, ten - 1, i64::MAX, i64::MIN];
    if rng.one_in(4) {
        return rng.bits() as i64;
    }
    rng.pick(&usual)
}

/// A text of n bytes.
pub fn text(rng: &mut Rng, n: usize) -> Vec<u8> {
    let mut bytes: Vec<u8> = (0..n).map(|_| rng.pick(TEXT_BYTES)).collect();
    let blanks = rng.below(n + 1).min(rng.below(4));
    bytes[n - blanks..].fill(b' ');
    bytes
}

/// A reading, often one at an end of the range.
fn reading(rng: &mut Rng) -> u16 {
    let usual = [0, 1, 3, 30, 300, 65534, 65535, 65535, 65535];
    if rng.one_in(4) {
        return (rng.bits() % 65536) as u16;
    }
    rng.pick(&usual)
}

/// A date: signed day, unsigned fraction.
fn date(rng: &mut Rng) -> Vec<u8> {
    let day: i32 = rng.pick(&[0, 0, 1, -1, 50_000, i32::MAX, i32::MIN]);
    let fraction: u32 = rng.pick(&[0, 0, 1, 863_999_999, 1 << 31, u32::MAX]);
    [day.to_le_bytes(), fraction.to_le_bytes()].concat()
}

/// A varying of n+2 bytes; malformed if its length is above n.
pub fn varying(rng: &mut Rng, n: usize, malformed: bool) -> Vec<u8> {
    let length = if malformed { rng.pick(&[n + 1, n + 256, 65535]) } else { rng.between(0, n) };
    let mut bytes = (length as u16).to_le_bytes().to_vec();
    bytes.extend(text(rng, n));
    bytes
}

/// A cstring of n bytes; malformed if it has no zero.
pub fn cstring(rng: &mut Rng, n: usize, malformed: bool) -> Vec<u8> {
    let mut bytes = text(rng, n);
    if !malformed {
        let zero = rng.below(n);
        bytes[zero] = 0;
    }
    bytes
}

/// The bytes of a parameter or field; a varying or cstring is malformed once in `malformed` times.
pub fn stored(rng: &mut Rng, data: DataType, malformed: usize) -> Vec<u8> {
    let n = usize::from(data.size);
    match data.code {
        SHORT => short(rng).to_le_bytes().to_vec(),
        LONG => long(rng).to_le_bytes().to_vec(),
        INT64 => int64(rng).to_le_bytes().to_vec(),
        READING => reading(rng).to_le_bytes().to_vec(),
        DATE => date(rng),
        VARYING => {
            let malformed = rng.one_in(malformed);
            varying(rng, n, malformed)
        }
        CSTRING => {
            let malformed = rng.one_in(malformed);
            cstring(rng, n, malformed)
        }
        _ => text(rng, n),
    }
}

/// The images of all messages. Half of the numbers that could be flags are zero.
pub fn messages(rng: &mut Rng, parsed: &Parsed, malformed: usize) -> Vec<u8> {
    let parameters = parsed.messages.iter().flat_map(|message| &message.parameters);
    let mut bytes = Vec::new();
    for data in parameters {
        let is_number = matches!(data.code, SHORT | LONG | INT64);
        if is_number && rng.one_in(3) {
            bytes.extend(vec![0; data.held()]);
        } else {
            bytes.extend(stored(rng, *data, malformed));
        }
    }
    bytes
}

/// A proper record of a relation; a field's bit is set once in six times.
pub fn record(rng: &mut Rng, relation: &Relation, malformed: usize) -> Vec<u8> {
    let mut bits = vec![0u8; relation.fields.len().div_ceil(8)];
    let mut fields = Vec::new();
    for (index, field) in relation.fields.iter().enumerate() {
        if rng.one_in(6) {
            bits[index / 8] |= 1 << (index % 8);
        }
        fields.extend(stored(rng, field.data, malformed));
    }
    let length = relation.entry_length() as u16;
    let mut entry = [length.to_le_bytes(), 3u16.to_le_bytes(), relation.id.to_le_bytes()].concat();
    entry.extend(bits);
    entry.extend(fields);
    entry
}

/// Proper records for the contexts in scope at a condition, each apart.
pub fn records(
    rng: &mut Rng,
    parsed: &Parsed,
    dictionary: &Dictionary,
    condition: &Condition,
    malformed: usize,
) -> Vec<Vec<u8>> {
    records_for(rng, parsed, dictionary, &condition.contexts, malformed)
}

/// Proper records for contexts, each apart.
pub fn records_for(
    rng: &mut Rng,
    parsed: &Parsed,
    dictionary: &Dictionary,
    contexts: &[usize],
    malformed: usize,
) -> Vec<Vec<u8>> {
    let mut records = Vec::new();
    for context in contexts {
        let relation = &dictionary.relations[parsed.contexts[*context].relation];
        records.push(record(rng, relation, malformed));
    }
    records
}

/// A run: an entry of kind 7 with records.
pub fn run(records: &[Vec<u8>]) -> Vec<u8> {
    let body = records.concat();
    let length = (body.len() + 4) as u16;
    [&length.to_le_bytes()[..], &7u16.to_le_bytes(), &body].concat()
}

/// Proper runs for a condition, each apart.
pub fn runs(
    rng: &mut Rng,
    parsed: &Parsed,
    dictionary: &Dictionary,
    condition: &Condition,
    malformed: usize,
) -> Vec<Vec<u8>> {
    runs_for(rng, parsed, dictionary, &condition.runs, malformed)
}

/// Proper runs for contexts, each apart. Of a relation with records too long a run is empty.
pub fn runs_for(
    rng: &mut Rng,
    parsed: &Parsed,
    dictionary: &Dictionary,
    contexts: &[usize],
    malformed: usize,
) -> Vec<Vec<u8>> {
    let mut runs = Vec::new();
    for context in contexts {
        let relation = &dictionary.relations[parsed.contexts[*context].relation];
        let is_long = relation.entry_length() > GREATEST_LENGTH;
        let count = if is_long { 0 } else { rng.pick(&[0, 1, 1, 2, 2, 3, 5]) };
        let records: Vec<Vec<u8>> = (0..count).map(|_| record(rng, relation, malformed)).collect();
        runs.push(run(&records));
    }
    runs
}
