//! Dictionaries and records, proper and damaged: the proved check, look-ups and records against the second program's.

use crate::proved;
use second::dictionary::{Dictionary, Relation};
use second::generate::rng::Rng;
use second::generate::{data, dictionaries, Size};
use second::record::{self, Cause};

/// The places of the entries of kind 1 in a proper dictionary, in order.
fn relation_places(bytes: &[u8]) -> Vec<usize> {
    let word = |at: usize| usize::from(u16::from_le_bytes([bytes[at], bytes[at + 1]]));
    let mut places = Vec::new();
    let mut at = 0;
    while at < bytes.len() {
        if word(at + 2) == 1 {
            places.push(at);
        }
        at += word(at);
    }
    places
}

/// The bytes of a dictionary: proper, damaged by a rule, cut, or with some bytes changed.
fn bytes(rng: &mut Rng) -> Vec<u8> {
    let dictionary = dictionaries::proper(rng, Size::Small);
    let mut bytes = match rng.below(4) {
        0 => {
            let way = rng.below(64);
            dictionaries::damaged(rng, &dictionary, way)
        }
        _ => dictionaries::encode(&dictionary),
    };
    match rng.below(6) {
        0 => bytes.truncate(rng.below(bytes.len() + 1)),
        1 if !bytes.is_empty() => {
            let at = rng.below(bytes.len());
            bytes[at] = if rng.one_in(2) { bytes[at].wrapping_add(1) } else { rng.byte() };
        }
        _ => {}
    }
    bytes
}

fn check(bytes: &[u8]) -> Option<String> {
    let (one, other) = (proved::check(bytes), Dictionary::check(bytes).err());
    (one != other).then(|| format!("check {bytes:02x?}: {one:?}, {other:?}"))
}

/// Every relation by its name and its id, and some that are not there.
fn look_ups(rng: &mut Rng, bytes: &[u8], dictionary: &Dictionary) -> Option<String> {
    let places = relation_places(bytes);
    let mut names: Vec<Vec<u8>> = dictionary.relations.iter().map(|r| r.name.clone()).collect();
    names.push(b"NOBODY".to_vec());
    names.push(Vec::new());
    let mut ids: Vec<u16> = dictionary.relations.iter().map(|relation| relation.id).collect();
    ids.push(rng.bits() as u16);
    for name in names {
        let (one, other) = (
            proved::relation_named(bytes, &name),
            dictionary.relation_by_name(&name).map(|index| places[index]),
        );
        if one != other {
            return Some(format!("relation {name:?} of {bytes:02x?}: {one:?}, {other:?}"));
        }
    }
    for id in ids {
        let (one, other) = (
            proved::relation_numbered(bytes, u32::from(id)),
            dictionary.relation_by_id(id).map(|index| places[index]),
        );
        if one != other {
            return Some(format!("relation {id} of {bytes:02x?}: {one:?}, {other:?}"));
        }
    }
    None
}

/// A run of records of some relations, often with a byte changed, a record left out or bytes added.
fn run_of(rng: &mut Rng, relations: &[&Relation]) -> Vec<u8> {
    let mut run = Vec::new();
    for relation in relations {
        if !rng.one_in(20) {
            run.extend(data::record(rng, relation, 8));
        }
    }
    match rng.below(5) {
        0 if !run.is_empty() => {
            let at = rng.below(run.len().min(12));
            run[at] ^= 1 << rng.below(8);
        }
        1 => run.truncate(rng.below(run.len() + 1)),
        2 => run.push(rng.byte()),
        _ => {}
    }
    run
}

fn records(rng: &mut Rng, bytes: &[u8], dictionary: &Dictionary) -> Option<String> {
    if dictionary.relations.is_empty() {
        return None;
    }
    let places = relation_places(bytes);
    let chosen: Vec<usize> =
        (0..rng.below(4)).map(|_| rng.below(dictionary.relations.len())).collect();
    let relations: Vec<&Relation> =
        chosen.iter().map(|index| &dictionary.relations[*index]).collect();
    let starts: Vec<u32> = chosen.iter().map(|index| places[*index] as u32).collect();
    let run = run_of(rng, &relations);
    let split = record::split(&relations, &run);
    let (one, other) = (proved::records(bytes, &starts, &run), split.as_ref().err().copied());
    if one != other {
        return Some(format!("records {run:02x?} of {bytes:02x?}: {one:?}, {other:?}"));
    }
    missing(bytes, &relations, &starts, &run, split.ok()?)
}

/// The number that the exports give to the cause of a missing field; no field is missing by a flag.
fn number(cause: Option<Cause>) -> u32 {
    match cause {
        None => 0,
        Some(Cause::Bit) => 1,
        Some(Cause::Reading) => 2,
        Some(Cause::Flag | Cause::Nothing) => {
            unreachable!("a field without a flag, and no statistic")
        }
    }
}

/// Which fields of proper records are missing and by which cause, and where each stands.
fn missing(
    bytes: &[u8],
    relations: &[&Relation],
    starts: &[u32],
    run: &[u8],
    entries: Vec<&[u8]>,
) -> Option<String> {
    let mut at = 0;
    for ((relation, start), entry) in relations.iter().zip(starts).zip(entries) {
        for field in 0..relation.fields.len() {
            let start = *start as usize;
            let one = proved::field(bytes, start, run, at, field);
            let other = (
                number(record::cause(relation, entry, field)),
                relation.field_offset(field),
                relation.entry_length(),
            );
            if one != other {
                return Some(format!(
                    "field {field} of {bytes:02x?} {run:02x?}: {one:?}, {other:?}"
                ));
            }
        }
        at += entry.len();
    }
    None
}

/// Runs so many cases and gives the number of differences.
pub fn run(seed: u64, count: usize) -> usize {
    let mut rng = Rng::new(seed);
    let (mut differences, mut proper) = (0, 0);
    for _ in 0..count {
        let bytes = bytes(&mut rng);
        let mut difference = check(&bytes);
        if let Ok(dictionary) = Dictionary::check(&bytes) {
            proper += 1;
            difference = difference
                .or_else(|| look_ups(&mut rng, &bytes, &dictionary))
                .or_else(|| records(&mut rng, &bytes, &dictionary));
        }
        if let Some(text) = difference {
            differences += 1;
            println!("differs: {text}");
        }
    }
    println!("dictionaries: {count} cases, {proper} of them proper, {differences} differences");
    differences
}
