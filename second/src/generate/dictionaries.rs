//! Dictionaries: proper ones of every field type, and damaged ones that break each rule.

use super::rng::Rng;
use super::Size;
use crate::datatype::DataType;
use crate::dictionary::{Dictionary, Field, Relation};
use crate::wire::{self, CSTRING, DATE, INT64, LONG, READING, SHORT, TEXT, VARYING};

/// The types of fields.
pub const FIELD_TYPES: [u8; 8] = [SHORT, LONG, TEXT, INT64, DATE, VARYING, CSTRING, READING];

/// A dictionary as entries; nothing is checked.
pub fn encode(dictionary: &Dictionary) -> Vec<u8> {
    let mut bytes = Vec::new();
    for relation in &dictionary.relations {
        let id = relation.id.to_le_bytes().to_vec();
        push_entry(&mut bytes, 1, &[id, counted(&relation.name)].concat());
        for (index, field) in relation.fields.iter().enumerate() {
            push_entry(&mut bytes, 2, &field_body(index, field));
        }
    }
    bytes
}

/// The body of a kind 2 entry.
fn field_body(index: usize, field: &Field) -> Vec<u8> {
    let mut body = (index as u16).to_le_bytes().to_vec();
    body.push(field.data.code);
    body.extend(field.data.scale.to_le_bytes());
    body.extend(field.data.size.to_le_bytes());
    body.extend(counted(&field.name));
    body
}

/// A counted name.
pub fn counted(name: &[u8]) -> Vec<u8> {
    [&[name.len() as u8], name].concat()
}

/// One entry: length word, kind word, body.
fn push_entry(bytes: &mut Vec<u8>, kind: u16, body: &[u8]) {
    bytes.extend((body.len() as u16 + 4).to_le_bytes());
    bytes.extend(kind.to_le_bytes());
    bytes.extend(body);
}

/// A field with a name.
pub fn field(code: u8, scale: i8, n: u16, name: &[u8]) -> Field {
    Field { name: name.to_vec(), data: DataType::new(code, scale, n) }
}

/// One relation that has a field of every type, for requests written by hand.
pub fn house() -> Dictionary {
    let fields = vec![
        field(SHORT, -2, 0, b"S"),
        field(LONG, 0, 0, b"L"),
        field(READING, -1, 0, b"H"),
        field(TEXT, 0, 3, b"T"),
        field(VARYING, 0, 3, b"V"),
        field(CSTRING, 0, 3, b"C"),
        field(DATE, 0, 0, b"D"),
        field(INT64, -3, 0, b"I"),
    ];
    Dictionary { relations: vec![Relation { id: 1, name: b"R".to_vec(), fields }] }
}

/// A proper dictionary.
pub fn proper(rng: &mut Rng, size: Size) -> Dictionary {
    let most = if size == Size::Small { 2 } else { rng.pick(&[1, 2, 3, 8]) };
    let mut dictionary = Dictionary::default();
    for _ in 0..rng.between(1, most) {
        let id = new_id(rng, &dictionary);
        let name = new_name(rng, size, |name| dictionary.relation_by_name(name).is_some());
        let mut relation = Relation { id, name, fields: Vec::new() };
        add_fields(rng, size, &mut relation);
        dictionary.relations.push(relation);
    }
    dictionary
}

/// Fields of random types.
fn add_fields(rng: &mut Rng, size: Size, relation: &mut Relation) {
    let most = if size == Size::Small { 4 } else { rng.pick(&[4, 9, 20]) };
    let least = if rng.one_in(16) { 0 } else { 2 };
    for _ in 0..rng.between(least, most) {
        let name = new_name(rng, size, |name| relation.field_by_name(name).is_some());
        let data = field_type(rng, size);
        relation.fields.push(Field { name, data });
    }
}

/// A type with a scale or n in range.
pub fn field_type(rng: &mut Rng, size: Size) -> DataType {
    let code = if rng.one_in(6) { READING } else { rng.pick(&FIELD_TYPES) };
    let is_number = matches!(code, SHORT | LONG | READING | INT64);
    let scale = if is_number { scale_of(rng, code) } else { 0 };
    DataType::new(code, scale, text_size(rng, size))
}

/// A scale from -9 to 0, often an end or one near it.
pub fn scale(rng: &mut Rng) -> i8 {
    if rng.one_in(4) {
        return -(rng.below(10) as i8);
    }
    rng.pick(&[0, 0, -1, -2, -9])
}

/// A scale of a type; that of type 16 is from -18 to 0.
pub fn scale_of(rng: &mut Rng, code: u8) -> i8 {
    if code == INT64 && rng.one_in(4) {
        return rng.pick(&[-10, -17, -18, -18]);
    }
    scale(rng)
}

/// An n of a text.
pub fn text_size(rng: &mut Rng, size: Size) -> u16 {
    match size {
        Size::Small => rng.between(1, 5) as u16,
        Size::Mixed => rng.pick(&[1, 2, 3, 4, 5, 8, 20, 60, 255]),
    }
}

/// A relation id that is not taken.
fn new_id(rng: &mut Rng, dictionary: &Dictionary) -> u16 {
    loop {
        let id = rng.pick(&[0, 1, 2, 3, 7, 12, 129, 255, 256, 1000, 32768, 65535]);
        if dictionary.relation_by_id(id).is_none() {
            return id;
        }
    }
}

/// A name that is not taken.
fn new_name(rng: &mut Rng, size: Size, taken: impl Fn(&[u8]) -> bool) -> Vec<u8> {
    loop {
        let longest = if size == Size::Small { 2 } else { rng.pick(&[2, 6, 12, 31]) };
        let length = rng.between(1, longest);
        let name: Vec<u8> = (0..length).map(|_| name_byte(rng)).collect();
        if !taken(&name) {
            return name;
        }
    }
}

/// A byte of a name.
fn name_byte(rng: &mut Rng) -> u8 {
    if rng.one_in(8) {
        return rng.pick(b"!~$_9az");
    }
    rng.between(usize::from(b'A'), usize::from(b'Z')) as u8
}

/// The starts of the entries of a dictionary made by `encode`.
fn entry_starts(bytes: &[u8]) -> Vec<usize> {
    let mut starts = Vec::new();
    let mut at = 0;
    while let Some(length) = wire::word(bytes, at) {
        starts.push(at);
        at += usize::from(length).max(4);
    }
    starts
}

/// The number of ways in which `damaged` breaks a rule.
pub const DAMAGES: usize = 25;

/// A dictionary that breaks a rule, `way` says which; damage at random may break none.
pub fn damaged(rng: &mut Rng, dictionary: &Dictionary, way: usize) -> Vec<u8> {
    let mut changed = dictionary.clone();
    if changed.relations.iter().all(|relation| relation.fields.is_empty()) {
        changed = house();
    }
    match way % DAMAGES {
        way @ 0..=7 => damage_bytes(rng, encode(&changed), way),
        way @ 8..=11 => {
            damage_relations(rng, &mut changed, way);
            encode(&changed)
        }
        way => {
            let with_fields = |relation: &&mut Relation| !relation.fields.is_empty();
            if let Some(relation) = changed.relations.iter_mut().rev().find(with_fields) {
                damage_field(rng, relation, way);
            }
            encode(&changed)
        }
    }
}

/// Damage to the entries themselves.
fn damage_bytes(rng: &mut Rng, mut bytes: Vec<u8>, way: usize) -> Vec<u8> {
    let start = rng.pick(&entry_starts(&bytes));
    match way {
        0 => bytes.truncate(rng.between(start + 1, bytes.len() - 1)),
        1 => bytes.extend(vec![0; rng.between(1, 4)]),
        2 => bytes[start + 2] = rng.pick(&[0, 3, 4, 5, 255]),
        3 => bytes[start] = bytes[start].wrapping_add(rng.pick(&[1, 255, 4])),
        4 => bytes[start] = rng.pick(&[0, 1, 3, 4, 7]),
        5 => drop(bytes.drain(..usize::from(bytes[0]))),
        6 => bytes[start + 3] = 1,
        _ => {
            let place = rng.below(bytes.len());
            bytes[place] = rng.byte();
        }
    }
    bytes
}

/// Ids and names of relations that repeat or are no names.
fn damage_relations(rng: &mut Rng, dictionary: &mut Dictionary, way: usize) {
    let mut copy = dictionary.relations[0].clone();
    copy.fields.truncate(1);
    match way {
        8 => copy.name = b"!!!".to_vec(),
        9 => copy.id ^= 512,
        10 => {
            copy.id ^= 512;
            copy.name = rng.pick(&[&b""[..], b"A B", b"\x7f", b"\x20", b"\xc3"]).to_vec();
        }
        _ => {
            copy.id ^= 512;
            copy.name = vec![b'N'; 32];
        }
    }
    dictionary.relations.push(copy);
}

/// A field whose name, type, scale or size breaks a rule.
fn damage_field(rng: &mut Rng, relation: &mut Relation, way: usize) {
    let at = rng.below(relation.fields.len());
    let field = &mut relation.fields[at];
    match way {
        12 => field.name = Vec::new(),
        13 => field.name = vec![b'N'; 32],
        14 => field.name = rng.pick(&[&b" "[..], b"A\x7f", b"\x00", b"\xff"]).to_vec(),
        15 => field.data.code = rng.pick(&[0, 9, 10, 11, 15, 17, 27, 199, 201]),
        16 => field.data = DataType::new(rng.pick(&[SHORT, LONG, READING]), -10, 0),
        17 => field.data = DataType::new(rng.pick(&[SHORT, LONG, READING, INT64]), 1, 0),
        18 => field.data = DataType::new(rng.pick(&[TEXT, DATE, VARYING, CSTRING]), -1, 3),
        19 => field.data.size = 0,
        20 => field.data = DataType::new(rng.pick(&[TEXT, VARYING, CSTRING]), 0, 256),
        21 => field.data.size ^= rng.pick(&[256, 512]),
        22 => {
            field.data = DataType { code: rng.pick(&[SHORT, LONG, DATE, INT64]), scale: 0, size: 3 }
        }
        23 => field.data = DataType::new(INT64, rng.pick(&[-19, 2, 127, -128]), 0),
        _ => {
            let repeated = field.clone();
            relation.fields.push(repeated);
        }
    }
}
