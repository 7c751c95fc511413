//! What several tests use: entries, dictionaries, and readings with tables of the least lengths.
#![allow(dead_code)]

pub use second::generate::inputs::S;
use second::reader::{self, Counts, TABLE_LENGTHS};
use second::refusal::Refusal;

/// An entry: length word, kind word, body.
pub fn entry(kind: u16, body: &[u8]) -> Vec<u8> {
    let length = u16::try_from(4 + body.len()).expect("an entry's length is a word");
    let mut bytes = length.to_le_bytes().to_vec();
    bytes.extend(kind.to_le_bytes());
    bytes.extend(body);
    bytes
}

/// A kind 1 entry.
pub fn relation(id: u16, name: &str) -> Vec<u8> {
    let mut body = id.to_le_bytes().to_vec();
    body.push(name.len() as u8);
    body.extend(name.bytes());
    entry(1, &body)
}

/// A kind 2 entry.
pub fn field(id: u16, code: u8, scale: i8, size: u16, name: &str) -> Vec<u8> {
    let mut body = id.to_le_bytes().to_vec();
    body.push(code);
    body.extend(scale.to_le_bytes());
    body.extend(size.to_le_bytes());
    body.push(name.len() as u8);
    body.extend(name.bytes());
    entry(2, &body)
}

/// Document 01's dictionary: relation 1 BEDS with HEAT (200, scale -1) and NAME (text 4).
pub fn beds() -> Vec<u8> {
    [relation(1, "BEDS"), field(0, 200, -1, 2, "HEAT"), field(1, 14, 0, 4, "NAME")].concat()
}

/// A record of BEDS.
pub fn bed(missing: u8, heat: u16, name: &[u8; 4]) -> Vec<u8> {
    let mut body = vec![1, 0, missing];
    body.extend(heat.to_le_bytes());
    body.extend(name);
    entry(3, &body)
}

/// S with one byte changed.
pub fn altered(place: usize, byte: u8) -> Vec<u8> {
    let mut request = S.to_vec();
    request[place] = byte;
    request
}

/// Version, begin, the parts, end, eoc.
pub fn request(parts: &[&[u8]]) -> Vec<u8> {
    [&[4, 2], parts.concat().as_slice(), &[255, 76]].concat()
}

/// A counted name.
pub fn name(name: &str) -> Vec<u8> {
    [&[name.len() as u8], name.as_bytes()].concat()
}

/// Reads with tables of the least lengths.
pub fn read(request: &[u8], dictionary: &[u8]) -> Result<Counts, Refusal> {
    let [mut statements, mut parameters, mut contexts] =
        TABLE_LENGTHS.map(|length| vec![0; length]);
    reader::read(request, dictionary, &mut statements, &mut parameters, &mut contexts)
}

/// The number and place of a refusal.
pub fn refused(request: &[u8], dictionary: &[u8]) -> (u32, usize) {
    let refusal = read(request, dictionary).expect_err("a refusal");
    (refusal.number, refusal.place)
}

/// Whether the request is accepted.
pub fn accepted(request: &[u8], dictionary: &[u8]) -> bool {
    read(request, dictionary).is_ok()
}
