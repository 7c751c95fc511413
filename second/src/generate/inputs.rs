//! Inputs of the listing program: document 01's request S and its alterations, the greatest sizes,
//! input that is not two entries, and generated requests.

use super::boundaries::{dictionary_of_length, request_of_length, request_sizes};
use super::dictionaries::{self, field};
use super::{cases, Size};
use crate::dictionary::{Dictionary, Relation};
use crate::wire::{READING, TEXT};

/// The longest body that the length word of an entry can count.
const LONGEST_BODY: usize = 65_531;

/// Document 01's request S.
pub const S: [u8; 41] = [
    0x04, 0x02, 0x04, 0x00, 0x01, 0x00, 0x07, 0x00, 0x07, 0x43, 0x01, 0x4B, 0x01, 0x00, 0x00, 0x47,
    0x31, 0x18, 0x00, 0x00, 0x00, 0x15, 0x07, 0xFF, 0x2C, 0x01, 0xFF, 0x0E, 0x00, 0x01, 0x15, 0x07,
    0x00, 0x01, 0x00, 0x19, 0x00, 0x00, 0x00, 0xFF, 0x4C,
];

/// The first inputs: those written by hand, then generated ones of a seed.
pub fn inputs(seed: u64, count: usize) -> Vec<Vec<u8>> {
    let by_hand = [alterations(), greatest(), cut_and_lengthened(), wrong_words(), too_long()];
    let generated = cases(Size::Mixed, seed, usize::MAX).filter_map(|case| {
        let (dictionary, request) = case.bytes();
        let fits = dictionary.len() <= LONGEST_BODY && request.len() <= LONGEST_BODY;
        fits.then(|| input(dictionary, request))
    });
    by_hand.into_iter().flatten().chain(generated).take(count).collect()
}

/// The dictionary of document 01's examples: relation 1 BEDS with HEAT and NAME.
fn beds() -> Vec<u8> {
    let fields = vec![field(READING, -1, 0, b"HEAT"), field(TEXT, 0, 4, b"NAME")];
    let relation = Relation { id: 1, name: b"BEDS".to_vec(), fields };
    dictionaries::encode(&Dictionary { relations: vec![relation] })
}

/// One entry: length word, kind word, body.
pub fn entry(kind: u16, body: &[u8]) -> Vec<u8> {
    let length = (body.len() + 4) as u16;
    [&length.to_le_bytes()[..], &kind.to_le_bytes(), body].concat()
}

/// A dictionary and a request as the two entries of an input.
fn input(dictionary: &[u8], request: &[u8]) -> Vec<u8> {
    [entry(4, dictionary), entry(5, request)].concat()
}

/// An input with some of its bytes replaced.
fn with(mut input: Vec<u8>, place: usize, bytes: &[u8]) -> Vec<u8> {
    input[place..place + bytes.len()].copy_from_slice(bytes);
    input
}

/// S, the alterations of it that document 01 names, S with each byte one higher, and empty bodies.
fn alterations() -> Vec<Vec<u8>> {
    let changed = |place: usize, byte: u8| with(S.to_vec(), place, &[byte]);
    let mut requests = vec![S.to_vec(), S[..40].to_vec(), [&S[..], &[0]].concat(), Vec::new()];
    for (place, byte) in [
        (0, 3),
        (0, 5),
        (0, 6),
        (18, 1),
        (19, 1),
        (19, 2),
        (36, 5),
        (37, 1),
        (23, 0xF7),
        (23, 0xF6),
    ] {
        requests.push(changed(place, byte));
    }
    requests.extend((0..S.len()).map(|place| changed(place, S[place].wrapping_add(1))));
    let mut inputs: Vec<Vec<u8>> = requests.iter().map(|request| input(&beds(), request)).collect();
    inputs.extend([input(&[], &S), input(&[], &[])]);
    inputs
}

/// The greatest sizes of a request on both sides, and the longest bodies.
fn greatest() -> Vec<Vec<u8>> {
    let sizes = request_sizes(Size::Mixed);
    let mut inputs: Vec<Vec<u8>> = sizes
        .iter()
        .map(|case| {
            let (dictionary, request) = case.bytes();
            input(dictionary, request)
        })
        .collect();
    inputs.push(longest());
    inputs
}

/// A dictionary and a request of the longest bodies.
fn longest() -> Vec<u8> {
    let dictionary = dictionaries::encode(&dictionary_of_length(LONGEST_BODY));
    input(&dictionary, &request_of_length(LONGEST_BODY))
}

/// S's input cut, with more bytes behind it, with an entry left out, and with its entries swapped.
fn cut_and_lengthened() -> Vec<Vec<u8>> {
    let [dictionary, request] = [entry(4, &beds()), entry(5, &S)];
    let whole = input(&beds(), &S);
    let second = dictionary.len();
    let places = [0, 1, 2, 3, 4, 5, second - 1, second, second + 1, second + 2, second + 3];
    let mut inputs: Vec<Vec<u8>> = places.iter().map(|place| whole[..*place].to_vec()).collect();
    inputs.extend([second + 4, whole.len() - 1].map(|place| whole[..place].to_vec()));
    for more in [&[0][..], &[0, 0], &[4, 0, 5, 0], &dictionary, &request] {
        inputs.push([&whole, more].concat());
    }
    inputs.extend([request.clone(), [request, dictionary].concat()]);
    inputs
}

/// S's input with other kinds and other lengths of its two entries.
fn wrong_words() -> Vec<Vec<u8>> {
    let whole = input(&beds(), &S);
    let second = beds().len() + 4;
    let mut inputs = Vec::new();
    for kind in [0u16, 1, 2, 3, 4, 5, 6, 0x0104, 0x0105, 0x0400, 0x0500, 0xFFFF] {
        for start in [0, second] {
            inputs.push(with(whole.clone(), start + 2, &kind.to_le_bytes()));
        }
    }
    for start in [0, second] {
        let length = u16::from_le_bytes([whole[start], whole[start + 1]]);
        for length in [0, 1, 2, 3, 4, length - 1, length + 1, length + 256, 0xFFFF] {
            inputs.push(with(whole.clone(), start, &length.to_le_bytes()));
        }
    }
    inputs
}

/// Inputs longer than two entries can be.
fn too_long() -> Vec<Vec<u8>> {
    [1, 2, 4096, 65_536].map(|more| [longest(), vec![0; more]].concat()).to_vec()
}
