//! Requests, valid and damaged: the proved reader against the second program's, with every number of every table.

use crate::proved;
use second::generate::rng::Rng;
use second::generate::{self, Case, Size};
use second::hex;
use second::reader::{self, TABLE_LENGTHS};

const DICTIONARY: &str = include_str!("../../second/tests/real/dictionary.hex");
const REQUESTS: &str = include_str!("../../second/tests/real/requests.jsonl");
const CONDITIONS: &str = include_str!("../../second/tests/real/conditions.jsonl");
const AGREED: [&str; 3] = [
    include_str!("../../second/tests/agreed/no-04.txt"),
    include_str!("../../second/tests/agreed/no-07.txt"),
    include_str!("../../second/tests/agreed/no-08.txt"),
];

/// Lengths of the three tables: those of the case, exact, great, or a little short in one.
fn lengths(rng: &mut Rng, case: &Case) -> [usize; 3] {
    let mut lengths = match case {
        Case::Read { lengths, .. } => *lengths,
        Case::Evaluate { .. } | Case::Value { .. } => TABLE_LENGTHS,
    };
    match rng.below(8) {
        0 => lengths[rng.below(3)] = rng.below(40),
        1 => lengths = lengths.map(|length| length + rng.below(100)),
        2 => {
            let table = rng.below(3);
            lengths[table] = TABLE_LENGTHS[table] - 1;
        }
        _ => {}
    }
    lengths
}

/// A table with numbers in it that no reading has written.
fn rubbish(rng: &mut Rng, length: usize) -> Vec<u32> {
    (0..length).map(|_| rng.bits() as u32).collect()
}

/// What differs between both readings of a request; the number of the refusal, or 0.
fn differ(
    rng: &mut Rng,
    dictionary: &[u8],
    request: &[u8],
    lengths: [usize; 3],
) -> (Option<String>, usize) {
    let mut one = lengths.map(|length| rubbish(rng, length));
    let mut other = one.clone();
    let [statements, parameters, contexts] = &mut one;
    let proved = proved::read(request, dictionary, statements, parameters, contexts);
    let [statements, parameters, contexts] = &mut other;
    let plain = reader::read(request, dictionary, statements, parameters, contexts)
        .map(|counts| [counts.statements, counts.parameters, counts.contexts])
        .map_err(|refusal| (refusal.number, refusal.place as u32));
    let number = plain.err().map_or(0, |(number, _)| number as usize);
    if proved != plain {
        let text = format!(
            "read {} {}: {proved:?}, {plain:?}",
            hex::write(dictionary),
            hex::write(request)
        );
        return (Some(text), number);
    }
    let table = (0..3).find(|table| one[*table] != other[*table]);
    let text = table.map(|table| {
        format!("table {table} of {} {}", hex::write(dictionary), hex::write(request))
    });
    (text, number)
}

/// The requests of a real implementation.
fn real() -> Vec<Vec<u8>> {
    let key = "\"request\": \"";
    REQUESTS
        .lines()
        .chain(CONDITIONS.lines())
        .filter_map(|line| {
            let rest = &line[line.find(key)? + key.len()..];
            hex::read(&rest[..rest.find('"')?])
        })
        .collect()
}

/// The readings that independent programs agreed on: dictionary, request and the lengths of the tables.
fn agreed() -> Vec<(Vec<u8>, Vec<u8>, [usize; 3])> {
    let bytes = |text: &str| hex::read(text).expect("hex digits");
    AGREED
        .iter()
        .flat_map(|text| text.lines())
        .filter_map(|line| {
            let words: Vec<&str> = line.split(' ').collect();
            let ["read", dictionary, request, statements, parameters, contexts, ..] = words[..]
            else {
                return None;
            };
            let lengths =
                [statements, parameters, contexts].map(|word| word.parse().expect("a length"));
            Some((bytes(dictionary), bytes(request), lengths))
        })
        .collect()
}

/// Runs so many generated cases, the real requests and those agreed on, and gives the number of differences.
pub fn run(seed: u64, count: usize) -> usize {
    let mut rng = Rng::new(seed);
    let (mut differences, mut numbers) = (0, [0usize; 17]);
    let mut note = |(difference, number): (Option<String>, usize)| {
        numbers[number] += 1;
        if let Some(text) = difference {
            differences += 1;
            println!("differs: {text}");
        }
    };
    for case in generate::cases(Size::Mixed, seed, count) {
        let (dictionary, request) = case.bytes();
        let lengths = lengths(&mut rng, &case);
        note(differ(&mut rng, dictionary, request, lengths));
    }
    let dictionary = hex::read(DICTIONARY.trim()).expect("hex digits");
    let requests = real();
    for request in &requests {
        note(differ(&mut rng, &dictionary, request, TABLE_LENGTHS));
    }
    let agreed = agreed();
    for (dictionary, request, lengths) in &agreed {
        note(differ(&mut rng, dictionary, request, *lengths));
    }
    let unseen: Vec<usize> = (0..17).filter(|number| numbers[*number] == 0).collect();
    println!(
        "requests: {count} cases, {} real ones and {} agreed on, {differences} differences",
        requests.len(),
        agreed.len()
    );
    if !unseen.is_empty() {
        println!("requests: no case is refused with {unseen:?}");
    }
    differences + unseen.len()
}
