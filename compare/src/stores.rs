//! Calls on stores, one after another: the proved functions against the second program's, with every byte of the buffer.

use crate::proved;
use second::datatype::DataType;
use second::dictionary::{Dictionary, Field, Relation};
use second::generate::rng::Rng;
use second::generate::{data, dictionaries, Size};
use second::hex;
use second::refusal::Refusal;
use second::store::{self, Call};
use second::wire::TEXT;

/// Calls of one buffer.
const CALLS: usize = 20;

/// The refusals that have to come up, and 0 for a call that is done.
const NUMBERS: [usize; 7] = [0, 3, 12, 50, 51, 52, 53];

fn pair(refusal: Refusal) -> (u32, usize) {
    (refusal.number, refusal.place)
}

/// A relation whose records pass 4,096 bytes, or just do not.
fn wide(rng: &mut Rng) -> Dictionary {
    let data = DataType::new(TEXT, 0, 255);
    let field = |index: usize| Field { name: format!("F{index}").into_bytes(), data };
    let fields = (0..rng.between(16, 17)).map(field).collect();
    Dictionary { relations: vec![Relation { id: 1, name: b"WIDE".to_vec(), fields }] }
}

/// A dictionary, sometimes one that breaks a rule, and what the proper one says.
fn house(rng: &mut Rng) -> (Vec<u8>, Dictionary) {
    let dictionary =
        if rng.one_in(30) { wide(rng) } else { dictionaries::proper(rng, Size::Small) };
    let bytes = if rng.one_in(16) {
        let way = rng.below(64);
        dictionaries::damaged(rng, &dictionary, way)
    } else {
        dictionaries::encode(&dictionary)
    };
    (bytes, dictionary)
}

/// A buffer of any bytes: of a length at a boundary, or with room for a few records.
fn buffer(rng: &mut Rng, record: usize) -> Vec<u8> {
    let length = match rng.below(40) {
        0 => 0,
        1 => 9,
        2 => 10,
        3 => 65_535,
        4 => 65_536,
        _ => 10 + rng.below(6) * record + rng.below(record + 1),
    };
    (0..length).map(|_| rng.byte()).collect()
}

/// A record of the relation, sometimes cut, longer, changed in its first bytes, or of another relation.
fn entry(rng: &mut Rng, dictionary: &Dictionary, relation: &Relation) -> Vec<u8> {
    let mut entry = data::record(rng, relation, 8);
    match rng.below(12) {
        0 => entry.truncate(rng.below(entry.len() + 1)),
        1 => entry.push(rng.byte()),
        2 => {
            let at = rng.below(entry.len().min(8));
            entry[at] ^= 1 << rng.below(8);
        }
        3 => {
            let other = rng.below(dictionary.relations.len());
            entry = data::record(rng, &dictionary.relations[other], 8);
        }
        _ => {}
    }
    entry
}

/// A position, often of a record.
fn position(rng: &mut Rng) -> usize {
    match rng.below(10) {
        0 => usize::MAX >> rng.below(64),
        _ => rng.below(5),
    }
}

fn call(rng: &mut Rng, dictionary: &Dictionary, relation: &Relation) -> Call {
    match rng.below(16) {
        0 => Call::Make(u32::from(relation.id)),
        1 => Call::Make(rng.bits() as u32 >> rng.below(32)),
        2..=4 => Call::Erase(position(rng)),
        5..=8 => Call::Replace(position(rng), entry(rng, dictionary, relation)),
        _ => Call::Add(entry(rng, dictionary, relation)),
    }
}

/// What differs between both after a call; the number of the refusal, or 0.
fn differ(dictionary: &[u8], buffer: &mut Vec<u8>, call: &Call) -> (Option<String>, usize) {
    let mut other = buffer.clone();
    let before = buffer.clone();
    let proved = proved::store_call(dictionary, buffer, call);
    let plain = store::call(dictionary, &mut other, call).map_err(pair);
    let number = plain.err().map_or(0, |(number, _)| number as usize);
    let same = proved == plain && *buffer == other && (plain.is_ok() || before == other);
    let text = (!same).then(|| {
        format!(
            "{call:?} on {} beside {}: {proved:?}, {plain:?}",
            hex::write(&before),
            hex::write(dictionary)
        )
    });
    (text, number)
}

/// What differs between both readings of a store, with the place of every record and of one too many.
fn read(dictionary: &[u8], buffer: &[u8]) -> Option<String> {
    let contents = store::contents(dictionary, buffer).map_err(pair);
    let counts = contents
        .as_ref()
        .map(|contents| [usize::from(contents.relation), contents.records.len(), contents.missing]);
    let proved = proved::store_read(dictionary, buffer);
    let mut same = proved == counts.map_err(|refusal| *refusal);
    let mut at = store::HEADER;
    let records = contents.as_ref().map_or(&[][..], |contents| &contents.records);
    for (position, record) in records.iter().enumerate() {
        let found = proved::store_find(dictionary, buffer, position);
        same &= found == Ok([at, record.len(), 0]) && buffer[at..at + record.len()] == *record;
        at += record.len();
    }
    let beyond = contents.as_ref().err().copied().unwrap_or((51, 0));
    same &= proved::store_find(dictionary, buffer, records.len()) == Err(beyond);
    (!same).then(|| format!("read {} beside {}", hex::write(buffer), hex::write(dictionary)))
}

/// The calls that independent programs agreed on.
const AGREED: &str = include_str!("../../second/tests/agreed/no-10.txt");

/// The outcome of an agreed line's input, by the proved functions, in the words of the line.
fn outcome(input: &str) -> Option<String> {
    let parts: Vec<&str> = input.split(' ').collect();
    let (dictionary, mut buffer) = (hex::read(parts[0])?, hex::read(parts[1])?);
    let call = match parts[2..] {
        ["records"] => return Some(listed(&dictionary, &buffer).unwrap_or_else(refused)),
        ["make", id] => Call::Make(id.parse().ok()?),
        ["add", entry] => Call::Add(hex::read(entry)?),
        ["erase", position] => Call::Erase(position.parse().ok()?),
        ["replace", position, entry] => Call::Replace(position.parse().ok()?, hex::read(entry)?),
        _ => return None,
    };
    let done = proved::store_call(&dictionary, &mut buffer, &call);
    Some(done.map(|()| hex::write(&buffer)).unwrap_or_else(refused))
}

fn refused((number, place): (u32, usize)) -> String {
    format!("refused {number} {place}")
}

/// What a store holds, in the words of an agreed line.
fn listed(dictionary: &[u8], buffer: &[u8]) -> Result<String, (u32, usize)> {
    let [relation, count, missing] = proved::store_read(dictionary, buffer)?;
    let mut records = Vec::new();
    for position in 0..count {
        let [at, length, _] = proved::store_find(dictionary, buffer, position)?;
        records.push(hex::write(&buffer[at..at + length]));
    }
    let records = if records.is_empty() { "none".to_string() } else { records.join(" ") };
    Ok(format!("relation {relation} missing {missing} records {records}"))
}

/// The agreed lines whose outcome is another, printed.
fn disagreed() -> usize {
    let differs = |line: &&str| {
        let (input, due) = line.split_once(" = ").unwrap_or_default();
        outcome(input).as_deref() != Some(due)
    };
    AGREED.lines().filter(differs).inspect(|line| println!("differs: {line}")).count()
}

/// Runs so many calls and gives the number of differences.
pub fn run(seed: u64, count: usize) -> usize {
    let mut rng = Rng::new(seed);
    let (mut differences, mut numbers) = (disagreed(), [0usize; 64]);
    for _ in 0..count.div_ceil(CALLS) {
        let (bytes, dictionary) = house(&mut rng);
        if dictionary.relations.is_empty() {
            continue;
        }
        let relation = &dictionary.relations[rng.below(dictionary.relations.len())];
        let mut buffer = buffer(&mut rng, relation.entry_length());
        for turn in 0..CALLS {
            let call = match turn {
                0 if !rng.one_in(4) => Call::Make(u32::from(relation.id)),
                _ => call(&mut rng, &dictionary, relation),
            };
            let (text, number) = differ(&bytes, &mut buffer, &call);
            numbers[number] += 1;
            for text in text.into_iter().chain(read(&bytes, &buffer)) {
                differences += 1;
                println!("differs: {text}");
            }
            if rng.one_in(60) && !buffer.is_empty() {
                let at = rng.below(buffer.len().min(40));
                buffer[at] ^= 1 << rng.below(8);
            }
        }
    }
    let calls: usize = numbers.iter().sum();
    let unseen: Vec<usize> = NUMBERS.into_iter().filter(|number| numbers[*number] == 0).collect();
    let counts: Vec<String> =
        NUMBERS.iter().map(|number| format!("{number}: {}", numbers[*number])).collect();
    println!(
        "stores: {calls} calls ({}) and {} agreed on, {differences} differences",
        counts.join(", "),
        AGREED.lines().count()
    );
    if !unseen.is_empty() || calls < count / 2 {
        println!("stores: {unseen:?} do not come up, or too few calls");
    }
    differences + unseen.len()
}
