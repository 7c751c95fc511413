//! Stores (document 02, No. 10): the calls that independent programs agreed on, and each refusal.

mod common;

use common::{bed, beds, entry, field, relation};
use second::hex;
use second::refusal::Refusal;
use second::store::{self, Call, Contents};

const AGREED: &str = include_str!("agreed/no-10.txt");

/// A call on a buffer: what is left, or the refusal's number and place.
fn after(dictionary: &[u8], buffer: &[u8], call: &Call) -> Result<Vec<u8>, (u32, usize)> {
    let mut left = buffer.to_vec();
    match store::call(dictionary, &mut left, call) {
        Ok(()) => Ok(left),
        Err(Refusal { number, place }) => {
            assert_eq!(left, buffer, "a refused call leaves the buffer unchanged");
            Err((number, place))
        }
    }
}

/// The words that a line of the agreed calls has for an outcome.
fn words(outcome: Result<String, Refusal>) -> String {
    outcome.unwrap_or_else(|refusal| format!("refused {} {}", refusal.number, refusal.place))
}

fn listed(contents: Contents) -> String {
    let records: Vec<String> = contents.records.iter().map(|record| hex::write(record)).collect();
    let records = if records.is_empty() { "none".to_string() } else { records.join(" ") };
    format!("relation {} missing {} records {records}", contents.relation, contents.missing)
}

/// The outcome of an agreed line's input.
fn outcome(input: &str) -> Option<String> {
    let parts: Vec<&str> = input.split(' ').collect();
    let (dictionary, buffer) = (hex::read(parts[0])?, hex::read(parts[1])?);
    let call = match parts[2..] {
        ["records"] => return Some(words(store::contents(&dictionary, &buffer).map(listed))),
        ["make", id] => Call::Make(id.parse().ok()?),
        ["add", entry] => Call::Add(hex::read(entry)?),
        ["erase", position] => Call::Erase(position.parse().ok()?),
        ["replace", position, entry] => Call::Replace(position.parse().ok()?, hex::read(entry)?),
        _ => return None,
    };
    let mut left = buffer;
    let done = store::call(&dictionary, &mut left, &call);
    Some(words(done.map(|()| hex::write(&left))))
}

#[test]
fn calls_agree() {
    for line in AGREED.lines() {
        let (input, due) = line.split_once(" = ").expect("an outcome");
        assert_eq!(outcome(input).as_deref(), Some(due), "{input}");
    }
    assert_eq!(AGREED.lines().count(), 126);
}

/// A store of BEDS in 40 bytes with these records.
fn stored(count: u16, missing: u16, records: &[Vec<u8>]) -> Vec<u8> {
    let words = [1, count, missing].map(u16::to_le_bytes).concat();
    let mut buffer = [entry(8, &words), records.concat()].concat();
    buffer.resize(40, 0);
    buffer
}

#[test]
fn calls_change_the_store_as_a_list() {
    let (one, two) = (bed(0, 300, b"ONE "), bed(2, 301, b"TWO "));
    let empty = after(&beds(), &[7; 40], &Call::Make(1));
    assert_eq!(empty, Ok(stored(0, 0, &[])));
    let first = after(&beds(), &empty.unwrap(), &Call::Add(one.clone()));
    assert_eq!(first, Ok(stored(1, 0, &[one.clone()])));
    let second = after(&beds(), &first.unwrap(), &Call::Add(two.clone()));
    assert_eq!(second, Ok(stored(2, 1, &[one, two.clone()])));
    let erased = after(&beds(), &second.unwrap(), &Call::Erase(0));
    assert_eq!(erased, Ok(stored(1, 1, &[two])));
    let replaced = after(&beds(), &erased.unwrap(), &Call::Replace(0, bed(0, 65535, b"NEW ")));
    assert_eq!(replaced, Ok(stored(1, 1, &[bed(1, 65535, b"NEW ")])));
}

#[test]
fn the_first_call_looks_at_the_length_alone() {
    let make = |length: usize, id: u32| after(&beds(), &vec![7; length], &Call::Make(id)).err();
    assert_eq!(make(9, 2), Some((12, 0)));
    assert_eq!(make(65_536, 2), Some((12, 0)));
    assert_eq!(make(65_536, 65_537), Some((12, 0)));
    assert_eq!(make(65_536, 1), Some((50, 0)));
    assert_eq!(make(9, 1), Some((53, 0)));
    assert_eq!(make(0, 1), Some((53, 0)));
    assert_eq!(make(10, 1), None);
    assert_eq!(make(65_535, 1), None);
    assert_eq!(after(&[1], &[7; 40], &Call::Make(2)), Err((3, 0)));
}

#[test]
fn malformed_stores_are_refused() {
    let (whole, unmarked) = (bed(0, 300, b"ONE "), bed(0, 65535, b"ONE "));
    let good = stored(1, 0, &[whole.clone()]);
    let mut faults = vec![
        good[..9].to_vec(),
        vec![],
        vec![0; 65_535],
        vec![0; 65_536],
        stored(0, 0, &[whole.clone()]),
        stored(2, 0, &[whole.clone()]),
        stored(1, 1, &[whole.clone()]),
        stored(1, 0, &[unmarked]),
        stored(1, 1, &[bed(4, 300, b"ONE ")]),
    ];
    for (place, byte) in [(0, 11), (2, 7), (4, 2), (10, 9), (12, 4), (14, 2), (39, 1)] {
        let mut fault = good.clone();
        fault[place] = byte;
        faults.push(fault);
    }
    for fault in faults {
        for call in [Call::Erase(9), Call::Add(vec![]), Call::Replace(9, vec![])] {
            assert_eq!(after(&beds(), &fault, &call), Err((50, 0)), "{fault:?}");
        }
        assert!(store::contents(&beds(), &fault).is_err());
    }
    assert!(store::contents(&beds(), &good).is_ok());
}

#[test]
fn later_refusals_stand_in_their_order() {
    let whole = bed(0, 300, b"ONE ");
    let full = stored(2, 0, &[whole.clone(), whole.clone()]);
    let refused = |call: Call| after(&beds(), &full, &call).err();
    assert_eq!(refused(Call::Replace(2, vec![])), Some((51, 0)));
    assert_eq!(refused(Call::Erase(usize::MAX)), Some((51, 0)));
    assert_eq!(refused(Call::Replace(1, vec![])), Some((52, 0)));
    assert_eq!(refused(Call::Add(whole[..12].to_vec())), Some((52, 0)));
    assert_eq!(refused(Call::Add([whole.clone(), vec![0]].concat())), Some((52, 0)));
    assert_eq!(refused(Call::Add(whole.clone())), Some((53, 0)));
    assert_eq!(refused(Call::Replace(1, whole)), None);
}

#[test]
fn records_over_the_greatest_length_are_not_due() {
    let mut dictionary = relation(1, "WIDE");
    for id in 0..17 {
        dictionary.extend(field(id, 14, 0, 255, &format!("F{id}")));
    }
    let buffer = after(&dictionary, &[7; 8192], &Call::Make(1)).expect("an empty store");
    let wide = entry(3, &[vec![1, 0, 0, 0, 0], vec![0; 17 * 255]].concat());
    assert_eq!(after(&dictionary, &buffer, &Call::Add(wide)), Err((52, 0)));
}
