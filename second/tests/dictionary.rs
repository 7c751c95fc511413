//! Dictionaries and records: every rule broken once, and the places of refusal 22.

mod common;

use common::{bed, beds, entry, field, relation};
use second::dictionary::Dictionary;
use second::record::{self, Cause};

/// The place of the first entry at fault.
fn fault(entries: &[Vec<u8>]) -> Option<usize> {
    Dictionary::check(&entries.concat()).err()
}

/// The place of a fault in one field of a relation that is 8 bytes long.
fn field_fault(field: Vec<u8>) -> Option<usize> {
    fault(&[relation(1, "R"), field])
}

#[test]
fn relations_and_fields_are_found() {
    let dictionary = Dictionary::check(&beds()).expect("a proper dictionary");
    assert_eq!(dictionary.relation_by_name(b"BEDS"), Some(0));
    assert_eq!(dictionary.relation_by_name(b"beds"), None);
    assert_eq!(dictionary.relation_by_id(1), Some(0));
    assert_eq!(dictionary.relation_by_id(0), None);
    let beds = &dictionary.relations[0];
    assert_eq!(beds.field_by_name(b"NAME"), Some(1));
    assert_eq!(beds.field_by_id(1), Some(1));
    assert_eq!(beds.field_by_id(2), None);
    let heat = beds.fields[0].data;
    assert_eq!((heat.code, heat.scale, heat.size, heat.held()), (200, -1, 2, 2));
    assert_eq!((beds.field_offset(0), beds.field_offset(1), beds.entry_length()), (7, 9, 13));
}

#[test]
fn empty_dictionaries_and_relations_are_proper() {
    assert_eq!(fault(&[]), None);
    assert_eq!(fault(&[relation(0, "A"), relation(65535, "B")]), None);
}

#[test]
fn entries_must_be_whole_and_of_two_kinds() {
    assert_eq!(fault(&[relation(1, "R"), vec![8]]), Some(8));
    assert_eq!(fault(&[relation(1, "R"), vec![8, 0, 1]]), Some(8));
    assert_eq!(fault(&[relation(1, "R"), vec![8, 0, 1, 0, 2, 0, 1]]), Some(8));
    assert_eq!(fault(&[relation(1, "R"), vec![0, 0]]), Some(8));
    assert_eq!(fault(&[relation(1, "R"), vec![3, 0, 1]]), Some(8));
    assert_eq!(fault(&[entry(0, &[1, 0, 1, 65])]), Some(0));
    assert_eq!(fault(&[entry(3, &[1, 0, 0])]), Some(0));
    assert_eq!(fault(&[entry(257, &[1, 0, 1, 65])]), Some(0));
    assert_eq!(fault(&[entry(1, &[1, 0, 1, 65, 0])]), Some(0));
    assert_eq!(fault(&[entry(1, &[1, 0, 2, 65])]), Some(0));
    assert_eq!(fault(&[entry(1, &[1, 0])]), Some(0));
    assert_eq!(fault(&[field(0, 7, 0, 2, "F")]), Some(0));
}

#[test]
fn ids_and_names_do_not_repeat() {
    assert_eq!(fault(&[relation(1, "A"), relation(1, "B")]), Some(8));
    assert_eq!(fault(&[relation(1, "A"), relation(2, "A")]), Some(8));
    assert_eq!(fault(&[relation(1, "A"), relation(2, "a")]), None);
    let same = field(1, 7, 0, 2, "F");
    assert_eq!(fault(&[relation(1, "A"), field(0, 7, 0, 2, "F"), same]), Some(20));
    let others = [relation(2, "F"), field(0, 7, 0, 2, "F")].concat();
    assert_eq!(fault(&[relation(1, "A"), field(0, 7, 0, 2, "F"), others]), None);
    assert_eq!(field_fault(field(1, 7, 0, 2, "F")), Some(8));
    assert_eq!(field_fault(field(256, 7, 0, 2, "F")), Some(8));
}

#[test]
fn types_have_their_scales_and_sizes() {
    for (code, size) in [(7, 2), (8, 4), (200, 2)] {
        assert_eq!(field_fault(field(0, code, -9, size, "F")), None);
        assert_eq!(field_fault(field(0, code, -10, size, "F")), Some(8));
        assert_eq!(field_fault(field(0, code, 1, size, "F")), Some(8));
        assert_eq!(field_fault(field(0, code, 0, size + 1, "F")), Some(8));
    }
    for (code, size) in [(14, 1), (37, 255), (40, 3), (35, 8)] {
        assert_eq!(field_fault(field(0, code, 0, size, "F")), None);
        assert_eq!(field_fault(field(0, code, -1, size, "F")), Some(8));
    }
    for code in [14, 37, 40] {
        assert_eq!(field_fault(field(0, code, 0, 0, "F")), Some(8));
        assert_eq!(field_fault(field(0, code, 0, 256, "F")), Some(8));
    }
    for (scale, good) in [(-19, false), (-18, true), (0, true), (1, false)] {
        assert_eq!(field_fault(field(0, 16, scale, 8, "F")).is_none(), good);
    }
    assert_eq!(field_fault(field(0, 16, 0, 4, "F")), Some(8));
    for code in [0, 9, 10, 11, 15, 17, 27, 199, 201] {
        assert_eq!(field_fault(field(0, code, 0, 8, "F")), Some(8));
    }
}

#[test]
fn names_are_of_their_bytes() {
    for bad in ["", " ", "A B", "A\u{7f}", "\u{1f}", &"N".repeat(32)] {
        assert_eq!(field_fault(field(0, 7, 0, 2, bad)), Some(8));
        assert_eq!(fault(&[relation(1, bad)]), Some(0));
    }
    for good in ["!", "~", &"N".repeat(31)] {
        assert_eq!(field_fault(field(0, 7, 0, 2, good)), None);
        assert_eq!(fault(&[relation(1, good)]), None);
    }
}

#[test]
fn a_record_is_an_entry_of_its_relation() {
    let dictionary = Dictionary::check(&beds()).expect("a proper dictionary");
    let beds = &dictionary.relations[0];
    let good = bed(0, 301, b"N1  ");
    assert!(record::is_proper(beds, &good));
    assert_eq!(record::cause(beds, &good, 0), None);
    assert_eq!(record::field_bytes(beds, &good, 1), b"N1  ");
    assert!(record::is_proper(beds, &bed(3, 301, b"N1  ")));
    assert!(!record::is_proper(beds, &bed(4, 301, b"N1  ")));
    assert_eq!(record::cause(beds, &bed(1, 301, b"N1  "), 0), Some(Cause::Bit));
    assert_eq!(record::cause(beds, &bed(0, 65535, b"N1  "), 0), Some(Cause::Reading));
    assert_eq!(record::cause(beds, &bed(1, 65535, b"N1  "), 0), Some(Cause::Bit));
    assert_eq!(record::cause(beds, &bed(1, 65535, b"\xff\xff\xff\xff"), 1), None);
    assert_eq!(record::cause(beds, &bed(2, 301, b"N1  "), 1), Some(Cause::Bit));
    for (place, byte) in [(0, 12), (0, 14), (1, 1), (2, 2), (3, 1), (4, 2), (5, 1)] {
        let mut wrong = good.clone();
        wrong[place] = byte;
        assert!(!record::is_proper(beds, &wrong), "byte {place}");
    }
}

#[test]
fn joined_records_are_split_or_refused_at_three_places() {
    let dictionary = Dictionary::check(&beds()).expect("a proper dictionary");
    let due = [&dictionary.relations[0]; 2];
    let good = bed(0, 301, b"N1  ");
    let two = [good.clone(), good.clone()].concat();
    assert_eq!(record::split(&due, &two), Ok(vec![&two[..13], &two[13..]]));
    assert_eq!(record::split(&due, &[]), Err(0));
    assert_eq!(record::split(&due, &good), Err(13));
    assert_eq!(record::split(&due, &two[..25]), Err(13));
    assert_eq!(record::split(&due, &two[..14]), Err(13));
    assert_eq!(record::split(&due, &[&two[..], &[0]].concat()), Err(26));
    assert_eq!(record::split(&[], &[0]), Err(0));
    assert_eq!(record::split(&[], &[]), Ok(vec![]));
}
