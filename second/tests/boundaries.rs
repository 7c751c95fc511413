//! Greatest sizes and ranges on both sides, each with its place.

mod common;

use common::{accepted, beds, field, read, refused, relation, request};
use second::dictionary::Dictionary;
use second::evaluator::{evaluate, Answer};
use second::generate::boundaries::{dictionary_of_length, request_of_length};
use second::generate::dictionaries::encode;
use second::listing::listing;
use second::reader;

/// The beginning of a for over BEDS in context 0 with a boolean.
const WITH: [u8; 8] = [7, 67, 1, 75, 1, 0, 0, 71];

#[test]
fn lengths_of_requests() {
    let request = request_of_length(65_535);
    assert_eq!(request.len(), 65_535);
    assert!(accepted(&request, &[]));
    let longer = request_of_length(65_536);
    assert_eq!(longer.len(), 65_536);
    assert_eq!(refused(&longer, &[]), (2, 0));
    // 2 comes before 3, 1 before both.
    assert_eq!(refused(&longer, &[0]), (2, 0));
    let refusal = reader::read(&longer, &[0], &mut [], &mut [], &mut []).expect_err("a refusal");
    assert_eq!((refusal.number, refusal.place), (1, 0));
}

#[test]
fn lengths_of_dictionaries() {
    let dictionary = encode(&dictionary_of_length(65_535));
    assert_eq!(dictionary.len(), 65_535);
    assert!(accepted(&request(&[]), &dictionary));
    let longer = encode(&dictionary_of_length(65_536));
    assert_eq!(longer.len(), 65_536);
    assert_eq!(refused(&request(&[]), &longer), (3, 0));
}

#[test]
fn bodies_of_listed_entries() {
    let body = request_of_length(65_531);
    let input = [common::entry(4, &[]), common::entry(5, &body)].concat();
    assert!(listing(&input).starts_with("request 65531\n"));
}

#[test]
fn depths() {
    let negated = |count: usize| {
        request(&[&WITH, &[61], &vec![38; count], &[21, 7, 0, 1, 0], &[255, 2, 255]])
    };
    assert!(accepted(&negated(28), &beds()));
    assert_eq!(refused(&negated(29), &beds()), (8, 2 + 8 + 1 + 29));
    let test = [61, 24, 0, 0, 0];
    let refuted = |count: usize| request(&[&WITH, &vec![59; count], &test, &[255, 2, 255]]);
    assert!(accepted(&refuted(28), &beds()));
    assert_eq!(refused(&refuted(29), &beds()), (8, 2 + 8 + 29 + 1));
    // An assignment at level 32 has its from-value at 33.
    let deep = |count: usize| [vec![4], vec![2; count], vec![1, 21]].concat();
    assert_eq!(refused(&deep(30), &[]), (4, 33));
    assert_eq!(refused(&deep(31), &[]), (8, 33));
    // 6 and 7 come before 8.
    let deepest = |code: u8| [vec![4], vec![2; 32], vec![code]].concat();
    assert_eq!(refused(&deepest(3), &[]), (7, 33));
    assert_eq!(refused(&deepest(4), &[]), (6, 33));
    assert_eq!(refused(&deepest(18), &[]), (8, 33));
}

#[test]
fn counts_of_statements() {
    let begins = |count: usize| request(&[&[2, 255].repeat(count)]);
    assert_eq!(read(&begins(511), &[]).expect("accepted").statements, 512);
    assert_eq!(refused(&begins(512), &[]), (8, 2 + 2 * 511));
    let select = [13, 12, 0, 2, 255, 255];
    let with_select = |count: usize| request(&[&[4, 0, 0, 0], &[2, 255].repeat(count), &select]);
    assert!(accepted(&with_select(508), &[]));
    assert_eq!(refused(&with_select(510), &[]), (8, 6 + 2 * 510 + 1));
}

#[test]
fn counts_of_messages_and_parameters() {
    let messages = |count: u8| {
        let all: Vec<u8> = (0..count).flat_map(|number| [4, number, 0, 0]).collect();
        request(&[&all])
    };
    assert!(accepted(&messages(16), &[]));
    assert_eq!(refused(&messages(17), &[]), (8, 2 + 4 * 16));
    let dates = |count: u16| [&[4, 0][..], &count.to_le_bytes(), &vec![35; count.into()]].concat();
    assert_eq!(read(&request(&[&dates(128)]), &[]).expect("accepted").parameters, 128);
    assert_eq!(refused(&request(&[&dates(129)]), &[]), (8, 4));
    assert_eq!(refused(&[4, 2, 4, 0, 129], &[]), (4, 5));
    let mut second = dates(128);
    second[1] = 1;
    let both = [dates(128), second].concat();
    assert_eq!(read(&request(&[&both]), &[]).expect("accepted").parameters, 256);
    assert!(accepted(&request(&[&both, &[4, 2, 0, 0]]), &[]));
    assert_eq!(refused(&request(&[&both, &[4, 2, 1, 0, 35]]), &[]), (8, 2 + 264 + 2));
}

#[test]
fn bytes_of_a_message() {
    let texts = [14, 255, 0].repeat(16);
    let with = |last: &[u8]| request(&[&[4, 0, 17, 0], &texts, last]);
    assert!(accepted(&with(&[14, 16, 0]), &[]));
    assert_eq!(refused(&with(&[14, 17, 0]), &[]), (8, 54));
    assert!(accepted(&with(&[37, 14, 0]), &[]));
    assert_eq!(refused(&with(&[37, 15, 0]), &[]), (8, 54));
    // The descriptor's own fields are judged first.
    assert_eq!(refused(&with(&[14, 0, 1]), &[]), (16, 55));
}

#[test]
fn counts_of_streams_sorts_and_contexts() {
    let streams: Vec<u8> = (0..9).flat_map(|context| [75, 1, 0, context]).collect();
    let over = |count: u8| {
        [&[7, 67, count][..], &streams[..4 * usize::from(count)], &[255, 2, 255]].concat()
    };
    assert_eq!(refused(&request(&[&over(0)]), &beds()), (16, 4));
    assert!(accepted(&request(&[&over(1)]), &beds()));
    assert!(accepted(&request(&[&over(8)]), &beds()));
    assert_eq!(refused(&request(&[&over(9)]), &beds()), (16, 4));
    let sorted = |count: u8| {
        let values = [72, 24, 0, 0, 0].repeat(count.into());
        request(&[&WITH[..7], &[70, count], &values, &[255, 2, 255]])
    };
    assert_eq!(refused(&sorted(0), &beds()), (16, 10));
    assert!(accepted(&sorted(1), &beds()));
    assert!(accepted(&sorted(8), &beds()));
    assert_eq!(refused(&sorted(9), &beds()), (16, 10));
    let all = over(8).repeat(4);
    assert_eq!(read(&request(&[&all]), &beds()).expect("accepted").contexts, 32);
    assert_eq!(refused(&request(&[&all, &over(1)]), &beds()), (8, 2 + all.len() + 3));
}

#[test]
fn relations_and_fields_of_a_dictionary() {
    let relations = |count: u16| -> Vec<u8> {
        (0..count).flat_map(|id| relation(id, &format!("R{id:02}"))).collect()
    };
    assert!(Dictionary::check(&relations(32)).is_ok());
    assert_eq!(Dictionary::check(&relations(33)), Err(320));
    let fields = |count: u16| -> Vec<u8> {
        let all = (0..count).flat_map(|id| field(id, 35, 0, 8, &format!("F{id:02}")));
        relation(1, "R").into_iter().chain(all).collect()
    };
    assert!(Dictionary::check(&fields(64)).is_ok());
    assert_eq!(Dictionary::check(&fields(65)), Err(8 + 64 * 14));
}

#[test]
fn scales_of_arithmetic() {
    let short = |scale: i8| [21, 7, scale.to_le_bytes()[0], 1, 0];
    let two = |code: u8, left: &[u8], right: &[u8]| [&[code], left, right].concat();
    let test = |value: &[u8]| request(&[&[8, 61], value, &[2, 255, 255]]);
    let eighteen = two(36, &short(-9), &short(-9));
    assert!(accepted(&test(&eighteen), &[]));
    assert!(accepted(&test(&two(36, &eighteen, &short(0))), &[]));
    assert_eq!(refused(&test(&two(36, &eighteen, &short(-1))), &[]), (13, 4));
    assert!(accepted(&test(&two(37, &short(-9), &short(-9))), &[]));
    assert_eq!(refused(&test(&two(37, &short(-8), &short(-9))), &[]), (13, 4));
    assert!(accepted(&test(&two(37, &eighteen, &short(0))), &[]));
    assert_eq!(refused(&test(&two(37, &short(-9), &eighteen)), &[]), (13, 4));
    // Each operator's own result must be in range.
    let back = two(37, &two(36, &eighteen, &short(-1)), &short(-9));
    assert_eq!(refused(&test(&back), &[]), (13, 5));
}

#[test]
fn a_record_entry_has_at_most_4096_bytes() {
    let answer = |last: u8| {
        let mut dictionary = relation(1, "R");
        for id in 0..16 {
            dictionary.extend(field(id, 14, 0, 255, &format!("F{id}")));
        }
        dictionary.extend(field(16, 14, 0, last.into(), "L"));
        let length = 6 + 3 + 16 * 255 + usize::from(last);
        let mut record = vec![b' '; length];
        record[..2].copy_from_slice(&(length as u16).to_le_bytes());
        record[2..9].copy_from_slice(&[3, 0, 1, 0, 0, 0, 0]);
        let request = request(&[&WITH, &[61, 24, 0, 16, 0], &[255, 2, 255]]);
        assert!(accepted(&request, &dictionary));
        evaluate(&request, &dictionary, 0, &[], &record)
    };
    assert_eq!(answer(7), Ok(Answer::False));
    let refusal = answer(8).expect_err("a refusal");
    assert_eq!((refusal.number, refusal.place), (22, 0));
}

#[test]
fn tables_just_long_enough() {
    let lengths = reader::TABLE_LENGTHS;
    for table in 0..3 {
        let mut short = lengths;
        short[table] -= 1;
        let [mut statements, mut parameters, mut contexts] = short.map(|length| vec![7; length]);
        let result =
            reader::read(&request(&[]), &[], &mut statements, &mut parameters, &mut contexts);
        assert_eq!(result.map_err(|refusal| (refusal.number, refusal.place)), Err((1, 0)));
        assert!([statements, parameters, contexts].concat().iter().all(|number| *number == 0));
    }
    assert!(accepted(&request(&[]), &[]));
}
