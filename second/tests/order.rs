//! Refusals in reading order: which one stands where two would, and its place.

mod common;

use common::{beds, read, refused, request};
use second::listing::listing;
use second::wire;

/// A for over BEDS in context 0, its rse still open.
const FOR_BEDS: [u8; 7] = [7, 67, 1, 75, 1, 0, 0];

/// The refusal of parts within version and outer begin, with nothing behind them.
fn cut(parts: &[&[u8]]) -> (u32, usize) {
    let request = [&[4, 2], parts.concat().as_slice()].concat();
    refused(&request, &beds())
}

/// The refusal of a whole request.
fn whole(parts: &[&[u8]]) -> (u32, usize) {
    refused(&request(parts), &beds())
}

#[test]
fn an_empty_request_and_its_first_bytes() {
    assert_eq!(refused(&[], &[]), (4, 0));
    assert_eq!(refused(&[6], &[]), (5, 0));
    assert_eq!(refused(&[5], &[]), (4, 1));
    assert_eq!(refused(&[4], &[]), (4, 1));
    assert_eq!(refused(&[4, 3], &[]), (6, 1));
    assert_eq!(refused(&[4, 2], &[]), (4, 2));
    assert_eq!(refused(&[4, 2, 255], &[]), (4, 3));
    assert_eq!(refused(&[4, 2, 255, 79], &[]), (6, 3));
    assert_eq!(refused(&[4, 2, 255, 76, 76], &[]), (15, 4));
}

#[test]
fn a_field_is_whole_before_it_is_judged() {
    // A name cut short, then the same unknown name whole.
    assert_eq!(cut(&[&[7, 67, 1, 74, 4, b'N', b'O', b'P']]), (4, 10));
    assert_eq!(cut(&[&[7, 67, 1, 74, 4, b'N', b'O', b'P', b'E']]), (12, 6));
    assert_eq!(cut(&[&[7, 67, 1, 74, 0]]), (12, 6));
    assert_eq!(cut(&[&[7, 67, 1, 75, 9]]), (4, 7));
    assert_eq!(cut(&[&[7, 67, 1, 75, 9, 0]]), (12, 6));
    // A context is judged before the name behind it, a message before the word.
    assert_eq!(cut(&[&FOR_BEDS, &[71, 61, 23, 1]]), (11, 12));
    assert_eq!(cut(&[&FOR_BEDS, &[71, 61, 25, 1]]), (9, 12));
}

#[test]
fn literals_are_judged_field_by_field() {
    assert_eq!(cut(&[&[8, 61, 21]]), (4, 5));
    assert_eq!(cut(&[&[8, 61, 21, 7, 1]]), (16, 6));
    assert_eq!(cut(&[&[8, 61, 21, 7, 0, 1]]), (4, 8));
    assert_eq!(cut(&[&[8, 61, 21, 14, 0]]), (4, 7));
    assert_eq!(cut(&[&[8, 61, 21, 14, 0, 0]]), (16, 6));
    assert_eq!(cut(&[&[8, 61, 21, 14, 0, 1]]), (16, 6));
    for left_out in wire::LEFT_OUT_LITERALS {
        assert_eq!(cut(&[&[8, 61, 21, left_out]]), (7, 5));
    }
    for code in [200, 16, 0] {
        assert_eq!(cut(&[&[8, 61, 21, code]]), (6, 5));
    }
}

/// The refusal of parts within a version and outer begin, beside a field of type 16.
fn wide(version: u8, parts: &[&[u8]]) -> (u32, usize) {
    let dictionary = [common::relation(1, "R"), common::field(0, 16, -18, 8, "I")].concat();
    refused(&[&[version, 2], parts.concat().as_slice()].concat(), &dictionary)
}

#[test]
fn version_4_names_no_field_of_type_16() {
    assert_eq!(wide(4, &[&FOR_BEDS, &[71, 61, 24, 0, 0, 0]]), (13, 11));
    assert_eq!(wide(4, &[&FOR_BEDS, &[71, 61, 23, 0, 1, b'I']]), (13, 11));
    assert_eq!(wide(4, &[&FOR_BEDS, &[71, 61, 23, 0, 1, b'J']]), (12, 13));
    assert_eq!(wide(4, &[&FOR_BEDS, &[70, 1, 72, 24, 0, 0, 0]]), (13, 12));
    let one = [1, 21, 7, 0, 1, 0];
    assert_eq!(wide(4, &[&[15, 75, 1, 0, 0], &one, &[24, 0, 0, 0]]), (13, 13));
    assert_eq!(wide(4, &[&FOR_BEDS, &[255], &one, &[24, 0, 0, 0]]), (14, 10));
    // Its relation may be named, and in version 5 the field too.
    assert_eq!(wide(4, &[&FOR_BEDS, &[255, 5]]), (4, 11));
    assert_eq!(wide(5, &[&FOR_BEDS, &[71, 61, 24, 0, 0, 0]]), (4, 15));
}

#[test]
fn type_16_is_of_version_5() {
    for (version, refusal) in [(4, (6, 6)), (5, (4, 7))] {
        assert_eq!(wide(version, &[&[4, 0, 1, 0, 16]]), refusal);
    }
    for (version, refusal) in [(4, (6, 5)), (5, (4, 6))] {
        assert_eq!(wide(version, &[&[8, 61, 21, 16]]), refusal);
    }
    assert_eq!(wide(5, &[&[4, 0, 1, 0, 16, 237]]), (16, 7));
    assert_eq!(wide(5, &[&[8, 61, 21, 16, 237]]), (16, 6));
    assert_eq!(wide(5, &[&[8, 61, 21, 16, 238, 0, 0, 0, 0, 0, 0, 0]]), (4, 14));
    assert_eq!(wide(5, &[&[8, 61, 21, 8, 246]]), (16, 6));
}

#[test]
fn left_out_codes_are_refused_by_name_in_their_own_place() {
    for code in wire::LEFT_OUT_STATEMENTS {
        assert_eq!(cut(&[&[code]]), (7, 2));
        assert_eq!(cut(&[&[8, code]]), (6, 3));
        assert_eq!(cut(&[&[4, 0, 0, 0, 13, code]]), (6, 7));
    }
    for code in wire::LEFT_OUT_VALUES {
        assert_eq!(cut(&[&[8, 61, code]]), (7, 4));
        assert_eq!(cut(&[&[1, 21, 7, 0, 0, 0, code]]), (6, 8));
    }
    for code in wire::LEFT_OUT_BOOLEANS {
        assert_eq!(cut(&[&[8, code]]), (7, 3));
        assert_eq!(cut(&[&[8, 61, code]]), (6, 4));
    }
    for code in wire::LEFT_OUT_STREAMS {
        assert_eq!(cut(&[&[7, 67, 1, code]]), (7, 5));
        assert_eq!(cut(&[&[15, code]]), (7, 3));
        assert_eq!(cut(&[&FOR_BEDS, &[code]]), (6, 9));
    }
    for code in wire::LEFT_OUT_CLAUSES {
        assert_eq!(cut(&[&FOR_BEDS, &[code]]), (7, 9));
        assert_eq!(cut(&[&FOR_BEDS, &[255, code]]), (6, 10));
    }
    for code in wire::LEFT_OUT_DESCRIPTORS {
        assert_eq!(cut(&[&[4, 0, 1, 0, code]]), (7, 6));
    }
}

#[test]
fn codes_that_are_not_due() {
    assert_eq!(whole(&[&[2, 255], &[4, 0, 0, 0]]), (6, 4));
    assert_eq!(whole(&[&[2], &[4, 0, 0, 0], &[255]]), (6, 3));
    assert_eq!(cut(&[&[4, 0, 1, 0, 200]]), (6, 6));
    assert_eq!(cut(&[&[13, 255]]), (6, 3));
    assert_eq!(cut(&[&[4, 0, 0, 0, 13, 12, 0, 2, 255, 2]]), (6, 11));
    assert_eq!(cut(&[&[1, 21, 7, 0, 0, 0, 34]]), (6, 8));
    assert_eq!(cut(&[&[1, 21, 7, 0, 0, 0, 21]]), (6, 8));
    let boolean = [71, 61, 24, 0, 0, 0];
    assert_eq!(cut(&[&FOR_BEDS, &boolean, &boolean]), (6, 15));
    assert_eq!(cut(&[&FOR_BEDS, &[70, 1, 71]]), (6, 11));
    let sort = [70, 1, 72, 24, 0, 0, 0];
    assert_eq!(cut(&[&FOR_BEDS, &sort, &sort]), (6, 16));
    assert_eq!(cut(&[&FOR_BEDS, &sort, &boolean, &[68]]), (7, 22));
    // After an if's first statement.
    assert_eq!(cut(&[&[8, 61, 21, 7, 0, 0, 0, 2, 255, 6]]), (7, 11));
    assert_eq!(cut(&[&[8, 61, 21, 7, 0, 0, 0, 2, 255, 71]]), (6, 11));
}

#[test]
fn the_outer_end_is_not_the_end_of_an_if_with_two_branches() {
    let two = [8, 61, 21, 7, 0, 0, 0, 2, 255, 2, 255];
    assert!(read(&request(&[&two]), &[]).is_ok());
    assert_eq!(whole(&[&two, &[255]]), (6, 14));
    let one = [8, 61, 21, 7, 0, 0, 0, 2, 255];
    assert!(read(&request(&[&one, &[255]]), &[]).is_ok());
    assert_eq!(whole(&[&one]), (6, 12));
}

#[test]
fn messages_and_parameters() {
    assert_eq!(cut(&[&[4, 0, 0, 0, 4, 0]]), (9, 7));
    assert_eq!(cut(&[&[14, 0]]), (9, 3));
    let select = [13, 12, 0, 2, 255, 12, 0];
    assert_eq!(cut(&[&[4, 0, 0, 0], &select]), (9, 12));
    // The same message may be received again outside the select.
    assert!(read(&request(&[&[4, 0, 0, 0], &select[..5], &[255, 12, 0, 2, 255]]), &[]).is_ok());
    let message = [4, 0, 2, 0, 7, 0, 35];
    assert_eq!(cut(&[&message, &[8, 61, 25, 0, 2, 0]]), (10, 13));
    assert_eq!(cut(&[&message, &[8, 61, 41, 0, 2, 0]]), (10, 13));
    assert_eq!(cut(&[&message, &[8, 61, 41, 0, 1, 0, 0]]), (4, 16));
    assert_eq!(cut(&[&message, &[8, 61, 41, 0, 1, 0, 0, 1]]), (10, 15));
    assert_eq!(cut(&[&message, &[8, 61, 41, 0, 0, 0, 1, 0]]), (13, 11));
}

#[test]
fn contexts_in_and_out_of_scope() {
    assert_eq!(cut(&[&[7, 67, 2, 75, 1, 0, 0, 75, 1, 0, 0]]), (11, 12));
    assert_eq!(cut(&[&FOR_BEDS, &[255], &FOR_BEDS]), (11, 16));
    assert_eq!(cut(&[&FOR_BEDS, &[255, 15, 75, 1, 0, 0]]), (11, 14));
    assert_eq!(cut(&[&FOR_BEDS, &[255, 10, 0, 0]]), (11, 12));
    assert_eq!(cut(&[&FOR_BEDS, &[255, 10, 1]]), (11, 11));
    // After its scope a number can be declared again, and is not in scope.
    let beds = [&FOR_BEDS[..], &[255, 2, 255]].concat();
    assert!(read(&request(&[&beds, &beds]), &common::beds()).is_ok());
    assert_eq!(cut(&[&beds, &[5, 0]]), (11, 13));
    // 8 of the 33rd declaration comes before the fields of its code.
    let eight: Vec<u8> = (0..8).flat_map(|context| [75, 1, 0, context]).collect();
    let loops = [&[7, 67, 8][..], &eight, &[255, 2, 255]].concat().repeat(4);
    assert_eq!(cut(&[&loops, &[15, 75]]), (8, 2 + loops.len() + 1));
    assert_eq!(cut(&[&loops, &[15, 76]]), (7, 2 + loops.len() + 1));
    let three = &loops[..3 * 38];
    let modify = [&[7, 67, 8][..], &eight, &[255, 10, 77]].concat();
    assert_eq!(cut(&[three, &modify]), (8, 2 + 3 * 38 + 36));
    let modify = [&[7, 67, 7][..], &eight[..28], &[255, 10, 77]].concat();
    assert_eq!(cut(&[three, &modify]), (11, 2 + 3 * 38 + 33));
}

#[test]
fn the_fourteens() {
    // Send and receive in a store or modify, before their message byte.
    assert_eq!(cut(&[&[15, 75, 1, 0, 0, 14]]), (14, 7));
    assert_eq!(cut(&[&[15, 75, 1, 0, 0, 2, 9, 12]]), (14, 9));
    assert_eq!(cut(&[&[15, 75, 1, 0, 0, 13, 12]]), (14, 8));
    assert_eq!(cut(&[&FOR_BEDS, &[255, 10, 0, 1, 14]]), (14, 13));
    // A context that is not of a for.
    assert_eq!(cut(&[&[15, 75, 1, 0, 0, 5, 0]]), (14, 7));
    assert_eq!(cut(&[&[15, 75, 1, 0, 0, 10, 0]]), (14, 7));
    assert_eq!(cut(&[&FOR_BEDS, &[255, 10, 0, 1, 5, 1]]), (14, 13));
    // Leaves.
    assert_eq!(cut(&[&[18]]), (4, 3));
    assert_eq!(cut(&[&[18, 0]]), (14, 2));
    assert_eq!(cut(&[&[17, 0, 2, 255, 18, 0]]), (14, 6));
    assert!(read(&request(&[&[17, 0, 17, 1, 17, 0, 18, 1]]), &[]).is_ok());
}

#[test]
fn the_fourteens_of_targets() {
    let one = [1, 21, 7, 0, 1, 0];
    // Tests of the ctx byte, then 14 at the assignment, then the field.
    assert_eq!(cut(&[&FOR_BEDS, &[255], &one, &[24, 1]]), (11, 17));
    assert_eq!(cut(&[&FOR_BEDS, &[255], &one, &[24, 0]]), (14, 10));
    assert_eq!(cut(&[&[15, 75, 1, 0, 0], &one, &[24, 0, 9, 0]]), (12, 15));
    assert_eq!(cut(&[&[15, 75, 1, 0, 0, 15, 75, 1, 0, 1], &one, &[24, 0]]), (14, 12));
    // Tests of the message byte, then 14, then the word.
    let messages = [4, 0, 1, 0, 7, 0, 4, 1, 1, 0, 7, 0];
    assert_eq!(cut(&[&messages, &one, &[25, 9]]), (9, 21));
    assert_eq!(cut(&[&messages, &one, &[25, 0]]), (14, 14));
    assert_eq!(cut(&[&messages, &[14, 1], &one, &[25, 0]]), (14, 16));
    assert_eq!(cut(&[&messages, &[12, 0], &one, &[25, 0]]), (14, 16));
    assert_eq!(cut(&[&messages, &[14, 0], &one, &[25, 0, 1, 0]]), (10, 24));
    // Any enclosing send will do.
    let nested = [&[14, 0, 14, 1][..], &one, &[25, 0, 0, 0]].concat();
    assert!(read(&request(&[&messages, &nested]), &[]).is_ok());
}

#[test]
fn fit_is_tested_after_the_last_operand() {
    // Number against text, the last operand cut short or wrong.
    assert_eq!(cut(&[&FOR_BEDS, &[71, 47, 24, 0, 0, 0, 24, 0, 1]]), (4, 18));
    assert_eq!(cut(&[&FOR_BEDS, &[71, 47, 24, 0, 0, 0, 24, 0, 2, 0]]), (12, 17));
    assert_eq!(cut(&[&FOR_BEDS, &[71, 47, 24, 0, 0, 0, 24, 0, 1, 0]]), (13, 10));
    let between = [71, 56, 24, 0, 0, 0, 24, 0, 1, 0];
    assert_eq!(cut(&[&FOR_BEDS, &between]), (4, 19));
    assert_eq!(cut(&[&FOR_BEDS, &between, &[24, 0, 0, 0]]), (13, 10));
    // The inner operator is told first.
    let inner = [71, 47, 24, 0, 1, 0, 38, 24, 0, 1, 0];
    assert_eq!(cut(&[&FOR_BEDS, &inner]), (13, 15));
}

#[test]
fn rows_of_stores_modifies_and_selects() {
    let statements = [
        &[4, 3, 1, 0, 37, 5, 0][..],
        &FOR_BEDS,
        &[255, 10, 0, 9, 2, 255],
        &[15, 74, 4, b'B', b'E', b'D', b'S', 0, 2, 255],
        &[13, 12, 3, 2, 255, 255],
    ];
    let input = [common::entry(4, &beds()), common::entry(5, &request(&statements))].concat();
    let lines = "request 40
statement 1 2 0 39 0
statement 9 7 1 22 0
statement 17 10 2 22 0
statement 20 2 3 22 0
statement 22 15 1 32 0
statement 30 2 5 32 0
statement 32 13 1 38 0
statement 33 12 7 37 0
statement 35 2 8 37 0
parameter 3 0 37 0 0 7
context 0 12 16 22 1 7
context 9 17 20 22 1 10
context 0 23 30 32 1 15
";
    assert_eq!(listing(&input), lines);
}

#[test]
fn rows_know_their_conditions() {
    let test = [61, 21, 7, 0, 0, 0];
    let statements = [
        &[8][..],
        &test,
        &FOR_BEDS,
        &[255, 2, 255, 255],
        &FOR_BEDS,
        &[70, 1, 72, 24, 0, 0, 0, 71, 59],
        &test,
        &[255, 8],
        &test,
        &[2, 255, 8],
        &test,
        &[2, 255, 255],
    ];
    let request = request(&statements);
    let (parsed, _) = second::reader::parse(&request, &beds()).expect("accepted");
    let numbers: Vec<_> = parsed.statements.iter().map(|row| (row.code, row.condition)).collect();
    let due = [(2, None), (8, Some(0)), (7, None), (2, None), (7, Some(1))];
    assert_eq!(numbers[..5], due);
    assert_eq!(numbers[5..], [(8, Some(2)), (2, None), (8, Some(3)), (2, None)]);
}

#[test]
fn a_scale_byte_stands_in_the_table_as_a_byte() {
    let input = [common::entry(4, &[]), common::entry(5, &request(&[&[4, 0, 1, 0, 8, 255]]))];
    assert!(listing(&input.concat()).ends_with("parameter 0 0 8 255 0 4\n"));
}
