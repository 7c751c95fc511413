//! Document 01's "Examples on both sides".

mod common;

use common::{
    accepted, altered, bed, beds, entry, field, name, read, refused, relation, request, S,
};
use second::decimal;
use second::evaluator::{evaluate, Answer};
use second::listing::listing;
use second::reader;
use second::record::Cause;
use std::cmp::Ordering;

const ROWS: &str = "request 41
statement 1 2 0 40 0
statement 8 7 1 39 1
statement 27 14 2 39 0
statement 29 1 3 39 0
parameter 0 0 7 0 0 2
context 0 11 15 39 1 7
";

/// The listing of a request beside BEDS.
fn list(request: &[u8]) -> String {
    listing(&[entry(4, &beds()), entry(5, request)].concat())
}

#[test]
fn s_gives_its_rows() {
    assert_eq!(list(&S), ROWS);
}

#[test]
fn heat_is_compared_as_a_reading() {
    let heat = |missing, heat| {
        evaluate(&S, &beds(), 0, &[0, 0], &bed(missing, heat, b"N1  ")).expect("an answer")
    };
    assert_eq!(heat(0, 301), Answer::True);
    assert_eq!(heat(0, 300), Answer::False);
    assert_eq!(heat(0, 65534), Answer::True);
    assert_eq!(heat(0, 65535), Answer::Missing(Cause::Reading));
    assert_eq!(heat(1, 301), Answer::Missing(Cause::Bit));
}

#[test]
fn s_altered_is_refused() {
    let beds = beds();
    assert!(accepted(&altered(0, 5), &beds));
    assert_eq!(refused(&altered(0, 6), &beds), (5, 0));
    assert_eq!(refused(&altered(18, 1), &beds), (11, 18));
    assert_eq!(refused(&altered(19, 1), &beds), (13, 16));
    assert_eq!(refused(&altered(19, 2), &beds), (12, 19));
    assert_eq!(refused(&altered(36, 5), &beds), (9, 36));
    assert_eq!(refused(&altered(37, 1), &beds), (10, 37));
}

#[test]
fn scale_byte_on_both_sides() {
    assert!(accepted(&altered(23, 0xF7), &beds()));
    assert_eq!(refused(&altered(23, 0xF6), &beds()), (16, 23));
}

#[test]
fn lengths_on_both_sides() {
    assert_eq!(refused(&S[..40], &beds()), (4, 40));
    assert_eq!(refused(&[&S[..], &[0]].concat(), &beds()), (15, 41));
    assert_eq!(refused(&[], &beds()), (4, 0));
}

#[test]
fn begins_nest_to_32() {
    let nested = |n: usize| [vec![4], vec![2; n], vec![255; n], vec![76]].concat();
    assert!(accepted(&nested(32), &[]));
    assert_eq!(refused(&nested(33), &[]), (8, 33));
}

#[test]
fn refusals_and_bad_input_are_listed() {
    assert_eq!(list(&altered(18, 1)), "refused 11 at 18\n");
    assert_eq!(listing(&[]), "bad input\n");
    assert_eq!(listing(&entry(4, &[])), "bad input\n");
    assert_eq!(listing(&[entry(5, &S), entry(4, &[])].concat()), "bad input\n");
    assert_eq!(listing(&[entry(4, &[]), entry(5, &S), vec![0]].concat()), "bad input\n");
    assert_eq!(listing(&[entry(4, &[]), entry(5, &[])].concat()), "refused 4 at 0\n");
}

/// Document 000's request that stores into ORDER_ITEMS.
fn order_items_request() -> Vec<u8> {
    let assignment =
        |parameter: u8, field: &str| [&[1, 25, 0, parameter, 0, 23, 0][..], &name(field)].concat();
    request(&[
        &[4, 0, 3, 0, 35, 8, 0, 40, 6, 0],
        &[12, 0, 15, 74],
        &name("ORDER_ITEMS"),
        &[0, 2],
        &assignment(1, "ORDER_NUMBER"),
        &assignment(2, "ITEM_NUMBER"),
        &assignment(0, "SHIP_DATE"),
        &[255],
    ])
}

#[test]
fn order_items_request_has_its_offsets() {
    let dictionary = [
        relation(7, "ORDER_ITEMS"),
        field(0, 8, 0, 4, "ORDER_NUMBER"),
        field(1, 14, 0, 5, "ITEM_NUMBER"),
        field(2, 35, 0, 8, "SHIP_DATE"),
    ]
    .concat();
    let request = order_items_request();
    assert_eq!(request.len(), 89);
    let lines = listing(&[entry(4, &dictionary), entry(5, &request)].concat());
    assert!(
        lines.contains("parameter 0 0 35 0 0 8\nparameter 0 1 8 0 8 4\nparameter 0 2 40 0 12 6\n")
    );
    let (parsed, _) = reader::parse(&request, &dictionary).expect("accepted");
    assert_eq!(parsed.message_bytes(), 18);
}

#[test]
fn customers_message_has_37_bytes() {
    let request = request(&[&[4, 0, 3, 0, 8, 0, 7, 0, 40, 31, 0]]);
    let (parsed, _) = reader::parse(&request, &[]).expect("accepted");
    assert_eq!(parsed.message_bytes(), 37);
}

#[test]
fn erase_example_lacks_an_end() {
    let request = [&[4, 2, 7, 67, 1, 74][..], &name("ORDERS"), &[0, 5, 0, 255, 76]].concat();
    assert_eq!(refused(&request, &relation(3, "ORDERS")), (6, 14));
    assert_eq!(refused(&request, &beds()), (12, 6));
}

#[test]
fn numbers_of_the_paper() {
    assert_eq!(decimal::compare(30, 0, 300, -1), Ordering::Equal);
    assert_eq!(decimal::divide(-7, 0, 2, 0), Ok((-3, 0)));
}

#[test]
fn a_refusal_zeroes_tables_of_any_length() {
    let (mut statements, mut parameters, mut contexts) = (vec![9; 3000], vec![9; 10], vec![9; 193]);
    let result = reader::read(&S, &beds(), &mut statements, &mut parameters, &mut contexts);
    assert_eq!(result.map_err(|refusal| (refusal.number, refusal.place)), Err((1, 0)));
    let all = [statements, parameters, contexts].concat();
    assert!(all.iter().all(|number| *number == 0));
}

#[test]
fn acceptance_zeroes_the_rest_of_the_tables() {
    let (mut statements, mut parameters, mut contexts) =
        (vec![9; 3000], vec![9; 1536], vec![9; 193]);
    let counts = reader::read(&S, &beds(), &mut statements, &mut parameters, &mut contexts)
        .expect("accepted");
    assert_eq!((counts.statements, counts.parameters, counts.contexts), (4, 1, 1));
    assert_eq!(statements[..10], [1, 2, 0, 40, 0, 8, 7, 1, 39, 1]);
    assert_eq!(contexts[..6], [0, 11, 15, 39, 1, 7]);
    let rest = [&statements[20..], &parameters[6..], &contexts[6..]].concat();
    assert!(rest.iter().all(|number| *number == 0));
    assert_eq!(read(&S, &beds()), Ok(counts));
}
