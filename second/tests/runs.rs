//! Any and unique: their reading, the places of refusal 26, and their answers over runs.

mod common;

use common::{bed, beds, entry, read, refused, request};
use second::evaluator::{evaluate_over, Answer, Lent};
use second::reader;

/// An rse of BEDS in context 4 without its clauses and its end.
const BEDS: [u8; 6] = [67, 1, 75, 1, 0, 4];

/// Heat above thirty, in context 4.
const WARM: [u8; 10] = [49, 24, 4, 0, 0, 21, 7, 0, 30, 0];

/// A code over BEDS with clauses.
fn over(code: u8, clauses: &[u8]) -> Vec<u8> {
    [&[code], &BEDS[..], clauses, &[255]].concat()
}

/// An if with a boolean, which stands at place 3.
fn when(boolean: &[u8]) -> Vec<u8> {
    request(&[&[8], boolean, &[2, 255, 255]])
}

/// The refusal of an if whose boolean is cut short.
fn cut(boolean: &[u8]) -> (u32, usize) {
    refused(&[&[4, 2, 8], boolean].concat(), &beds())
}

/// A run of beds with these heats.
fn run(heats: &[u16]) -> Vec<u8> {
    let records: Vec<Vec<u8>> = heats.iter().map(|heat| bed(0, *heat, b"N1  ")).collect();
    entry(7, &records.concat())
}

/// The answer or the refusal of an if over runs.
fn outcome(boolean: &[u8], runs: &[u8]) -> Result<Answer, (u32, usize)> {
    let lent = Lent { messages: &[], records: &[], runs };
    evaluate_over(&when(boolean), &beds(), 0, lent)
        .map_err(|refusal| (refusal.number, refusal.place))
}

#[test]
fn an_rse_of_one_stream_follows() {
    assert_eq!(cut(&[60]), (4, 4));
    assert_eq!(cut(&[60, 75]), (6, 4));
    assert_eq!(cut(&[60, 67]), (4, 5));
    assert_eq!(cut(&[60, 67, 0]), (16, 5));
    assert_eq!(cut(&[62, 67, 2]), (8, 5));
    assert_eq!(cut(&[62, 67, 8]), (8, 5));
    assert_eq!(cut(&[62, 67, 9]), (16, 5));
    assert_eq!(cut(&[60, 67, 1, 76]), (7, 6));
    assert_eq!(cut(&[60, 67, 1, 75, 2, 0]), (12, 7));
    assert_eq!(cut(&[&[60], &BEDS[..], &[68]].concat()), (7, 10));
    assert_eq!(cut(&[63]), (7, 3));
}

#[test]
fn a_context_is_in_scope_inside_its_rse() {
    let field = [61, 24, 4, 0, 0];
    let after = [&[58], &over(60, &[])[..], &field].concat();
    assert_eq!(refused(&when(&after), &beds()), (11, 14));
    let twice = over(60, &[&[71], &over(62, &[])[..]].concat());
    assert_eq!(refused(&when(&twice), &beds()), (11, 17));
    // After its scope the number is free again.
    let again = [&[58], &over(60, &[])[..], &over(62, &[])].concat();
    assert!(read(&when(&again), &beds()).is_ok());
}

#[test]
fn rows_and_numbers() {
    let with = over(60, &[&[71], &WARM[..]].concat());
    let two = request(&[&[8], &with, &[8], &over(62, &[]), &[2, 255, 255, 255]]);
    let (parsed, _) = reader::parse(&two, &beds()).expect("accepted");
    let contexts: Vec<_> = parsed
        .contexts
        .iter()
        .map(|row| (row.number, row.place, row.start, row.end, row.opener))
        .collect();
    assert_eq!(contexts, [(4, 6, 10, 22, 60), (4, 26, 30, 31, 62)]);
    // The condition inside has no number.
    assert_eq!(parsed.conditions.len(), 2);
    assert_eq!(parsed.conditions[0].runs, [0]);
    assert_eq!(parsed.conditions[1].runs, [1]);
}

#[test]
fn the_condition_is_one_level_below() {
    let nested = |nots: usize| {
        let any = over(60, &[&[71], &WARM[..]].concat());
        [vec![59; nots], any].concat()
    };
    // Levels: begin, if, nots, any, gtr, field.
    assert!(read(&when(&nested(27)), &beds()).is_ok());
    assert_eq!(refused(&when(&nested(28)), &beds()), (8, 3 + 28 + 9));
}

#[test]
fn any_and_unique_count_the_records_kept() {
    let warm = |code: u8, heats: &[u16]| {
        outcome(&over(code, &[&[71], &WARM[..]].concat()), &run(heats)).expect("an answer")
    };
    for (heats, any, unique) in [
        (&[][..], Answer::False, Answer::False),
        (&[300, 65535], Answer::False, Answer::False),
        (&[300, 301, 65535], Answer::True, Answer::True),
        (&[301, 302], Answer::True, Answer::False),
    ] {
        assert_eq!((warm(60, heats), warm(62, heats)), (any, unique));
    }
    // Without a condition every record is kept.
    assert_eq!(outcome(&over(62, &[]), &run(&[65535])), Ok(Answer::True));
}

#[test]
fn runs_are_refused_at_three_places() {
    let one = over(60, &[]);
    let two = [&[58], &one[..], &one].concat();
    let good = run(&[1, 2]);
    let length = good.len();
    let both = [&good[..], &good].concat();
    assert_eq!(outcome(&two, &both), Ok(Answer::True));
    assert_eq!(outcome(&two, &[]), Err((26, 0)));
    assert_eq!(outcome(&two, &good), Err((26, length)));
    assert_eq!(outcome(&two, &both[..2 * length - 1]), Err((26, length)));
    assert_eq!(outcome(&two, &[&both[..], &[0]].concat()), Err((26, 2 * length)));
    for (place, byte) in [(0, 29), (0, 31), (2, 3), (3, 1), (4, 12), (8, 2), (10, 4)] {
        let mut wrong = good.clone();
        wrong[place] = byte;
        assert_eq!(outcome(&one, &wrong), Err((26, 0)), "byte {place}");
    }
    let none = [61, 21, 7, 0, 0, 0];
    assert_eq!(outcome(&none, &run(&[])), Err((26, 0)));
    assert_eq!(outcome(&none, &[]), Ok(Answer::False));
}

#[test]
fn all_records_are_tested_and_the_first_refusal_stands() {
    // 300 divided by the heat; the quotient stands at place 13.
    let quotient = [&[37, 21, 7, 255, 44, 1], &[24, 4, 0, 0][..]].concat();
    let test = [&[71, 49], &quotient[..], &[21, 7, 0, 0, 0]].concat();
    assert_eq!(outcome(&over(60, &test), &run(&[1, 2, 0])), Err((25, 12)));
    assert_eq!(outcome(&over(62, &test), &run(&[1, 2, 3])), Ok(Answer::False));
    // A sort is never worked out.
    let sort = [&[70, 1, 72], &quotient[..]].concat();
    assert_eq!(outcome(&over(60, &sort), &run(&[0])), Ok(Answer::True));
}

#[test]
fn an_inner_run_is_used_again() {
    // Any bed of the first run that has its equal in the second.
    let inner = [60, 67, 1, 75, 1, 0, 5, 71, 47, 24, 4, 0, 0, 24, 5, 0, 0, 255];
    let boolean = over(62, &[&[71], &inner[..]].concat());
    let runs = |first: &[u16], second: &[u16]| [run(first), run(second)].concat();
    assert_eq!(outcome(&boolean, &runs(&[1, 2, 3], &[9, 3, 3])), Ok(Answer::True));
    assert_eq!(outcome(&boolean, &runs(&[1, 2, 3], &[2, 3])), Ok(Answer::False));
    assert_eq!(outcome(&boolean, &runs(&[2, 2], &[2])), Ok(Answer::False));
}
