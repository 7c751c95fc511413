//! Evaluation: missing values, refusals in order, all kinds of tests.

mod common;

use common::{bed, beds, entry, field, relation, request};
use second::evaluator::Answer::{False, Missing, True};
use second::evaluator::{and, evaluate, not, or, Answer};
use second::record::Cause;

const BY_BIT: Answer = Missing(Cause::Bit);
const BY_FLAG: Answer = Missing(Cause::Flag);

/// The outcome as an answer or as number and place.
fn outcome(
    request: &[u8],
    dictionary: &[u8],
    messages: &[u8],
    records: &[u8],
) -> Result<Answer, (u32, usize)> {
    evaluate(request, dictionary, 0, messages, records)
        .map_err(|refusal| (refusal.number, refusal.place))
}

/// An if with a boolean, which stands at place 3.
fn if_request(boolean: &[u8]) -> Vec<u8> {
    request(&[&[8], boolean, &[2, 255, 255]])
}

/// The outcome of a boolean over literals.
fn plain(boolean: &[u8]) -> Result<Answer, (u32, usize)> {
    outcome(&if_request(boolean), &[], &[], &[])
}

/// A short literal.
fn short(scale: i8, number: i16) -> Vec<u8> {
    [&[21, 7, scale.to_le_bytes()[0]], &number.to_le_bytes()[..]].concat()
}

/// A text literal.
fn text(bytes: &[u8]) -> Vec<u8> {
    [&[21, 14, bytes.len() as u8, 0], bytes].concat()
}

/// A code with operands.
fn op(code: u8, operands: &[&[u8]]) -> Vec<u8> {
    [&[code], operands.concat().as_slice()].concat()
}

#[test]
fn and_or_not_follow_the_table() {
    let table = [
        (True, True, False, True, True),
        (True, False, False, False, True),
        (True, BY_BIT, False, BY_BIT, True),
        (False, True, True, False, True),
        (False, False, True, False, False),
        (False, BY_BIT, True, False, BY_BIT),
        (BY_BIT, BY_BIT, BY_BIT, BY_BIT, BY_BIT),
    ];
    for (left, right, negated, both, either) in table {
        assert_eq!(not(left), negated);
        assert_eq!((and(left, right), and(right, left)), (both, both));
        assert_eq!((or(left, right), or(right, left)), (either, either));
    }
}

#[test]
fn comparisons_of_numbers() {
    let answers = |left: i16, right: i16| {
        [47, 48, 49, 50, 51, 52].map(|code| plain(&op(code, &[&short(0, left), &short(-1, right)])))
    };
    assert_eq!(answers(30, 300), [True, False, False, True, False, True].map(Ok));
    assert_eq!(answers(30, 299), [False, True, True, True, False, False].map(Ok));
    assert_eq!(answers(-30, -299), [False, True, False, False, True, True].map(Ok));
    let between = |value: i16| plain(&op(56, &[&short(0, value), &short(0, 1), &short(-1, 30)]));
    assert_eq!([0, 1, 2, 3, 4].map(between), [False, True, True, True, False].map(Ok));
}

#[test]
fn tests_of_texts() {
    let test = |code: u8, left: &[u8], right: &[u8]| plain(&op(code, &[&text(left), &text(right)]));
    assert_eq!(test(47, b"AB", b"AB   "), Ok(True));
    assert_eq!(test(51, b"A\x1f", b"A"), Ok(True));
    assert_eq!(test(53, b"xTOMx", b"tom "), Ok(True));
    assert_eq!(test(54, b"AB  ", b"a?"), Ok(True));
    assert_eq!(test(54, b"AB  ", b"a??"), Ok(False));
    assert_eq!(test(54, b"AB", b"a* "), Ok(True));
    assert_eq!(test(55, b"ABC", b"AB  "), Ok(True));
    assert_eq!(test(55, b"ABC", b"ab"), Ok(False));
    assert_eq!(test(53, b"ABC", b" "), Ok(True));
    assert_eq!(test(55, b" ", b" "), Ok(True));
}

#[test]
fn arithmetic_refusals_stand_at_the_operator() {
    let zero = short(0, 0);
    assert_eq!(plain(&op(61, &[&op(37, &[&zero, &zero])])), Err((25, 4)));
    let product = op(36, &[&[21, 8, 0, 0, 0, 0, 128], &[21, 8, 0, 0, 0, 0, 128]]);
    let least = op(36, &[&product, &short(0, -2)]);
    assert_eq!(plain(&op(51, &[&least, &zero])), Ok(True));
    assert_eq!(plain(&op(61, &[&op(38, &[&least])])), Err((24, 4)));
    assert_eq!(plain(&op(61, &[&op(37, &[&least, &short(0, -1)])])), Err((24, 4)));
    // A refusal in a later operand stands, also where the answer seems settled.
    let truth = op(47, &[&zero, &zero]);
    let refusal = op(61, &[&op(37, &[&zero, &zero])]);
    let or_place = 3 + 1 + truth.len() + 1;
    assert_eq!(plain(&op(57, &[&truth, &refusal])), Err((25, or_place)));
    assert_eq!(plain(&op(58, &[&op(48, &[&zero, &zero]), &refusal])), Err((25, or_place)));
}

#[test]
fn missing_operands_come_before_the_operation() {
    let beds = beds();
    let test = |boolean: &[u8]| {
        let request = request(&[&[7, 67, 1, 75, 1, 0, 0, 71], boolean, &[255, 2, 255]]);
        outcome(&request, &beds, &[], &bed(1, 0, b"N1  "))
    };
    let heat: &[u8] = &[24, 0, 0, 0];
    let zero = short(0, 0);
    assert_eq!(test(&op(47, &[&op(37, &[heat, &zero]), &zero])), Ok(BY_BIT));
    assert_eq!(test(&op(61, &[&op(37, &[heat, &zero])])), Ok(True));
    assert_eq!(test(&op(56, &[&zero, &zero, heat])), Ok(BY_BIT));
    assert_eq!(test(&op(59, &[&op(47, &[heat, heat])])), Ok(BY_BIT));
    assert_eq!(test(&op(47, &[heat, &op(37, &[&zero, &zero])])), Err((25, 15)));
    assert_eq!(test(&op(61, &[heat])), Ok(True));
    assert_eq!(test(&op(61, &[&[24, 0, 1, 0]])), Ok(False));
}

/// The outcome of a between of three shorts, each there or missing.
fn between(values: [Option<i16>; 3]) -> Result<Answer, (u32, usize)> {
    // A message of three shorts, each with its flag behind it.
    let message = [&[4, 0, 6, 0], [7, 0].repeat(6).as_slice()].concat();
    let boolean = op(56, &[&[41, 0, 0, 0, 1, 0], &[41, 0, 2, 0, 3, 0], &[41, 0, 4, 0, 5, 0]]);
    let image = |value: Option<i16>| {
        let flag = i16::from(value.is_none());
        [value.unwrap_or(7).to_le_bytes(), flag.to_le_bytes()].concat()
    };
    let request = request(&[&message, &[8], &boolean, &[2, 255, 255]]);
    outcome(&request, &[], &values.map(image).concat(), &[])
}

#[test]
fn between_is_geq_with_the_second_and_leq_with_the_third() {
    let beside = |second, third| [5, 7, 9].map(|first| between([Some(first), second, third]));
    // Document 02: 5 is not between 7 and a limit never set.
    assert_eq!(beside(Some(7), None), [False, BY_FLAG, BY_FLAG].map(Ok));
    assert_eq!(beside(None, Some(7)), [BY_FLAG, BY_FLAG, False].map(Ok));
    assert_eq!(beside(None, None), [BY_FLAG; 3].map(Ok));
    assert_eq!(beside(Some(7), Some(7)), [False, True, False].map(Ok));
    assert_eq!(beside(Some(7), Some(9)), [False, True, True].map(Ok));
    assert_eq!(beside(Some(5), Some(7)), [True, True, False].map(Ok));
    assert_eq!(beside(Some(9), Some(5)), [False; 3].map(Ok));
    for second in [None, Some(5), Some(9)] {
        for third in [None, Some(5), Some(9)] {
            assert_eq!(between([None, second, third]), Ok(BY_FLAG));
        }
    }
}

#[test]
fn a_refusal_in_any_value_of_a_between_stands() {
    let [one, five, seven] = [1, 5, 7].map(|number| short(0, number));
    let quotient = op(37, &[&one, &short(0, 0)]);
    assert_eq!(plain(&op(56, &[&five, &seven, &quotient])), Err((25, 14)));
    assert_eq!(plain(&op(56, &[&five, &quotient, &one])), Err((25, 9)));
    assert_eq!(plain(&op(56, &[&quotient, &five, &quotient])), Err((25, 4)));
}

#[test]
fn malformed_texts_are_refused_where_they_are_read() {
    let dictionary = [relation(1, "R"), field(0, 37, 0, 3, "V"), field(1, 40, 0, 3, "C")].concat();
    let record = |missing: u8, varying: &[u8; 5], cstring: &[u8; 3]| {
        entry(3, &[&[1, 0, missing], &varying[..], cstring].concat())
    };
    let test = |boolean: &[u8], record: &[u8]| {
        let request = request(&[&[7, 67, 1, 75, 1, 0, 0, 71], boolean, &[255, 2, 255]]);
        outcome(&request, &dictionary, &[], record)
    };
    let both = op(47, &[&[24, 0, 0, 0], &[23, 0, 1, b'C']]);
    assert_eq!(test(&both, &record(0, b"\x02\0AB?", b"AB\0")), Ok(True));
    assert_eq!(test(&both, &record(0, b"\x04\0AB?", b"AB\0")), Err((23, 11)));
    assert_eq!(test(&both, &record(0, b"\x02\0AB?", b"ABC")), Err((23, 15)));
    assert_eq!(test(&both, &record(1, b"\x04\0AB?", b"AB\0")), Ok(BY_BIT));
    assert_eq!(test(&both, &record(1, b"\x04\0AB?", b"ABC")), Err((23, 15)));
    assert_eq!(test(&op(61, &[&[24, 0, 0, 0]]), &record(0, b"\x04\0AB?", b"AB\0")), Err((23, 11)));
}

#[test]
fn parameters_and_flags() {
    let message = [4, 0, 3, 0, 40, 2, 0, 7, 255, 8, 0];
    let test = |boolean: &[u8], image: &[u8]| {
        outcome(&request(&[&message, &[8], boolean, &[2, 255, 255]]), &[], image, &[])
    };
    let flagged = op(61, &[&[41, 0, 0, 0, 1, 0]]);
    assert_eq!(test(&flagged, &[65, 0, 0, 0, 0, 0, 0, 0]), Ok(False));
    assert_eq!(test(&flagged, &[65, 65, 0, 1, 0, 0, 0, 0]), Ok(True));
    assert_eq!(test(&flagged, &[65, 65, 0, 0, 0, 0, 0, 0]), Err((23, 15)));
    let by_long = op(61, &[&[41, 0, 1, 0, 2, 0]]);
    assert_eq!(test(&by_long, &[65, 0, 0, 0, 0, 0, 0, 1]), Ok(True));
    // A short of -1 is a value.
    let short_value = op(47, &[&[25, 0, 1, 0], &short(-1, -1)]);
    assert_eq!(test(&short_value, &[65, 0, 255, 255, 0, 0, 0, 0]), Ok(True));
}

#[test]
fn dates_have_a_signed_day_and_an_unsigned_fraction() {
    let message = [4, 0, 2, 0, 35, 35];
    let less = |left: (i32, u32), right: (i32, u32)| {
        let images = [left, right]
            .map(|(day, fraction)| [day.to_le_bytes(), fraction.to_le_bytes()].concat());
        let boolean = op(51, &[&[25, 0, 0, 0], &[25, 0, 1, 0]]);
        outcome(&request(&[&message, &[8], &boolean, &[2, 255, 255]]), &[], &images.concat(), &[])
    };
    assert_eq!(less((-1, 5), (0, 0)), Ok(True));
    assert_eq!(less((0, 0), (-1, 5)), Ok(False));
    assert_eq!(less((0, 1), (0, u32::MAX)), Ok(True));
    assert_eq!(less((0, 7), (0, 7)), Ok(False));
}

#[test]
fn refusals_before_evaluation_come_in_order() {
    let s = common::S;
    let record = bed(0, 301, b"N1  ");
    let refused = |condition, messages: &[u8], records: &[u8]| {
        let refusal = evaluate(&s, &beds(), condition, messages, records).expect_err("a refusal");
        (refusal.number, refusal.place)
    };
    assert_eq!(refused(1, &[], &[]), (20, 0));
    assert_eq!(refused(0, &[0], &[]), (21, 1));
    assert_eq!(refused(0, &[0, 0, 0], &[]), (21, 3));
    assert_eq!(refused(0, &[0, 0], &[]), (22, 0));
    assert_eq!(refused(0, &[0, 0], &record[..12]), (22, 0));
    assert_eq!(refused(0, &[0, 0], &[&record[..], &record].concat()), (22, 13));
    let refusal = evaluate(&common::altered(18, 1), &beds(), 9, &[], &[]).expect_err("a refusal");
    assert_eq!((refusal.number, refusal.place), (11, 18));
    let refusal = evaluate(&s, &[9], 9, &[], &[]).expect_err("a refusal");
    assert_eq!((refusal.number, refusal.place), (3, 0));
}

#[test]
fn records_are_due_for_every_context_in_scope() {
    // A for in context 0 with condition 0, a modify in context 1, an if with condition 1.
    let request = request(&[
        &[7, 67, 1, 75, 1, 0, 0, 71, 61, 24, 0, 0, 0, 255],
        &[10, 0, 1, 8, 49, 24, 1, 0, 0, 24, 0, 0, 0, 2, 255, 255],
    ]);
    let (low, high) = (bed(0, 1, b"    "), bed(0, 2, b"    "));
    let answer = |condition, records: &[Vec<u8>]| {
        evaluate(&request, &beds(), condition, &[], &records.concat())
            .map_err(|refusal| (refusal.number, refusal.place))
    };
    assert_eq!(answer(0, std::slice::from_ref(&low)), Ok(False));
    assert_eq!(answer(0, &[low.clone(), high.clone()]), Err((22, 13)));
    assert_eq!(answer(1, std::slice::from_ref(&low)), Err((22, 13)));
    assert_eq!(answer(1, &[low.clone(), high.clone()]), Ok(True));
    assert_eq!(answer(1, &[high, low]), Ok(False));
}
