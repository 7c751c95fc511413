//! Statistics and from-values: their reading, their answers over runs, their refusals.

mod common;

use common::{bed, beds, entry, field, read, refused, relation, request};
use second::count::Tally;
use second::evaluator::{evaluate_over, evaluate_value, Answer, Lent, ValueAnswer};
use second::generate::from_values;
use second::reader;
use second::record::Cause;

/// An rse of BEDS in context 4 without its clauses and its end.
const BEDS: [u8; 6] = [67, 1, 75, 1, 0, 4];

/// The heat of the bed in context 4.
const HEAT: [u8; 4] = [24, 4, 0, 0];

/// A statistic over BEDS with clauses, of the heat unless it is count.
fn of_heat(code: u8, clauses: &[u8]) -> Vec<u8> {
    let number: &[u8] = if code == 28 { &[] } else { &HEAT };
    [&[code], &BEDS[..], clauses, &[255], number].concat()
}

/// A request that sends a number; the value stands at place 11, the assignment in row 2.
fn sending(value: &[u8]) -> Vec<u8> {
    request(&[&[4, 0, 1, 0, 8, 0, 14, 0, 1], value, &[25, 0, 0, 0]])
}

/// A run of beds with these heats.
fn run(heats: &[u16]) -> Vec<u8> {
    let records: Vec<Vec<u8>> = heats.iter().map(|heat| bed(0, *heat, b"N1  ")).collect();
    entry(7, &records.concat())
}

/// A from-value or a refusal.
type Outcome = Result<ValueAnswer, (u32, usize)>;

/// The value that is sent.
fn sent(value: &[u8], runs: &[u8]) -> Outcome {
    let lent = Lent { messages: &[0; 4], records: &[], runs };
    evaluate_value(&sending(value), &beds(), 2, lent)
        .map_err(|refusal| (refusal.number, refusal.place))
}

/// A number.
fn number(number: i64, scale: i8) -> Outcome {
    Ok(ValueAnswer::Number(number, scale))
}

const NOTHING: Outcome = Ok(ValueAnswer::Missing(Cause::Nothing));

#[test]
fn missing_values_are_skipped() {
    let all =
        |heats: &[u16]| [27, 28, 29, 30, 31].map(|code| sent(&of_heat(code, &[]), &run(heats)));
    let due = |average, count, greatest, least, total| {
        let heat = |value| number(value, -1);
        [heat(average), number(count, 0), heat(greatest), heat(least), heat(total)]
    };
    assert_eq!(all(&[300, 65535, 305]), due(302, 3, 305, 300, 605));
    assert_eq!(all(&[65535, 7]), due(7, 2, 7, 7, 7));
    for (heats, count) in [(&[][..], 0), (&[65535, 65535], 2)] {
        let none = [NOTHING, number(count, 0), NOTHING, NOTHING, number(0, -1)];
        assert_eq!(all(heats), none);
    }
}

#[test]
fn only_kept_records_count() {
    let warm = [71, 49, 24, 4, 0, 0, 21, 7, 0, 30, 0];
    let heats = run(&[300, 301, 65535, 400]);
    assert_eq!(sent(&of_heat(28, &warm), &heats), number(2, 0));
    assert_eq!(sent(&of_heat(31, &warm), &heats), number(701, -1));
    assert_eq!(sent(&of_heat(30, &warm), &heats), number(301, -1));
    assert_eq!(sent(&of_heat(27, &warm), &run(&[1, 2])), NOTHING);
}

#[test]
fn averages_truncate_toward_zero() {
    let less = [&[27], &BEDS[..], &[255, 38], &HEAT].concat();
    assert_eq!(sent(&less, &run(&[3, 4])), number(-3, -1));
    assert_eq!(sent(&of_heat(27, &[]), &run(&[3, 4])), number(3, -1));
}

#[test]
fn partial_sums_must_fit() {
    let long = [21, 8, 0, 0, 0, 0, 128];
    // The heat less one, times 2^62.
    let sign = [&[35], &HEAT[..], &[21, 7, 255, 1, 0]].concat();
    let value = [&[36], &sign[..], &[36], &long, &long].concat();
    let over = |code: u8| [&[code], &BEDS[..], &[255], &value].concat();
    for code in [27, 31] {
        assert_eq!(sent(&over(code), &run(&[2, 2, 0])), Err((24, 11)));
        assert!(sent(&over(code), &run(&[2, 0, 2])).is_ok());
        assert!(sent(&over(code), &run(&[0, 0])).is_ok());
    }
    assert_eq!(sent(&over(29), &run(&[2, 2])), number(1 << 62, -1));
}

#[test]
fn numbers_are_worked_out_before_the_next_test() {
    // Sums of 1 divided by the heat, where the name of the next bed is malformed.
    let dictionary =
        [relation(1, "BEDS"), field(0, 7, 0, 2, "N"), field(1, 40, 0, 1, "NAME")].concat();
    let quotient = [37, 21, 7, 0, 1, 0, 24, 4, 0, 0];
    let named = [71, 47, 24, 4, 1, 0, 21, 14, 1, 0, b' '];
    let total = [&[31], &BEDS[..], &named, &[255], &quotient].concat();
    let record = |number: u8, name: u8| entry(3, &[1, 0, 0, number, 0, name]);
    let outcome = |records: [Vec<u8>; 2]| {
        let runs = entry(7, &records.concat());
        let lent = Lent { messages: &[0; 4], records: &[], runs: &runs };
        evaluate_value(&sending(&total), &dictionary, 2, lent)
            .map_err(|refusal| (refusal.number, refusal.place))
    };
    assert_eq!(outcome([record(0, 0), record(1, b'x')]), Err((25, 30)));
    assert_eq!(outcome([record(1, b'x'), record(0, 0)]), Err((23, 20)));
    assert_eq!(outcome([record(1, 0), record(1, 0)]), number(2, 0));
}

#[test]
fn reading_of_statistics() {
    let cut = |value: &[u8]| refused(&[&[4, 2, 8, 61], value].concat(), &beds());
    for code in 27..=31 {
        assert_eq!(cut(&[code]), (4, 5));
        assert_eq!(cut(&[code, 67, 2]), (8, 6));
        assert_eq!(cut(&[code, 67, 9]), (16, 6));
        // As a target it is not due.
        assert_eq!(refused(&[4, 2, 1, 21, 7, 0, 1, 0, code], &beds()), (6, 8));
    }
    let text = [24, 4, 1, 0];
    let of_text = [&[27], &BEDS[..], &[255], &text].concat();
    assert_eq!(cut(&of_text[..of_text.len() - 1]), (4, 4 + 11));
    assert_eq!(cut(&of_text), (13, 4));
    // The scope reaches over the number, that of count to the end of its rse.
    let after = |code: u8| [&[34], &of_heat(code, &[])[..], &HEAT].concat();
    assert_eq!(cut(&after(31)), (11, 4 + 1 + 12 + 1));
    assert_eq!(cut(&after(28)), (11, 4 + 1 + 8 + 1));
    // Type 27 stays left out.
    assert_eq!(refused(&[4, 2, 4, 0, 1, 0, 27], &[]), (7, 6));
}

#[test]
fn rows_of_statistics() {
    let value = [&[34], &of_heat(31, &[])[..], &of_heat(28, &[])].concat();
    let request = sending(&value);
    assert!(read(&request, &beds()).is_ok());
    let (parsed, _) = reader::parse(&request, &beds()).expect("accepted");
    let rows = parsed.contexts.iter().map(|row| (row.place, row.start, row.end, row.opener));
    assert_eq!(rows.collect::<Vec<_>>(), [(15, 19, 24, 31), (27, 31, 32, 28)]);
}

#[test]
fn sorts_have_no_runs() {
    let inner = [27, 67, 1, 75, 1, 0, 5, 255, 24, 5, 0, 0];
    let sorted = of_heat(28, &[&[70, 1, 72], &inner[..]].concat());
    assert_eq!(sent(&sorted, &run(&[1, 2])), number(2, 0));
    assert_eq!(sent(&sorted, &run(&[1, 2]).repeat(2)), Err((26, run(&[1, 2]).len())));
    // A sort of a for: the statistic in it has no run for the condition behind it.
    let request = request(&[
        &[7, 67, 1, 75, 1, 0, 0, 70, 1, 72],
        &inner,
        &[71, 60, 67, 1, 75, 1, 0, 6, 255, 255, 2, 255],
    ]);
    let record = bed(0, 1, b"N1  ");
    let lent = Lent { messages: &[], records: &record, runs: &run(&[1]) };
    assert_eq!(evaluate_over(&request, &beds(), 0, lent), Ok(Answer::True));
}

#[test]
fn runs_stand_in_the_order_of_codes() {
    // The total of heats above the average of the second run, each plus the count of the third.
    let average = [27, 67, 1, 75, 1, 0, 5, 255, 24, 5, 0, 0];
    let condition = [&[71, 49], &HEAT[..], &average].concat();
    let sum = [&[34], &HEAT[..], &[28, 67, 1, 75, 1, 0, 5, 255]].concat();
    let value = [&[31], &BEDS[..], &condition, &[255], &sum].concat();
    let runs = [run(&[10, 20, 30]), run(&[10, 18]), run(&[1, 2, 3])].concat();
    assert_eq!(sent(&value, &runs), number(20 + 30 + 30 + 30, -1));
}

#[test]
fn from_values_are_asked_for_by_row() {
    let value = |row, messages: &[u8], records: &[u8], runs: &[u8]| {
        let lent = Lent { messages, records, runs };
        evaluate_value(&sending(&[21, 7, 0, 5, 0]), &beds(), row, lent)
            .map_err(|refusal| (refusal.number, refusal.place))
    };
    assert_eq!(value(2, &[0; 4], &[], &[]), number(5, 0));
    for row in [0, 1, 3, 600, usize::MAX] {
        assert_eq!(value(row, &[], &[0], &[0]), Err((20, 0)));
    }
    assert_eq!(value(2, &[0; 3], &[0], &[0]), Err((21, 3)));
    assert_eq!(value(2, &[0; 4], &[0], &[0]), Err((22, 0)));
    assert_eq!(value(2, &[0; 4], &[], &[0]), Err((26, 0)));
}

#[test]
fn a_store_has_its_own_record() {
    let copy = |field: u8| [1, 24, 7, field, 0, 24, 7, field, 0];
    let value = |field: u8, missing: u8| {
        let request = request(&[&[15, 75, 1, 0, 7], &copy(field)]);
        let record = bed(missing, 65535, b"AB  ");
        let lent = Lent { messages: &[], records: &record, runs: &[] };
        evaluate_value(&request, &beds(), 2, lent).expect("a value")
    };
    assert_eq!(value(1, 0), ValueAnswer::Text(b"AB".to_vec()));
    assert_eq!(value(1, 2), ValueAnswer::Missing(Cause::Bit));
    assert_eq!(value(0, 0), ValueAnswer::Missing(Cause::Reading));
}

#[test]
fn generated_from_values_have_every_outcome() {
    let tally = Tally::of(from_values::cases(1, from_values::written().len() + 400));
    for answer in ["number", "text", "date", "missing bit", "missing reading", "missing nothing"] {
        assert!(tally.answers[answer] >= 5, "{answer}: {}", tally.answers[answer]);
    }
    for number in 20..=26 {
        assert!(tally.refusals[&number] >= 10, "refusal {number}: {}", tally.refusals[&number]);
    }
}
