//! The explanation program: its input, its lines, and that they are a true reason.

mod common;

use common::{bed, beds, entry, request, S};
use second::evaluator::{and, deciders, evaluate_over, not, or, Answer, Lent};
use second::explanation::explanation;
use second::generate::{conditions, explanations, Case};
use second::reader;
use second::reader::parsed::Boolean;
use second::record::Cause;

/// The output for the first condition of a request beside BEDS, with its other entries.
fn explain(request: &[u8], others: &[Vec<u8>]) -> String {
    let head = [entry(4, &beds()), entry(5, request), entry(9, &[0, 0])].concat();
    explanation(&[head, others.concat()].concat())
}

#[test]
fn a_line_has_place_and_outcome() {
    let heat = |missing, heat| explain(&S, &[entry(10, &[0, 0]), bed(missing, heat, b"N1  ")]);
    assert_eq!(heat(0, 301), "16 true\n");
    assert_eq!(heat(0, 300), "16 false\n");
    assert_eq!(heat(0, 65535), "16 missing\n");
    assert_eq!(heat(1, 301), "16 missing\n");
}

#[test]
fn messages_may_come_in_parts() {
    let record = bed(0, 301, b"N1  ");
    let parts = [entry(10, &[0]), entry(10, &[]), entry(10, &[0]), record.clone()];
    assert_eq!(explain(&S, &parts), "16 true\n");
    assert_eq!(explain(&S, &[entry(10, &[0]), record.clone()]), "refused 21 at 1\n");
    assert_eq!(explain(&S, &[entry(10, &[0, 0])]), "refused 22 at 0\n");
    assert_eq!(explain(&S, &[entry(10, &[0, 0]), record, entry(7, &[])]), "refused 26 at 0\n");
}

#[test]
fn other_input_is_bad() {
    let message = entry(10, &[0, 0]);
    let record = bed(0, 301, b"N1  ");
    assert_eq!(explain(&S, &[record.clone(), message.clone()]), "bad input\n");
    assert_eq!(explain(&S, &[message.clone(), entry(7, &[]), record.clone()]), "bad input\n");
    assert_eq!(explain(&S, &[message, record[..12].to_vec()]), "bad input\n");
    for number in [&[][..], &[0], &[0, 0, 0]] {
        let input = [entry(4, &beds()), entry(5, &S), entry(9, number)].concat();
        assert_eq!(explanation(&input), "bad input\n");
    }
    let input = [entry(4, &beds()), entry(5, &S), entry(9, &[1, 0])].concat();
    assert_eq!(explanation(&input), "refused 20 at 0\n");
}

#[test]
fn the_input_has_at_most_3000000_bytes() {
    let inputs = explanations::inputs(1, 1000);
    let output = |length: usize| {
        let input = inputs.iter().find(|input| input.len() == length).expect("such an input");
        explanation(input)
    };
    assert_eq!(output(3_000_000), "refused 26 at 0\n");
    assert_eq!(output(3_000_001), "bad input\n");
}

#[test]
fn the_first_deciding_side_is_enough() {
    let equal = |number: u8| vec![47, 21, 7, 0, 1, 0, 21, 7, 0, number, 0];
    let (truth, falsehood) = (equal(1), equal(2));
    let lines =
        |boolean: &[&[u8]]| explain(&request(&[&[8], &boolean.concat(), &[2, 255, 255]]), &[]);
    assert_eq!(lines(&[&[58], &falsehood, &falsehood]), "4 false\n");
    assert_eq!(lines(&[&[58], &truth, &falsehood]), "15 false\n");
    assert_eq!(lines(&[&[58], &truth, &truth]), "4 true\n15 true\n");
    assert_eq!(lines(&[&[57], &truth, &truth]), "4 true\n");
    assert_eq!(lines(&[&[57], &falsehood, &truth]), "15 true\n");
    assert_eq!(lines(&[&[57], &falsehood, &falsehood]), "4 false\n15 false\n");
    assert_eq!(lines(&[&[59, 57], &falsehood, &truth]), "16 true\n");
    // A side that is not printed may still refuse.
    let refused = [61, 37, 21, 7, 0, 1, 0, 21, 7, 0, 0, 0];
    assert_eq!(lines(&[&[57], &truth, &refused]), "refused 25 at 16\n");
}

#[test]
fn any_and_unique_are_one_test() {
    let warm = [49, 24, 4, 0, 0, 21, 7, 0, 30, 0];
    let any = [&[60, 67, 1, 75, 1, 0, 4, 71], &warm[..], &[255]].concat();
    let request = request(&[&[8, 59], &any, &[2, 255, 255]]);
    let run = entry(7, &[bed(0, 301, b"N1  "), bed(0, 65535, b"N2  ")].concat());
    assert_eq!(explain(&request, &[run]), "4 true\n");
    assert_eq!(explain(&request, &[entry(7, &[])]), "4 false\n");
}

/// The answer of a boolean whose tests come out as said, in reading order.
fn supposed(boolean: &Boolean, answers: &mut impl Iterator<Item = Answer>) -> Answer {
    match boolean {
        Boolean::And(sides) => {
            let left = supposed(&sides[0], answers);
            and(left, supposed(&sides[1], answers))
        }
        Boolean::Or(sides) => {
            let left = supposed(&sides[0], answers);
            or(left, supposed(&sides[1], answers))
        }
        Boolean::Not(side) => not(supposed(side, answers)),
        _ => answers.next().expect("an answer for each test"),
    }
}

/// The places of the tests of a boolean, in reading order.
fn places(boolean: &Boolean) -> Vec<usize> {
    match boolean {
        Boolean::And(sides) | Boolean::Or(sides) => sides.iter().flat_map(places).collect(),
        Boolean::Not(side) => places(side),
        Boolean::Test(_, values) => vec![values[0].place - 1],
        Boolean::Over(_, selection) => vec![selection.place],
    }
}

/// An answer without its cause.
fn plain(answer: Answer) -> Answer {
    match answer {
        Answer::Missing(_) => Answer::Missing(Cause::Bit),
        other => other,
    }
}

/// Whether the lines of a case are a true reason; nothing for a case that is refused.
fn is_true_reason(case: &Case) -> Option<bool> {
    let Case::Evaluate { dictionary, request, condition, messages, records, runs } = case else {
        return None;
    };
    let lent = Lent { messages, records, runs };
    let answer = evaluate_over(request, dictionary, *condition, lent).ok()?;
    let listed = deciders(request, dictionary, *condition, lent).expect("an explanation");
    let (parsed, _) = reader::parse(request, dictionary).expect("accepted");
    let boolean = &parsed.conditions[*condition].boolean;
    let places = places(boolean);
    let others = [Answer::True, Answer::False, Answer::Missing(Cause::Bit)];
    let choices = 3usize.pow(places.len().min(6) as u32);
    let mut held = (0..choices).map(|choice| {
        let mut answers = places.iter().enumerate().map(|(at, place)| {
            let decider = listed.iter().find(|decider| decider.place == *place);
            let other = others[choice / 3usize.pow(at.min(5) as u32) % 3];
            decider.map_or(other, |decider| decider.answer)
        });
        plain(supposed(boolean, &mut answers)) == plain(answer)
    });
    Some(held.all(|held| held))
}

#[test]
fn the_lines_are_a_true_reason() {
    let count = conditions::written().len() + 1500;
    let reasons: Vec<bool> =
        conditions::cases(3, count).filter_map(|case| is_true_reason(&case)).collect();
    assert!(reasons.len() >= 1500 && reasons.iter().all(|holds| *holds));
}

#[test]
fn inputs_reach_every_line() {
    let inputs = explanations::inputs(1, 1200);
    let outputs: Vec<String> = inputs.iter().map(|input| explanation(input)).collect();
    let with = |end: &str| outputs.iter().filter(|output| output.ends_with(end)).count();
    for (end, least) in
        [(" true\n", 100), (" false\n", 100), (" missing\n", 100), ("bad input\n", 80)]
    {
        assert!(with(end) >= least, "{end}: {}", with(end));
    }
    for number in 20..=26 {
        let start = format!("refused {number} at ");
        let count = outputs.iter().filter(|output| output.starts_with(&start)).count();
        assert!(count >= 3, "refusal {number}: {count}");
    }
    assert_eq!(explanations::inputs(1, 700), explanations::inputs(1, 700));
}
