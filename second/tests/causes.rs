//! Causes of missing values: of fields and parameters, of what has a missing operand, and those that
//! the conditions written by hand have.

mod common;

use common::{entry, field, relation, request};
use second::cases;
use second::evaluator::Answer::{False, Missing, True};
use second::evaluator::{and, evaluate, not, or, Answer};
use second::generate::evaluations::{outcome, CAUSES};
use second::generate::{conditions, Case};
use second::reader;
use second::reader::parsed::{Boolean, Form, Value};
use second::record::Cause::{self, Bit, Flag, Reading};
use second::wire::{AND, BETWEEN, EQL, FID, OR, PARAMETER2};

/// A value that is there, or the cause of a missing one.
type Choice = Option<Cause>;

const CHOICES: [Choice; 4] = [None, Some(Bit), Some(Reading), Some(Flag)];

/// A short literal.
fn short(number: i16) -> Vec<u8> {
    [&[21, 7, 0], &number.to_le_bytes()[..]].concat()
}

/// A code with operands.
fn op(code: u8, operands: &[&[u8]]) -> Vec<u8> {
    [&[code], operands.concat().as_slice()].concat()
}

/// A number: 5, or a missing one.
fn number(choice: Choice) -> Vec<u8> {
    match choice {
        None => short(5),
        Some(Bit) => vec![24, 0, 0, 0],
        Some(Reading) => vec![24, 0, 1, 0],
        Some(_) => vec![41, 0, 0, 0, 1, 0],
    }
}

/// A text: a literal, or a missing one. No text is a reading.
fn text(choice: Choice) -> Vec<u8> {
    match choice {
        None => vec![21, 14, 2, 0, b'a', b'b'],
        Some(Bit) => vec![24, 0, 3, 0],
        Some(_) => vec![41, 0, 2, 0, 1, 0],
    }
}

/// The answer of a boolean over the fields and parameters of `number` and `text`. Field 2 has its bit
/// and is a reading of 65535; field 4 is a short of 65535's bytes.
fn answer(boolean: &[u8]) -> Answer {
    let dictionary = [
        relation(1, "R"),
        field(0, 200, 0, 2, "A"),
        field(1, 200, 0, 2, "B"),
        field(2, 200, 0, 2, "C"),
        field(3, 14, 0, 2, "D"),
        field(4, 7, 0, 2, "E"),
    ];
    let message = [4, 0, 3, 0, 7, 0, 7, 0, 14, 2, 0];
    let statement = [&[7, 67, 1, 75, 1, 0, 0, 71], boolean, &[255, 2, 255]].concat();
    let record = entry(3, b"\x01\0\x0d\x05\0\xff\xff\xff\xffab\xff\xff");
    let request = request(&[&message, &statement]);
    evaluate(&request, &dictionary.concat(), 0, b"\x05\0\x01\0ab", &record).expect("an answer")
}

/// The answer of a test of a value against 5.
fn equals_five(value: &[u8]) -> Answer {
    answer(&op(47, &[value, &short(5)]))
}

/// The cause of an answer.
fn cause(answer: Answer) -> Choice {
    match answer {
        Missing(cause) => Some(cause),
        True | False => None,
    }
}

#[test]
fn a_missing_value_has_its_cause() {
    for choice in CHOICES {
        assert_eq!(equals_five(&number(choice)), choice.map_or(True, Missing));
    }
    assert_eq!(equals_five(&[24, 0, 2, 0]), Missing(Bit));
    // A short of 65535's bytes and a plain parameter are there.
    assert_eq!(answer(&op(47, &[&[24, 0, 4, 0], &short(-1)])), True);
    assert_eq!(equals_five(&[25, 0, 0, 0]), True);
}

#[test]
fn missing_61_has_no_cause() {
    for choice in CHOICES {
        let missing = op(61, &[&number(choice)]);
        let expected = if choice.is_some() { True } else { False };
        assert_eq!(answer(&missing), expected);
        assert_eq!(answer(&op(59, &[&missing])), not(expected));
    }
}

#[test]
fn tests_pass_on_the_first_cause() {
    for left in CHOICES {
        for right in CHOICES {
            for code in 47..=52 {
                let test = op(code, &[&number(left), &number(right)]);
                assert_eq!(cause(answer(&test)), left.or(right), "test {code}");
                assert_eq!(cause(answer(&op(59, &[&test]))), left.or(right), "not of {code}");
            }
        }
    }
    for left in [None, Some(Bit), Some(Flag)] {
        for right in [None, Some(Bit), Some(Flag)] {
            for code in 47..=55 {
                let test = op(code, &[&text(left), &text(right)]);
                assert_eq!(cause(answer(&test)), left.or(right), "test {code}");
            }
        }
    }
}

#[test]
fn arithmetic_passes_on_the_first_cause() {
    for left in CHOICES {
        assert_eq!(cause(equals_five(&op(38, &[&number(left)]))), left);
        for right in CHOICES {
            for code in 34..=37 {
                let value = op(code, &[&number(left), &number(right)]);
                assert_eq!(cause(equals_five(&value)), left.or(right), "operator {code}");
                assert_eq!(cause(equals_five(&op(38, &[&value]))), left.or(right));
                // The operands of an operator stand before the test's second value.
                let test = op(51, &[&value, &number(Some(Flag))]);
                assert_eq!(cause(answer(&test)), left.or(right).or(Some(Flag)));
            }
        }
    }
}

/// The limits of a between beside 5, and whether 5 is below the first and above the second.
const LIMITS: [([i16; 2], bool, bool); 4] =
    [([3, 7], false, false), ([7, 9], true, false), ([1, 3], false, true), ([7, 3], true, true)];

/// A limit, or a missing one.
fn limit(limit: i16, choice: Choice) -> Vec<u8> {
    choice.map_or(short(limit), |cause| number(Some(cause)))
}

#[test]
fn between_passes_on_the_first_cause_unless_it_is_false() {
    for (limits, is_below, is_above) in LIMITS {
        for turn in 0..64 {
            let [first, second, third] = [turn / 16, turn / 4 % 4, turn % 4].map(|n| CHOICES[n]);
            let is_below = second.is_none() && is_below;
            let is_above = third.is_none() && is_above;
            let expected = match first.or(second).or(third) {
                _ if first.is_none() && (is_below || is_above) => False,
                Some(cause) => Missing(cause),
                None => True,
            };
            let (low, high) = (limit(limits[0], second), limit(limits[1], third));
            assert_eq!(answer(&op(56, &[&number(first), &low, &high])), expected);
        }
    }
}

#[test]
fn and_or_not_pass_on_the_first_cause() {
    let answers = [True, False, Missing(Bit), Missing(Reading), Missing(Flag)];
    for left in answers {
        for right in answers {
            let first = cause(left).or(cause(right)).map(Missing);
            let has = |side| left == side || right == side;
            let both = if has(False) { False } else { first.unwrap_or(True) };
            assert_eq!(and(left, right), both, "{left:?} and {right:?}");
            let either = if has(True) { True } else { first.unwrap_or(False) };
            assert_eq!(or(left, right), either, "{left:?} or {right:?}");
        }
        assert_eq!(cause(not(left)), cause(left));
    }
}

#[test]
fn a_cause_that_does_not_count_is_passed_over() {
    let test = |cause| op(47, &[&number(Some(cause)), &short(5)]);
    let truth = op(47, &[&short(5), &short(5)]);
    let either = op(57, &[&test(Bit), &truth]);
    assert_eq!(answer(&op(58, &[&either, &test(Flag)])), Missing(Flag));
    let between = op(56, &[&short(1), &short(5), &number(Some(Bit))]);
    assert_eq!(answer(&op(57, &[&between, &test(Reading)])), Missing(Reading));
    let missing = op(61, &[&number(Some(Reading))]);
    assert_eq!(answer(&op(58, &[&missing, &test(Bit)])), Missing(Bit));
}

#[test]
fn cases_name_the_cause_and_the_answer_alone_does_not() {
    let names = [True, False, Missing(Bit), Missing(Reading), Missing(Flag)]
        .map(|answer| (cases::answer_name(answer), cases::answer_and_cause(answer)));
    assert_eq!(names[..2], [("true", "true"), ("false", "false")]);
    assert_eq!(names[2], ("missing", "missing bit"));
    assert_eq!(names[3], ("missing", "missing reading"));
    assert_eq!(names[4], ("missing", "missing flag"));
}

/// A code with its operands, each with the cause if it is missing.
type Shape = (u8, Vec<Choice>);

/// A condition written by hand.
struct Written {
    case: Case,
    /// The place of the condition.
    start: usize,
    shapes: Vec<Shape>,
}

/// The bytes behind the condition of a case: the ends of its statement and of the request.
const BEHIND: usize = 5;

impl Written {
    /// The cause of a field or parameter2 that is missing.
    fn cause(&self, value: &Value) -> Choice {
        let mut case = self.case.clone();
        let Case::Evaluate { request, .. } = &mut case else {
            return None;
        };
        let length = match request[value.place] {
            FID => 4,
            PARAMETER2 => 6,
            _ => return None,
        };
        let leaf = request[value.place..value.place + length].to_vec();
        let end = request.len() - BEHIND;
        request.splice(self.start..end, op(EQL, &[&leaf, &leaf]));
        outcome(&case).and_then(Result::ok).and_then(cause)
    }

    /// Notes the shapes of a boolean and of what is in it, and gives its own cause.
    fn boolean(&mut self, boolean: &Boolean) -> Choice {
        let (code, causes) = match boolean {
            Boolean::Not(side) => return self.boolean(side),
            Boolean::Over(..) => return None,
            Boolean::And(sides) => (AND, sides.each_ref().map(|side| self.boolean(side)).to_vec()),
            Boolean::Or(sides) => (OR, sides.each_ref().map(|side| self.boolean(side)).to_vec()),
            Boolean::Test(code, values) => {
                (*code, values.iter().map(|value| self.value(value)).collect())
            }
        };
        self.note(code, causes)
    }

    /// Notes the shapes of what is in a value, and gives its own cause.
    fn value(&mut self, value: &Value) -> Choice {
        match &value.form {
            Form::Negate(operand) => self.value(operand),
            Form::Arithmetic(code, operands) => {
                let causes = operands.each_ref().map(|operand| self.value(operand));
                self.note(*code, causes.to_vec())
            }
            _ => self.cause(value),
        }
    }

    /// Notes a shape and gives its first cause.
    fn note(&mut self, code: u8, causes: Vec<Choice>) -> Choice {
        let first = causes.iter().copied().find_map(|cause| cause);
        self.shapes.push((code, causes));
        first
    }
}

/// The shapes of a condition, the only one of its request.
fn shapes(case: Case) -> Vec<Shape> {
    let (dictionary, request) = case.bytes();
    let (parsed, _) = reader::parse(request, dictionary).expect("accepted");
    let [condition] = &parsed.conditions[..] else {
        return Vec::new();
    };
    let Some(start) = start(&condition.boolean) else {
        return Vec::new();
    };
    let mut written = Written { case, start, shapes: Vec::new() };
    written.boolean(&condition.boolean);
    written.shapes
}

/// The place of a boolean, before its first value.
fn start(boolean: &Boolean) -> Option<usize> {
    match boolean {
        Boolean::And(sides) | Boolean::Or(sides) => Some(start(&sides[0])? - 1),
        Boolean::Not(side) => Some(start(side)? - 1),
        Boolean::Test(_, values) => Some(values.first()?.place - 1),
        Boolean::Over(_, selection) => Some(selection.place),
    }
}

#[test]
fn conditions_written_by_hand_have_different_causes_in_every_order() {
    let shapes: Vec<Shape> = conditions::written().into_iter().flat_map(shapes).collect();
    let has = |code: u8, causes: &[Choice]| {
        shapes.iter().any(|(other, others)| *other == code && others == causes)
    };
    let pairs = [(Bit, Reading), (Reading, Flag), (Flag, Bit)];
    for code in (34..=37).chain(47..=55).chain([AND, OR]) {
        let has_both = |(left, right): &(Cause, Cause)| {
            let [left, right] = [Some(*left), Some(*right)];
            has(code, &[left, right]) && has(code, &[right, left])
        };
        assert!(pairs.iter().any(has_both), "{code}");
        assert!(CAUSES.iter().any(|cause| has(code, &[Some(*cause), None])), "{code}");
        assert!(CAUSES.iter().any(|cause| has(code, &[None, Some(*cause)])), "{code}");
    }
    for first in CAUSES {
        for second in CAUSES.into_iter().filter(|cause| *cause != first) {
            let third = CAUSES.into_iter().find(|cause| ![first, second].contains(cause));
            assert!(has(BETWEEN, &[Some(first), Some(second), third]), "{first:?} {second:?}");
        }
    }
}
