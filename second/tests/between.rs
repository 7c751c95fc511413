//! The betweens written by hand: each means geq and leq joined by and, and they have every choice
//! of missing values with every order of those that are there.

use second::cases;
use second::datatype::Kind;
use second::evaluator::Answer;
use second::generate::evaluations::{outcome, Outcome};
use second::generate::{conditions, Case};
use second::reader;
use second::reader::parsed::Boolean;
use second::wire::{AND, BETWEEN, EQL, GEQ, LEQ, LSS, MISSING};
use std::cmp::Ordering;

/// The bytes behind the condition of a case: the ends of its statement and of the request.
const BEHIND: usize = 5;

/// A case whose condition is one between.
struct Between {
    case: Case,
    kind: Kind,
    /// The place of the between.
    start: usize,
    /// The bytes of its three values.
    values: [Vec<u8>; 3],
}

/// The case as a between, if it is one.
fn between(case: Case) -> Option<Between> {
    let (dictionary, request) = case.bytes();
    let (parsed, _) = reader::parse(request, dictionary).ok()?;
    let Boolean::Test(BETWEEN, values) = &parsed.conditions[0].boolean else {
        return None;
    };
    // With runs another boolean in its place would need others.
    if !parsed.conditions[0].runs.is_empty() {
        return None;
    }
    let places = [values[0].place, values[1].place, values[2].place, request.len() - BEHIND];
    let bytes = [0, 1, 2].map(|at| request[places[at]..places[at + 1]].to_vec());
    Some(Between { kind: values[0].shape.kind, start: places[0] - 1, values: bytes, case })
}

/// The betweens written by hand.
fn written() -> Vec<Between> {
    conditions::written().into_iter().filter_map(between).collect()
}

impl Between {
    /// The outcome of another boolean in place of the between.
    fn instead(&self, boolean: &[u8]) -> Outcome {
        let mut case = self.case.clone();
        if let Case::Evaluate { request, .. } = &mut case {
            let end = request.len() - BEHIND;
            request.splice(self.start..end, boolean.iter().copied());
        }
        outcome(&case).expect("an evaluation")
    }

    /// The outcome of a test of the first value and another.
    fn test(&self, code: u8, other: usize) -> Outcome {
        self.instead(&[&[code], &self.values[0][..], &self.values[other]].concat())
    }

    /// Whether a value is missing.
    fn is_missing(&self, at: usize) -> Result<bool, u32> {
        let outcome = self.instead(&[&[MISSING], &self.values[at][..]].concat());
        outcome.map(|answer| answer == Answer::True)
    }

    /// The order of the first value and another, if both are there.
    fn order(&self, other: usize) -> Result<Option<Ordering>, u32> {
        Ok(match (self.test(LSS, other)?, self.test(EQL, other)?) {
            (Answer::Missing(_), _) => None,
            (Answer::True, _) => Some(Ordering::Less),
            (_, Answer::True) => Some(Ordering::Equal),
            _ => Some(Ordering::Greater),
        })
    }

    /// Which values are missing, and the orders of the first and the others; or a refusal.
    fn shape(&self) -> Result<Shape, u32> {
        let missing = [self.is_missing(0)?, self.is_missing(1)?, self.is_missing(2)?];
        Ok((self.kind, missing, self.order(1)?, self.order(2)?))
    }
}

/// The kind, the missing values, and the orders of the first value beside the second and the third.
type Shape = (Kind, [bool; 3], Option<Ordering>, Option<Ordering>);

/// The orders that two values can have.
fn orders(missing: bool, other_missing: bool) -> Vec<Option<Ordering>> {
    if missing || other_missing {
        return vec![None];
    }
    [Ordering::Less, Ordering::Equal, Ordering::Greater].map(Some).to_vec()
}

/// Every shape of a between of a kind.
fn shapes(kind: Kind) -> Vec<Shape> {
    let mut shapes = Vec::new();
    for bits in 0..8 {
        let missing = [0, 1, 2].map(|at| bits >> at & 1 == 1);
        for second in orders(missing[0], missing[1]) {
            for third in orders(missing[0], missing[2]) {
                shapes.push((kind, missing, second, third));
            }
        }
    }
    shapes
}

#[test]
fn a_between_is_geq_and_leq_joined_by_and() {
    for between in written() {
        let [first, second, third] = &between.values;
        let geq = [&[GEQ], &first[..], second].concat();
        let leq = [&[LEQ], &first[..], third].concat();
        let both = between.instead(&[&[AND], &geq[..], &leq].concat());
        assert_eq!(outcome(&between.case), Some(both), "{}", cases::line(&between.case));
    }
}

#[test]
fn betweens_have_every_shape() {
    let written: Vec<Shape> = written().iter().filter_map(|case| case.shape().ok()).collect();
    for kind in [Kind::Number, Kind::Text, Kind::Date] {
        assert_eq!(shapes(kind).len(), 20);
        for shape in shapes(kind) {
            assert!(written.contains(&shape), "{shape:?}");
        }
    }
}

#[test]
fn a_refusal_in_the_third_value_stands_where_geq_is_false() {
    for number in 23..=25 {
        let stands = |case: &&Between| {
            case.test(GEQ, 1) == Ok(Answer::False) && case.is_missing(2) == Err(number)
        };
        let written = written();
        let refused: Vec<&Between> = written.iter().filter(stands).collect();
        assert!(!refused.is_empty(), "refusal {number}");
        for between in refused {
            assert_eq!(outcome(&between.case), Some(Err(number)));
        }
    }
}
