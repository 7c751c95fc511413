//! Generation of cases from fixed seeds.
//!
//! A case is an input of `reader::read`, of `evaluator::evaluate_over` or of
//! `evaluator::evaluate_value`. Cases of the size `small` have short dictionaries and requests;
//! those of the size `mixed` may have any. The n-th case of a seed is always the same.

/// Pieces of requests written by hand.
pub mod assemble;
/// Greatest sizes and ranges, on both sides.
pub mod boundaries;
/// The constructive generator of requests: its state, messages and focus.
pub mod builder;
/// Evaluations of small conditions.
pub mod conditions;
/// Damaged requests.
pub mod damage;
/// Numbers, texts, dates, message images and records.
pub mod data;
/// Proper and damaged dictionaries.
pub mod dictionaries;
/// A request in the making, with marks.
pub mod draft;
/// Evaluations.
pub mod evaluations;
/// Inputs of the explanation program.
pub mod explanations;
/// From-values of assignments.
pub mod from_values;
/// Inputs of the listing program.
pub mod inputs;
/// Small readings, and evaluations refused before their condition.
pub mod readings;
/// The generator of pseudo-random numbers.
pub mod rng;
/// Statements and record selection expressions of generated requests.
mod statements;
/// Readings aimed at one refusal each.
pub mod targeted;
/// Values, targets and booleans of generated requests.
mod values;

pub use crate::reader::TABLE_LENGTHS;
use rng::Rng;

/// How large cases are.
#[derive(Clone, Copy, Debug, PartialEq, Eq)]
pub enum Size {
    Small,
    Mixed,
}

impl Size {
    /// The size with a name.
    pub fn named(name: &str) -> Option<Size> {
        match name {
            "small" => Some(Size::Small),
            "mixed" => Some(Size::Mixed),
            _ => None,
        }
    }
}

/// An input of the reader, of the evaluator, or of the evaluator of from-values.
#[derive(Clone, Debug, PartialEq, Eq)]
pub enum Case {
    Read {
        dictionary: Vec<u8>,
        request: Vec<u8>,
        /// Lengths of the lent tables of statements, parameters and contexts.
        lengths: [usize; 3],
    },
    Evaluate {
        dictionary: Vec<u8>,
        request: Vec<u8>,
        condition: usize,
        messages: Vec<u8>,
        records: Vec<u8>,
        runs: Vec<u8>,
    },
    Value {
        dictionary: Vec<u8>,
        request: Vec<u8>,
        /// The row of an assignment.
        row: usize,
        messages: Vec<u8>,
        records: Vec<u8>,
        runs: Vec<u8>,
    },
}

impl Case {
    /// The dictionary and the request.
    pub fn bytes(&self) -> (&[u8], &[u8]) {
        match self {
            Case::Read { dictionary, request, .. } => (dictionary, request),
            Case::Evaluate { dictionary, request, .. } => (dictionary, request),
            Case::Value { dictionary, request, .. } => (dictionary, request),
        }
    }
}

/// What a case is made for.
#[derive(Clone, Copy, PartialEq, Eq)]
enum Aim {
    Accepted,
    Damaged,
    Refused,
    Boundary,
    BadDictionary,
    Answered,
    RefusedEvaluation,
    DamagedEvaluation,
    Edge,
    Value,
}

/// The aims, one after another and again.
const AIMS: [Aim; 22] = [
    Aim::Accepted,
    Aim::Answered,
    Aim::Refused,
    Aim::RefusedEvaluation,
    Aim::Refused,
    Aim::Answered,
    Aim::Boundary,
    Aim::Answered,
    Aim::Refused,
    Aim::RefusedEvaluation,
    Aim::Accepted,
    Aim::Answered,
    Aim::Damaged,
    Aim::Refused,
    Aim::DamagedEvaluation,
    Aim::RefusedEvaluation,
    Aim::BadDictionary,
    Aim::Refused,
    Aim::Boundary,
    Aim::Edge,
    Aim::Value,
    Aim::Value,
];

/// The first cases of a seed.
pub fn cases(size: Size, seed: u64, count: usize) -> impl Iterator<Item = Case> {
    (0..count).map(move |index| case(size, seed, index))
}

/// The case of a seed with an index.
pub fn case(size: Size, seed: u64, index: usize) -> Case {
    let aim = AIMS[index % AIMS.len()];
    let rank = AIMS[..index % AIMS.len()].iter().filter(|other| **other == aim).count();
    let each_round = AIMS.iter().filter(|other| **other == aim).count();
    let start = (seed % 1_000_003) as usize * 31;
    let turn = start + index / AIMS.len() * each_round + rank;
    let mut seeds = Rng::new(seed);
    let mut rng = Rng::new(seeds.bits() ^ (index as u64).wrapping_mul(0xD134_2543_DE82_EF95));
    make(&mut rng, size, aim, turn)
}

/// The turn-th case with an aim.
fn make(rng: &mut Rng, size: Size, aim: Aim, turn: usize) -> Case {
    match aim {
        Aim::Accepted => accepted(rng, size, turn),
        Aim::Damaged => damaged(rng, size, turn),
        Aim::Refused => refused(rng, size, turn),
        Aim::Boundary => boundary(size, turn),
        Aim::BadDictionary => targeted::bad_dictionary(rng, size, turn),
        Aim::Answered => evaluations::answered(rng, size, turn),
        Aim::RefusedEvaluation => evaluations::refused(rng, size, 20 + (turn % 7) as u32, turn / 7),
        Aim::DamagedEvaluation => evaluations::damaged(rng, size, turn),
        Aim::Edge => evaluations::edge(rng),
        Aim::Value => from_values::case(rng, size, turn),
    }
}

/// A reading of a request of every construct; the codes come in turn.
fn accepted(rng: &mut Rng, size: Size, turn: usize) -> Case {
    let foci = builder::foci();
    let dictionary = dictionaries::proper(rng, size);
    let focus = foci[turn % foci.len()];
    let request = builder::request(rng, &dictionary, size, focus, false).bytes;
    let longer = rng.pick(&[0, 0, 0, 1, 7]);
    let lengths = TABLE_LENGTHS.map(|length| length + longer);
    Case::Read { dictionary: dictionaries::encode(&dictionary), request, lengths }
}

/// A reading of a damaged request.
fn damaged(rng: &mut Rng, size: Size, turn: usize) -> Case {
    let foci = builder::foci();
    let dictionary = dictionaries::proper(rng, size);
    let draft = builder::request(rng, &dictionary, size, foci[turn % foci.len()], false);
    let request = damage::damaged(rng, &draft);
    Case::Read { dictionary: dictionaries::encode(&dictionary), request, lengths: TABLE_LENGTHS }
}

/// A reading that is refused; the numbers come in turn.
fn refused(rng: &mut Rng, size: Size, turn: usize) -> Case {
    let numbers = targeted::NUMBERS;
    targeted::refused(rng, size, numbers[turn % numbers.len()], turn / numbers.len())
}

/// A greatest size or range, one side or the other, in turn.
fn boundary(size: Size, turn: usize) -> Case {
    let cases = boundaries::of(size);
    cases[turn % cases.len()].clone()
}
