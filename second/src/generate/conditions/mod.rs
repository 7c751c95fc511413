//! Evaluations of small conditions that each come out as true, false, missing by a cause, or one of
//! 23 to 25.
//!
//! First come those written by hand, one of each family in turn and the same for every seed; the
//! rest are made at random. Each has a dictionary and messages of what it names and nothing else.

/// Missing operands, refusals beside them, and flags.
mod absent;
/// Between.
mod between;
/// Causes of missing values.
mod causes;
/// Dates.
mod dates;
/// Records, messages, missing bits, numbers of conditions, statements.
mod layout;
/// And, or, not.
mod logic;
/// Conditions at random.
mod mixed;
/// Numbers.
mod numbers;
/// Any and unique over runs.
pub(super) mod runs;
/// One condition with what it names.
mod sheet;
/// Statistics over runs.
pub(super) mod statistics;
/// Texts.
mod texts;
/// Version 5: 64-bit integers and its quotients.
mod wide;

use super::evaluations::{self, outcome, Outcome};
use super::rng::Rng;
use super::{Case, Size};
use crate::dictionary::Relation;
use crate::evaluator::Answer;
use crate::record::Cause;
use crate::refusal::{MALFORMED_TEXT, OVERFLOW, ZERO_DIVISOR};
use crate::wire::{EQL, GEQ, GTR, LEQ, LSS, NEQ};

/// The comparisons 47 to 52.
const COMPARISONS: [u8; 6] = [EQL, NEQ, GTR, GEQ, LSS, LEQ];

/// The outcomes that conditions at random are made for, in turn.
const WANTED: [Outcome; 11] = [
    Ok(Answer::True),
    Ok(Answer::False),
    Ok(Answer::Missing(Cause::Bit)),
    Ok(Answer::Missing(Cause::Reading)),
    Ok(Answer::True),
    Ok(Answer::False),
    Ok(Answer::Missing(Cause::Flag)),
    Err(MALFORMED_TEXT),
    Err(OVERFLOW),
    Err(ZERO_DIVISOR),
    Ok(Answer::Missing(Cause::Nothing)),
];

/// The first conditions of a seed.
pub fn cases(seed: u64, count: usize) -> impl Iterator<Item = Case> {
    let written = written();
    let random = (0..).map(move |index| random(seed, index));
    written.into_iter().chain(random).take(count)
}

/// Whether a case is an evaluation that comes to its condition: an answer, or one of 23 to 25.
pub fn is_reached(case: &Case) -> bool {
    matches!(outcome(case), Some(Ok(_) | Err(MALFORMED_TEXT..=ZERO_DIVISOR)))
}

/// The conditions written by hand, one of each family in turn.
pub fn written() -> Vec<Case> {
    let mut families: Vec<_> = families().into_iter().map(Vec::into_iter).collect();
    let longest = families.iter().map(|family| family.len()).max().unwrap_or_default();
    let mut cases = Vec::new();
    for _ in 0..longest {
        cases.extend(families.iter_mut().filter_map(Iterator::next));
    }
    cases
}

/// The families of conditions written by hand.
fn families() -> Vec<Vec<Case>> {
    let parts = [tests_of_values(), missing_values(), places(), later()];
    parts.into_iter().flatten().collect()
}

/// And, or, not, and tests of values that are there.
fn tests_of_values() -> Vec<Vec<Case>> {
    vec![
        logic::tables(),
        logic::refusals(),
        between::missing(),
        between::ends(),
        between::missing_ends(),
        between::unset_limits(),
        dates::comparisons(),
        numbers::signs(),
        numbers::readings(),
        numbers::comparisons(),
        numbers::scales(),
        numbers::arithmetic(),
        numbers::sums(),
        numbers::negations(),
        numbers::edges(),
        texts::stored(),
        texts::order(),
        texts::searches(),
    ]
}

/// Missing values and their causes.
fn missing_values() -> Vec<Vec<Case>> {
    vec![
        absent::tests(),
        absent::arithmetic(),
        absent::missing_tests(),
        absent::refusals(),
        absent::malformed(),
        absent::flags(),
        causes::alone(),
        causes::arithmetic(),
        causes::comparisons(),
        causes::searches(),
        causes::betweens(),
        causes::logic(),
        causes::settled(),
    ]
}

/// Where things stand.
fn places() -> Vec<Vec<Case>> {
    vec![
        layout::streams(),
        layout::contexts(),
        layout::names(),
        layout::bits(),
        layout::messages(),
        layout::numbers(),
        layout::inside(),
        layout::places(),
    ]
}

/// What document 02 adds.
fn later() -> Vec<Vec<Case>> {
    vec![
        wide::stored(),
        wide::beside(),
        wide::quotients(),
        wide::both_versions(),
        runs::kept(),
        runs::without_condition(),
        runs::refusals(),
        runs::nested(),
        runs::in_order(),
        runs::outer(),
        runs::versions(),
        statistics::tests(),
        statistics::in_tests(),
        statistics::at_ends(),
        statistics::in_runs(),
        statistics::in_sorts(),
        statistics::versions(),
    ]
}

/// The relation of a run's beds, with fields of these types.
pub(super) fn bed_relation(fields: &[sheet::FieldValue]) -> Relation {
    sheet::relation(2, fields)
}

/// The condition at random of a seed with an index, of the outcome whose turn it is.
fn random(seed: u64, index: usize) -> Case {
    let mut seeds = Rng::new(seed);
    let mut rng = Rng::new(seeds.bits() ^ (index as u64).wrapping_mul(0xD134_2543_DE82_EF95));
    let wanted = WANTED[index % WANTED.len()];
    loop {
        let case = match rng.one_in(3) {
            true => evaluations::over_runs(&mut rng, Size::Small),
            false => mixed::condition(&mut rng),
        };
        if outcome(&case) == Some(wanted) && is_small(&case) {
            return case;
        }
    }
}

/// Whether the case has a short dictionary and a short request.
fn is_small(case: &Case) -> bool {
    let (dictionary, request) = case.bytes();
    dictionary.len() <= 160 && request.len() <= 160
}
