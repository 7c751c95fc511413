//! Small readings, and evaluations that are refused before their condition is tried.
//!
//! First come those written by hand, the same for every seed: greatest sizes and ranges on both
//! sides, every fault of messages, contexts, fits and statements, every left-out code in its place,
//! and evaluations with every choice of faults. The rest are small cases.

use super::assemble::{self, condition, message, operator, over, rid, short};
use super::dictionaries::{self, house};
use super::rng::Rng;
use super::{boundaries, conditions, data, targeted, Case, Size};
use crate::wire::{AND, ANY, BOOLEAN, EQL, MISSING, SHORT};

/// The first readings of a seed.
pub fn cases(seed: u64, count: usize) -> impl Iterator<Item = Case> {
    let generated = super::cases(Size::Small, seed, usize::MAX);
    let is_value = |case: &Case| matches!(case, Case::Value { .. });
    let readings = generated.filter(move |case| !is_value(case) && !conditions::is_reached(case));
    written().into_iter().chain(readings).take(count)
}

/// The readings written by hand.
pub fn written() -> Vec<Case> {
    let boundaries = boundaries::of(Size::Small).iter().cloned();
    boundaries.chain(targeted::written()).chain(fault_orders()).chain(run_faults()).collect()
}

/// Evaluations with every choice of faults: bytes after the request, a condition number, messages,
/// records and runs that are wrong.
fn fault_orders() -> Vec<Case> {
    let one = short(0, 1);
    let equal = operator(EQL, &[&one, &one]);
    let any = over(ANY, &rid(1, 3), &[&[BOOLEAN], &equal[..]].concat());
    let condition = condition(&any);
    let sound = assemble::request(&[&message(0, &[&[SHORT, 0]]), &condition]);
    let mut damaged = sound.clone();
    damaged.push(0);
    let relation = &house().relations[0];
    let record = data::record(&mut Rng::new(1), relation, usize::MAX);
    let mut cases = Vec::new();
    let run = data::run(&[record.clone(), record.clone()]);
    for faults in 1..32usize {
        let has = |fault: usize| faults >> fault & 1 == 1;
        cases.push(Case::Evaluate {
            dictionary: dictionaries::encode(&house()),
            request: if has(0) { damaged.clone() } else { sound.clone() },
            condition: usize::from(has(1)),
            messages: vec![0; if has(2) { 3 } else { 2 }],
            records: if has(3) { record[1..].to_vec() } else { record.clone() },
            runs: if has(4) { run[1..].to_vec() } else { run.clone() },
        });
    }
    cases
}

/// Two anys with each fault that a run can have, in the first run and in the second; and bytes where no
/// run is due.
fn run_faults() -> Vec<Case> {
    let any = over(ANY, &rid(1, 3), &[]);
    let two = assemble::request(&[&condition(&operator(AND, &[&any, &any]))]);
    let none = assemble::request(&[&condition(&operator(MISSING, &[&short(0, 1)]))]);
    let record = data::record(&mut Rng::new(1), &house().relations[0], usize::MAX);
    let run = data::run(&[record.clone(), record.clone()]);
    let empty = data::run(&[]);
    let case = |request: &[u8], runs: Vec<u8>| Case::Evaluate {
        dictionary: dictionaries::encode(&house()),
        request: request.to_vec(),
        condition: 0,
        messages: Vec::new(),
        records: record.clone(),
        runs,
    };
    let mut cases = vec![
        case(&two, Vec::new()),
        case(&two, run.clone()),
        case(&two, [&run[..], &run, &empty].concat()),
        case(&two, [&run[..], &run, &[0]].concat()),
        case(&none, empty.clone()),
        case(&none, vec![0]),
    ];
    for wrong in wrong_runs(&run, &empty) {
        cases.push(case(&two, [&wrong[..], &run].concat()));
        cases.push(case(&two, [&run[..], &wrong].concat()));
    }
    cases
}

/// Runs with one fault: cut, of another kind or length, with a record of another kind, relation or
/// length, or one that is cut.
fn wrong_runs(run: &[u8], empty: &[u8]) -> Vec<Vec<u8>> {
    let with = |place: usize, byte: u8| {
        let mut wrong = run.to_vec();
        wrong[place] = byte;
        wrong
    };
    let mut wrong = vec![run[..run.len() - 1].to_vec(), empty[..3].to_vec(), empty[..2].to_vec()];
    let length = run[0];
    wrong.extend(
        [(0, 3), (0, length - 1), (0, length + 1), (2, 3), (3, 1)].map(|(p, b)| with(p, b)),
    );
    // The first record starts at place 4, the second after it.
    let second = 4 + usize::from(run[4]);
    for start in [4, second] {
        let bytes = [(0, 1), (0, run[4] + 1), (2, 7), (4, 2)];
        wrong.extend(bytes.map(|(place, byte)| with(start + place, byte)));
    }
    let mut shorter = with(0, length - 1);
    shorter.pop();
    wrong.push(shorter);
    wrong
}
