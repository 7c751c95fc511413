//! Inputs of the explanation program: every and, or and not of few tests, input that is not as due,
//! and generated conditions.

use super::assemble::{self, message, operator, parameter, short, NOTHING};
use super::conditions;
use super::inputs::entry;
use super::rng::Rng;
use super::{cases, Case, Size};
use crate::explanation::GREATEST_LENGTH;
use crate::wire::{AND, END, EQL, IF, LONG, NOT, OR, PARAMETER2, SHORT};

/// The first inputs: those written by hand, then generated ones of a seed.
pub fn inputs(seed: u64, count: usize) -> Vec<Vec<u8>> {
    let by_hand = [trees(), wrong_entries(), numbers(), lengths()];
    let mut rng = Rng::new(seed);
    let mixed = cases(Size::Mixed, seed, usize::MAX).step_by(3);
    let random = conditions::cases(seed, usize::MAX).step_by(2).zip(mixed);
    let generated = random
        .flat_map(|(condition, mixed)| [condition, mixed])
        .filter_map(|case| parts(&mut rng, &case));
    let by_hand = by_hand.into_iter().flatten();
    by_hand.chain(generated.map(|parts| parts.concat())).take(count).collect()
}

/// The entries of an evaluation: its messages are cut at places of their own, and an entry may
/// lack, come twice or be out of its order. Nothing for another case, or one too long for entries.
fn parts(rng: &mut Rng, case: &Case) -> Option<Vec<Vec<u8>>> {
    let Case::Evaluate { dictionary, request, condition, messages, records, runs } = case else {
        return None;
    };
    if dictionary.len().max(request.len()) > 65_531 {
        return None;
    }
    let number = (*condition as u16).to_le_bytes();
    let mut parts = vec![entry(4, dictionary), entry(5, request), entry(9, &number)];
    parts.extend(message_entries(rng, messages));
    parts.extend([records.clone(), runs.clone()]);
    let (at, other) = (rng.below(parts.len()), rng.below(parts.len()));
    match rng.below(24) {
        0 => drop(parts.remove(at)),
        1 => parts.insert(at, parts[at].clone()),
        2 => parts.swap(at, other),
        3 => parts[at].truncate(rng.below(6)),
        _ => (),
    }
    Some(parts)
}

/// Messages as entries of kind 10, cut at random; empty ones may stand between.
fn message_entries(rng: &mut Rng, messages: &[u8]) -> Vec<Vec<u8>> {
    let mut entries = Vec::new();
    let mut rest = messages;
    while !rest.is_empty() || rng.one_in(4) {
        let most = rest.len().min(60_000);
        let (first, others) =
            rest.split_at(if rng.one_in(2) { most } else { rng.between(0, most) });
        entries.push(entry(10, first));
        rest = others;
    }
    entries
}

/// A test of parameters that is true, false or missing.
fn test(outcome: usize) -> Vec<u8> {
    match outcome {
        0 => operator(EQL, &[&parameter(0, 0), &short(0, 7)]),
        1 => operator(EQL, &[&short(0, 8), &parameter(0, 0)]),
        _ => operator(EQL, &[&[PARAMETER2, 0, 0, 0, 1, 0], &short(0, 7)]),
    }
}

/// The entries of an if over a message of a long, 7, and a flag that is set.
fn entries_of(boolean: &[u8]) -> Vec<Vec<u8>> {
    let declared = message(0, &[&[LONG, 0], &[SHORT, 0]]);
    let statement = [&[IF], boolean, &NOTHING, &[END]].concat();
    let request = assemble::request(&[&declared, &statement]);
    let image = [7, 0, 0, 0, 1, 0];
    vec![entry(4, &[]), entry(5, &request), entry(9, &[0, 0]), entry(10, &image)]
}

/// Every and and or of two tests, of three tests on either side, and each under not.
fn trees() -> Vec<Vec<u8>> {
    let mut booleans: Vec<Vec<u8>> = (0..3).map(test).collect();
    for outcomes in 0..27 {
        let [first, second, third] = [outcomes / 9, outcomes / 3 % 3, outcomes % 3].map(test);
        for [outer, inner] in [[AND, OR], [OR, AND], [AND, AND], [OR, OR]] {
            let pair = operator(inner, &[&first, &second]);
            let refuted = operator(NOT, &[&pair]);
            booleans.push(operator(outer, &[&pair, &third]));
            booleans.push(operator(outer, &[&third, &refuted]));
        }
    }
    let refuted = booleans.iter().step_by(3).map(|boolean| operator(NOT, &[boolean]));
    let all = refuted.collect::<Vec<_>>().into_iter().chain(booleans);
    all.map(|boolean| entries_of(&boolean).concat()).collect()
}

/// Entries left out, twice, in other orders, of other kinds, cut and lengthened.
fn wrong_entries() -> Vec<Vec<u8>> {
    let mut whole = entries_of(&test(0));
    whole.extend([entry(3, &[1, 0]), entry(7, &[])]);
    let mut inputs = vec![Vec::new(), whole.concat()];
    for at in 0..whole.len() {
        let (before, after) = whole.split_at(at);
        inputs.push([before, &after[1..]].concat().concat());
        inputs.push([before, &after[..1], after].concat().concat());
        let mut swapped = whole.clone();
        swapped.swap(at, (at + 1) % whole.len());
        inputs.push(swapped.concat());
        for kind in [0, 3, 5, 6, 7, 8, 9, 10, 11, 256 + 9] {
            let mut other = whole.clone();
            other[at][2..4].copy_from_slice(&u16::to_le_bytes(kind));
            inputs.push(other.concat());
        }
    }
    let bytes = whole.concat();
    inputs.extend((1..bytes.len()).step_by(3).map(|length| bytes[..length].to_vec()));
    inputs.push([&bytes[..], &[0]].concat());
    inputs
}

/// Numbers of conditions, of one word, less and more.
fn numbers() -> Vec<Vec<u8>> {
    let bodies: [&[u8]; 7] = [&[0, 0], &[1, 0], &[0, 1], &[255, 255], &[], &[0], &[0, 0, 0]];
    let mut inputs = Vec::new();
    for body in bodies {
        let mut entries = entries_of(&test(2));
        entries[2] = entry(9, body);
        inputs.push(entries.concat());
    }
    inputs
}

/// Inputs of 3,000,000 bytes and one more.
fn lengths() -> Vec<Vec<u8>> {
    let mut inputs = Vec::new();
    for length in [GREATEST_LENGTH, GREATEST_LENGTH + 1] {
        let mut input = entries_of(&test(1)).concat();
        while input.len() < length {
            let rest = length - input.len();
            let body = if rest < 65_535 { rest } else { 60_000 } - 4;
            input.extend(entry(7, &vec![0; body]));
        }
        inputs.push(input);
    }
    inputs
}
