//! Evaluations: proper messages and records for conditions of every construct, and wrong ones.

use super::assemble::{
    self, condition, edge_values, fid, message, operator, parameter, short, text,
};
use super::boundaries;
use super::builder::{self, Focus};
use super::damage;
use super::data;
use super::dictionaries::{self, house};
use super::rng::Rng;
use super::{Case, Size};
use crate::dictionary::Dictionary;
use crate::evaluator::{evaluate_over, Answer, Lent};
use crate::reader;
use crate::reader::parsed::{Condition, Parsed, Role};
use crate::record::Cause;
use crate::refusal::{Refusal, WRONG_RUNS};
use crate::wire::{
    self, ADD, ANY, AVERAGE, BOOLEANS, CSTRING, DIVIDE, EQL, GEQ, MAXIMUM, MINIMUM, MISSING,
    MULTIPLY, NEQ, PARAMETER2, SHORT, STATISTICS, UNIQUE, VALUES, VARYING, VERSION4, VERSION5,
};

/// The causes of a missing field or parameter.
pub const CAUSES: [Cause; 3] = [Cause::Bit, Cause::Reading, Cause::Flag];

/// An outcome that a case is to have.
pub type Outcome = Result<Answer, u32>;

/// The outcome of an evaluation.
pub fn outcome(case: &Case) -> Option<Outcome> {
    match case {
        Case::Evaluate { dictionary, request, condition, messages, records, runs } => {
            let lent = Lent { messages, records, runs };
            let result = evaluate_over(request, dictionary, *condition, lent);
            Some(result.map_err(|refusal: Refusal| refusal.number))
        }
        Case::Read { .. } | Case::Value { .. } => None,
    }
}

/// The codes of booleans and values, one after another, so that each is met.
fn focus(turn: usize) -> Focus {
    let at = turn % (BOOLEANS.len() + VALUES.len());
    match BOOLEANS.get(at) {
        Some(code) => (Role::Boolean, *code),
        None => (Role::Value, VALUES[at - BOOLEANS.len()]),
    }
}

/// Makes cases until one has the outcome, at most 60.
fn until(wanted: Outcome, mut make: impl FnMut() -> Case) -> Case {
    let mut case = make();
    for _ in 0..60 {
        if outcome(&case) == Some(wanted) {
            break;
        }
        case = make();
    }
    case
}

/// An evaluation with an answer: true, false, missing in turn, by one cause after another.
pub fn answered(rng: &mut Rng, size: Size, turn: usize) -> Case {
    if turn % 16 == 15 {
        return of_nothing(rng, size);
    }
    let cause = CAUSES[(turn / 3 + turn / 72) % 3];
    let answers = [Answer::True, Answer::False, Answer::Missing(cause)];
    let wanted = answers[(turn + turn / 24) % 3];
    until(Ok(wanted), || proper(rng, size, focus(turn), 12))
}

/// An evaluation that is missing because a statistic has nothing to work on.
fn of_nothing(rng: &mut Rng, size: Size) -> Case {
    until(Ok(Answer::Missing(Cause::Nothing)), || {
        let focus = (Role::Value, rng.pick(&[AVERAGE, MAXIMUM, MINIMUM]));
        proper(rng, size, focus, 1000)
    })
}

/// An evaluation with proper messages and records; texts malformed once in so many times.
fn proper(rng: &mut Rng, size: Size, focus: Focus, malformed: usize) -> Case {
    let dictionary = dictionaries::proper(rng, size);
    let request = builder::request(rng, &dictionary, size, focus, true).bytes;
    with_data(rng, &dictionary, request, malformed)
}

/// An evaluation whose request is likely to have an any, a unique or a statistic.
pub fn over_runs(rng: &mut Rng, size: Size) -> Case {
    let focus = match rng.one_in(2) {
        true => (Role::Boolean, rng.pick(&[ANY, UNIQUE])),
        false => (Role::Value, rng.pick(&STATISTICS)),
    };
    proper(rng, size, focus, 12)
}

/// Messages, records and runs for one of the conditions of a request.
fn with_data(rng: &mut Rng, dictionary: &Dictionary, request: Vec<u8>, malformed: usize) -> Case {
    let encoded = dictionaries::encode(dictionary);
    let (parsed, _) = reader::parse(&request, &encoded).unwrap_or_default();
    let number = rng.below(parsed.conditions.len().max(1));
    let (records, runs) = match parsed.conditions.get(number) {
        Some(condition) => (
            data::records(rng, &parsed, dictionary, condition, malformed),
            data::runs(rng, &parsed, dictionary, condition, malformed),
        ),
        None => (Vec::new(), Vec::new()),
    };
    Case::Evaluate {
        dictionary: encoded,
        request,
        condition: number,
        messages: data::messages(rng, &parsed, malformed),
        records: records.concat(),
        runs: runs.concat(),
    }
}

/// An evaluation that is refused with a number from 20 to 26.
pub fn refused(rng: &mut Rng, size: Size, number: u32, turn: usize) -> Case {
    until(Err(number), || match number {
        20 => no_boolean(rng, size, turn),
        21 => wrong_messages(rng, size, turn),
        22 if size == Size::Mixed && turn % 8 == 7 => long_record(turn),
        22 => wrong_records(rng, size, turn),
        26 if size == Size::Mixed && turn % 16 == 15 => long_run(turn),
        26 => wrong_runs(rng, size, turn),
        23 if turn.is_multiple_of(2) => malformed_text(rng),
        23 => proper(rng, size, focus(turn), 1),
        24 | 25 if turn % 3 < 2 => edge(rng),
        24 => proper(rng, size, (Role::Value, MULTIPLY), 1000),
        _ => proper(rng, size, (Role::Value, DIVIDE), 1000),
    })
}

/// A condition over values at the ends of the range.
pub fn edge(rng: &mut Rng) -> Case {
    let values = edge_values();
    let value = &values[rng.below(values.len())];
    let other = &values[rng.below(values.len())];
    let test = match rng.below(4) {
        0 => operator(MISSING, &[value]),
        1 => operator(GEQ, &[value, &short(0, 1)]),
        2 => operator(NEQ, &[value, other]),
        _ => operator(EQL, &[&operator(ADD, &[value, &fid(0, 0)]), &short(-2, 3)]),
    };
    let version = rng.pick(&[VERSION4, VERSION5]);
    with_data(rng, &house(), assemble::request_of(version, &[&condition(&test)]), 1000)
}

/// A test of a varying or cstring of the record or of a message.
fn malformed_text(rng: &mut Rng) -> Case {
    let messages = message(2, &[&[VARYING, 2, 0], &[CSTRING, 2, 0], &[SHORT, 0]]);
    let value = match rng.below(4) {
        0 => fid(0, 4),
        1 => fid(0, 5),
        2 => parameter(2, rng.pick(&[0, 1])),
        _ => vec![PARAMETER2, 2, rng.pick(&[0, 1]), 0, 2, 0],
    };
    let code = rng.pick(&BOOLEANS[..9]);
    let test = match rng.below(3) {
        0 => operator(MISSING, &[&value]),
        1 => operator(code, &[&value, &text(b"a ")]),
        _ => operator(code, &[&fid(0, 3), &value]),
    };
    with_data(rng, &house(), assemble::request(&[&messages, &condition(&test)]), 2)
}

/// 20: a condition number that is not there; messages and records may be wrong too.
fn no_boolean(rng: &mut Rng, size: Size, turn: usize) -> Case {
    let mut case = proper(rng, size, focus(turn), 12);
    if let Case::Evaluate { condition, messages, records, runs, .. } = &mut case {
        *condition += rng.pick(&[1, 2, 9, 513]);
        for bytes in [messages, records, runs] {
            may_damage(rng, bytes);
        }
    }
    case
}

/// 21: messages of another length; records may be wrong too.
fn wrong_messages(rng: &mut Rng, size: Size, turn: usize) -> Case {
    let mut case = proper(rng, size, focus(turn), 12);
    if let Case::Evaluate { messages, records, runs, .. } = &mut case {
        damage_length(rng, messages);
        may_damage(rng, records);
        may_damage(rng, runs);
    }
    case
}

/// Damages the length once in two times.
pub fn may_damage(rng: &mut Rng, bytes: &mut Vec<u8>) {
    if rng.one_in(2) {
        damage_length(rng, bytes);
    }
}

/// Some bytes more, or one less.
pub fn damage_length(rng: &mut Rng, bytes: &mut Vec<u8>) {
    match rng.below(3) {
        0 => bytes.push(0),
        1 => bytes.extend([0; 5]),
        _ => drop(bytes.pop()),
    }
}

/// 22: the record entry of 4,097 bytes, and that of 4,096 beside it.
fn long_record(turn: usize) -> Case {
    let mut cases = boundaries::record_lengths();
    cases.swap_remove(turn / 8 % 2)
}

/// 26: runs of greatest lengths.
fn long_run(turn: usize) -> Case {
    let mut cases = boundaries::run_lengths();
    cases.retain(|case| outcome(case) == Some(Err(WRONG_RUNS)));
    cases.swap_remove(turn / 16 % cases.len())
}

/// 22: records that are not as due.
fn wrong_records(rng: &mut Rng, size: Size, turn: usize) -> Case {
    let dictionary = dictionaries::proper(rng, size);
    let request = builder::request(rng, &dictionary, size, focus(turn), true).bytes;
    let encoded = dictionaries::encode(&dictionary);
    let (parsed, _) = reader::parse(&request, &encoded).unwrap_or_default();
    let number = rng.below(parsed.conditions.len().max(1));
    let records = match parsed.conditions.get(number) {
        Some(condition) => damaged_records(rng, &parsed, &dictionary, condition, turn),
        None => Vec::new(),
    };
    let messages = data::messages(rng, &parsed, 12);
    let mut runs = match parsed.conditions.get(number) {
        Some(condition) => data::runs(rng, &parsed, &dictionary, condition, 12).concat(),
        None => Vec::new(),
    };
    may_damage(rng, &mut runs);
    Case::Evaluate { dictionary: encoded, request, condition: number, messages, records, runs }
}

/// 26: runs that are not as due. A condition without one has bytes too many.
fn wrong_runs(rng: &mut Rng, size: Size, turn: usize) -> Case {
    let mut case = over_runs(rng, size);
    if let Case::Evaluate { runs, .. } = &mut case {
        let mut entries = entries(runs);
        if entries.is_empty() {
            runs.extend(rng.pick(&[&[0][..], &[4, 0, 7, 0], &[4, 0, 3, 0]]));
        } else {
            damage_run(rng, &mut entries, turn);
            *runs = entries.concat();
        }
    }
    case
}

/// The entries of joined bytes that are whole entries.
pub fn entries(bytes: &[u8]) -> Vec<Vec<u8>> {
    let mut entries = Vec::new();
    let mut rest = bytes;
    while let Some(length) = wire::word(rest, 0) {
        let (entry, others) = rest.split_at(usize::from(length));
        entries.push(entry.to_vec());
        rest = others;
    }
    entries
}

/// Runs with one fault; `way` says which.
pub fn damage_run(rng: &mut Rng, runs: &mut Vec<Vec<u8>>, way: usize) {
    let at = rng.below(runs.len());
    let entry = &mut runs[at];
    let last = entry.len() - 1;
    match way % 13 {
        0 => drop(entry.pop()),
        1 => entry.push(rng.byte()),
        2 => entry[2] = rng.pick(&[0, 3, 6, 8]),
        3 => entry[3] = 1,
        4 => entry[0] = entry[0].wrapping_add(rng.pick(&[1, 255, 4, 252])),
        5 => entry[rng.between(0, last)] ^= rng.pick(&[1, 128]),
        6 => drop(runs.pop()),
        7 => runs.push(vec![rng.byte(); rng.pick(&[1, 2, 12])]),
        8 => entry.truncate(rng.between(1, 3)),
        9 => set_spare_bit(&mut entry[4..]),
        10 => of_another_relation(rng, entry),
        11 => cut_record(entry),
        _ => runs.push(vec![4, 0, 7, 0]),
    }
}

/// Changes the relation of a run's last record.
fn of_another_relation(rng: &mut Rng, run: &mut [u8]) {
    let length = wire::word(run, 4).map_or(0, usize::from);
    if length > 0 {
        let last = run.len() - length;
        run[last + 4] ^= rng.pick(&[1, 2, 128]);
    }
}

/// Takes the last byte from a run's last record; the run's own length is right.
fn cut_record(run: &mut Vec<u8>) {
    if run.len() > 4 {
        run.pop();
        let length = run.len() as u16;
        run[..2].copy_from_slice(&length.to_le_bytes());
    }
}

/// Records with one fault; `way` says which.
fn damaged_records(
    rng: &mut Rng,
    parsed: &Parsed,
    dictionary: &Dictionary,
    condition: &Condition,
    way: usize,
) -> Vec<u8> {
    let mut records = data::records(rng, parsed, dictionary, condition, 12);
    if records.is_empty() {
        return data::record(rng, &dictionary.relations[0], 12);
    }
    let at = rng.below(records.len());
    let entry = &mut records[at];
    match way % 9 {
        0 => drop(entry.pop()),
        1 => entry.push(rng.byte()),
        2 => entry[2] = rng.pick(&[0, 1, 2, 4]),
        3 => entry[4] ^= rng.pick(&[1, 2, 128]),
        4 => entry[0] = entry[0].wrapping_add(rng.pick(&[1, 255])),
        5 => set_spare_bit(entry),
        6 => drop(records.pop()),
        7 => records.push(vec![rng.byte(); rng.pick(&[1, 2, 12])]),
        _ => entry.truncate(rng.between(1, 3)),
    }
    records.concat()
}

/// Sets the last missing bit, which is a spare one unless eight fields share the byte.
fn set_spare_bit(entry: &mut [u8]) {
    if let Some(byte) = entry.get_mut(6) {
        *byte |= 128;
    }
}

/// An evaluation whose request is damaged, with the messages and records of the whole one.
pub fn damaged(rng: &mut Rng, size: Size, turn: usize) -> Case {
    let dictionary = dictionaries::proper(rng, size);
    let draft = builder::request(rng, &dictionary, size, focus(turn), true);
    let mut case = with_data(rng, &dictionary, draft.bytes.clone(), 12);
    if let Case::Evaluate { request, .. } = &mut case {
        *request = damage::damaged(rng, &draft);
    }
    case
}
