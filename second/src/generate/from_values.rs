//! From-values of assignments, which are asked for by their rows.
//!
//! First come those written by hand, the same for every seed; the rest are made at random.

use super::assemble::{self, assignment, fid, message, operator, parameter, rid};
use super::builder;
use super::conditions::{self, runs, statistics};
use super::data;
use super::dictionaries::{self, house};
use super::evaluations::{damage_length, damage_run, entries, may_damage};
use super::rng::Rng;
use super::{Case, Size};
use crate::cases;
use crate::dictionary::{Dictionary, Relation};
use crate::reader;
use crate::reader::parsed::{FromValue, Parsed, Role};
use crate::wire::{
    ADD, ASSIGNMENT, BEGIN, DATE, DIVIDE, END, LONG, PARAMETER2, SEND, STATISTICS, STORE, TEXT,
    VARYING, VERSION4, VERSION5,
};

/// The outcomes that cases at random are made for, in turn.
const WANTED: [&str; 14] = [
    "number",
    "text",
    "date",
    "missing",
    "number",
    "refused 20",
    "refused 21",
    "number",
    "refused 22",
    "refused 23",
    "refused 24",
    "missing",
    "refused 25",
    "refused 26",
];

/// The first from-values of a seed.
pub fn cases(seed: u64, count: usize) -> impl Iterator<Item = Case> {
    let random = (0..).map(move |index| {
        let mut seeds = Rng::new(seed);
        let mut rng = Rng::new(seeds.bits() ^ (index as u64).wrapping_mul(0xD134_2543_DE82_EF95));
        case(&mut rng, Size::Small, index)
    });
    written().into_iter().chain(random).take(count)
}

/// A from-value at random of the outcome whose turn it is; of another after 60 attempts.
pub fn case(rng: &mut Rng, size: Size, turn: usize) -> Case {
    let wanted = WANTED[turn % WANTED.len()];
    let mut case = attempt(rng, size, wanted, turn);
    for _ in 0..60 {
        if cases::outcome(&case).starts_with(wanted) {
            break;
        }
        case = attempt(rng, size, wanted, turn);
    }
    case
}

/// One attempt at an outcome.
fn attempt(rng: &mut Rng, size: Size, wanted: &str, turn: usize) -> Case {
    let mut case = proper(rng, size);
    if let Case::Value { row, messages, records, runs, .. } = &mut case {
        match wanted {
            "refused 20" => *row = rng.pick(&[0, *row + 1, *row + 2, 600]),
            "refused 21" => damage_length(rng, messages),
            "refused 22" => damage_length(rng, records),
            "refused 26" => damage_runs(rng, runs, turn),
            _ => return case,
        }
        if wanted < "refused 22" {
            may_damage(rng, records);
        }
        if wanted < "refused 23" {
            may_damage(rng, runs);
        }
    }
    case
}

/// Damages one of the runs, or adds bytes where there is none.
fn damage_runs(rng: &mut Rng, runs: &mut Vec<u8>, way: usize) {
    let mut entries = entries(runs);
    if entries.is_empty() {
        return runs.extend(rng.pick(&[&[0][..], &[4, 0, 7, 0]]));
    }
    damage_run(rng, &mut entries, way);
    *runs = entries.concat();
}

/// A from-value with proper messages, records and runs.
fn proper(rng: &mut Rng, size: Size) -> Case {
    let dictionary = dictionaries::proper(rng, size);
    let focus = match rng.one_in(3) {
        true => (Role::Statement, ASSIGNMENT),
        false => (Role::Value, rng.pick(&STATISTICS)),
    };
    let request = builder::assigning(rng, &dictionary, size, focus).bytes;
    let encoded = dictionaries::encode(&dictionary);
    let (parsed, _) = reader::parse(&request, &encoded).unwrap_or_default();
    let count = parsed.from_values.len();
    let from = parsed.from_values.get(rng.below(count.max(1)));
    let (records, runs) = lent(rng, &parsed, &dictionary, from);
    let messages = data::messages(rng, &parsed, 12);
    let row = from.map_or(0, |from| from.row);
    Case::Value { dictionary: encoded, request, row, messages, records, runs }
}

/// Proper records and runs for a from-value.
fn lent(
    rng: &mut Rng,
    parsed: &Parsed,
    dictionary: &Dictionary,
    from: Option<&FromValue>,
) -> (Vec<u8>, Vec<u8>) {
    let Some(from) = from else {
        return (Vec::new(), Vec::new());
    };
    let records = data::records_for(rng, parsed, dictionary, &from.contexts, 12);
    let runs = data::runs_for(rng, parsed, dictionary, &from.runs, 12);
    (records.concat(), runs.concat())
}

/// The from-values written by hand.
pub fn written() -> Vec<Case> {
    [sent(), stored(), rows()].concat()
}

/// Every statistic as the from-value of a send, over the beds of `runs`, in one version after the
/// other; those at the ends of the range in version 5.
fn sent() -> Vec<Case> {
    let mut cases = Vec::new();
    for (turn, worked) in statistics::all().into_iter().enumerate() {
        cases.push(send([VERSION4, VERSION5][turn % 2], &beds(), worked));
    }
    cases
        .extend(statistics::ends().into_iter().map(|one| send(VERSION5, &statistics::wide(), one)));
    cases
}

/// A value that is sent, over the runs of a relation.
fn send(version: u8, relation: &Relation, (value, runs): statistics::Worked) -> Case {
    let send = [&[SEND, 0], &assignment(&value, &parameter(0, 0))[..]].concat();
    Case::Value {
        dictionary: dictionaries::encode(&Dictionary { relations: vec![relation.clone()] }),
        request: assemble::request_of(version, &[&message(0, &[&[LONG, 0]]), &send]),
        row: 2,
        messages: vec![0; 4],
        records: Vec::new(),
        runs: runs.concat(),
    }
}

/// The relation of the beds.
fn beds() -> Relation {
    conditions::bed_relation(&runs::fields((0, 0, 0)))
}

/// Every field of `house` as the from-value of a store, there and missing, and values of a message.
fn stored() -> Vec<Case> {
    let house = house();
    let messages = message(0, &[&[TEXT, 3, 0], &[VARYING, 2, 0], &[DATE], &[LONG, 254]]);
    let image = [&b"a  \x03\0bc"[..], &[1, 0, 0, 0, 2, 0, 0, 0], &[0, 1, 0, 0]].concat();
    let flagged = |parameter: u8| vec![PARAMETER2, 0, parameter, 0, 3, 0];
    // The targets are of the values' kinds.
    let mut values: Vec<(Vec<u8>, u8)> = (0..7).map(|field| (fid(9, field), field)).collect();
    values.extend([(parameter(0, 0), 3), (parameter(0, 1), 4), (parameter(0, 2), 6)]);
    values.extend([(flagged(0), 3), (flagged(2), 6), (flagged(3), 1)]);
    let zero = assemble::short(0, 0);
    values.push((operator(DIVIDE, &[&fid(9, 1), &zero]), 0));
    values.push((operator(ADD, &[&fid(9, 0), &assemble::greatest()]), 0));
    let mut cases = Vec::new();
    for (value, target) in &values {
        let store = [&[STORE], &rid(1, 9)[..], &assignment(value, &fid(9, *target))].concat();
        for seed in 0..3 {
            let mut rng = Rng::new(seed);
            cases.push(Case::Value {
                dictionary: dictionaries::encode(&house),
                request: assemble::request(&[&messages, &store]),
                row: 2,
                messages: image.clone(),
                records: data::record(&mut rng, &house.relations[0], 3),
                runs: Vec::new(),
            });
        }
    }
    cases
}

/// Rows that are assignments and rows that are not, with every choice of faults beside.
fn rows() -> Vec<Case> {
    let to = parameter(0, 0);
    let [first, second] = [1, 2].map(|number| assignment(&assemble::short(0, number), &to));
    let send = [&[SEND, 0, BEGIN][..], &first, &[BEGIN], &second, &[END, END]].concat();
    let mut cases = Vec::new();
    // The last two rows are those of assignments in their low 32 bits.
    for row in [0, 1, 2, 3, 4, 5, 6, 511, 512, usize::MAX, 1 << 32 | 3, usize::MAX << 32 | 5] {
        for faults in 0..8usize {
            let wrong = |fault: usize| faults >> fault & 1;
            cases.push(Case::Value {
                dictionary: dictionaries::encode(&house()),
                request: assemble::request(&[&message(0, &[&[LONG, 0]]), &send]),
                row,
                messages: vec![0; 4 + wrong(0)],
                records: vec![0; wrong(1)],
                runs: vec![0; wrong(2)],
            });
        }
    }
    cases
}
