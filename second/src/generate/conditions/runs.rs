//! Any and unique over runs: every choice of records kept, refusals, nesting, the order of runs.

use super::sheet::{reading, record, relation, short, varying, FieldValue};
use crate::dictionary::Dictionary;
use crate::generate::assemble::{self, fid, for_loop, operator, over, rid, NOTHING};
use crate::generate::data;
use crate::generate::dictionaries;
use crate::generate::Case;
use crate::wire::{
    AND, ANY, ASCENDING, BOOLEAN, CONTAINING, DIVIDE, END, EQL, GTR, IF, LSS, MISSING, NOT, OR,
    SORT, UNIQUE, VERSION4, VERSION5,
};

const CODES: [u8; 2] = [ANY, UNIQUE];

/// A bed: its number, its heat, its name's length word, which may be above 2.
pub type Bed = (i16, u16, u16);

/// The fields of a bed.
pub fn fields((number, heat, length): Bed) -> Vec<FieldValue> {
    let name = varying(length, b"ab");
    vec![(short(0, number), false), (reading(-1, heat), false), (name, false)]
}

/// The record of a bed of relation 2.
pub fn bed(bed: Bed) -> Vec<u8> {
    let fields = fields(bed);
    record(&relation(2, &fields), &fields)
}

/// The record of a bed whose heat has its missing bit, with the heat beneath it.
pub fn marked(number: i16, heat: u16) -> Vec<u8> {
    let mut fields = fields((number, heat, 1));
    fields[1].1 = true;
    record(&relation(2, &fields), &fields)
}

/// A run of beds.
pub fn run(beds: &[Bed]) -> Vec<u8> {
    let records: Vec<Vec<u8>> = beds.iter().map(|one| bed(*one)).collect();
    data::run(&records)
}

/// A run of beds with these heats, numbered from 1 on.
pub fn heats(heats: &[u16]) -> Vec<u8> {
    let beds: Vec<Bed> = heats.iter().zip(1..).map(|(heat, number)| (number, *heat, 1)).collect();
    run(&beds)
}

/// An evaluation of a statement's first condition over records and runs of beds.
pub fn evaluation(statement: &[u8], records: &[Vec<u8>], runs: &[Vec<u8>]) -> Case {
    evaluation_of(VERSION4, statement, records, runs)
}

/// An evaluation of a request of a version.
pub fn evaluation_of(version: u8, statement: &[u8], records: &[Vec<u8>], runs: &[Vec<u8>]) -> Case {
    let relations = vec![relation(2, &fields((0, 0, 0)))];
    Case::Evaluate {
        dictionary: dictionaries::encode(&Dictionary { relations }),
        request: assemble::request_of(version, &[statement]),
        condition: 0,
        messages: Vec::new(),
        records: records.concat(),
        runs: runs.concat(),
    }
}

/// An evaluation of an if over runs.
pub fn when(boolean: &[u8], runs: &[Vec<u8>]) -> Case {
    evaluation(&[&[IF], boolean, &NOTHING, &[END]].concat(), &[], runs)
}

/// Any or unique over the beds in a context, with a condition.
pub fn with(code: u8, context: u8, condition: &[u8]) -> Vec<u8> {
    over(code, &rid(2, context), &[&[BOOLEAN], condition].concat())
}

/// Whether the bed of a context is above thirty.
pub fn is_warm(context: u8) -> Vec<u8> {
    operator(GTR, &[&fid(context, 1), &assemble::short(0, 30)])
}

/// A bed that is warm, one that is not, and one whose heat is missing.
pub const HEATS: [u16; 3] = [301, 300, 65_535];

/// Every choice of no, one, two and three beds that are warm, cold or missing.
pub fn kept() -> Vec<Case> {
    let mut choices: Vec<Vec<u16>> = vec![Vec::new()];
    let mut last = choices.clone();
    for _ in 0..3 {
        let longer = |choice: &Vec<u16>| HEATS.map(|heat| [&choice[..], &[heat]].concat());
        last = last.iter().flat_map(longer).collect();
        choices.extend(last.clone());
    }
    let mut cases = Vec::new();
    for choice in &choices {
        for code in CODES {
            cases.push(when(&with(code, 4, &is_warm(4)), &[heats(choice)]));
        }
    }
    cases
}

/// Runs of no to three beds without a condition, with a sort, and with both in either order.
pub fn without_condition() -> Vec<Case> {
    let refused = operator(DIVIDE, &[&fid(4, 0), &assemble::short(0, 0)]);
    let sort = [&[SORT, 1, ASCENDING], &refused[..]].concat();
    let boolean = [&[BOOLEAN], &is_warm(4)[..]].concat();
    let mut cases = Vec::new();
    for code in CODES {
        for heat in [&[][..], &[65_535], &[300, 301], &[301, 1, 2]] {
            let clauses = [
                vec![],
                sort.clone(),
                [&sort[..], &boolean].concat(),
                [&boolean[..], &sort].concat(),
            ];
            for clauses in clauses {
                cases.push(when(&over(code, &rid(2, 4), &clauses), &[heats(heat)]));
            }
        }
    }
    cases
}

/// Records that are refused, before and after the answer is sure, and beside missing ones.
pub fn refusals() -> Vec<Case> {
    // One divided by the bed's number, and a name whose length may be above 2.
    let quotient = operator(DIVIDE, &[&assemble::short(0, 1), &fid(4, 0)]);
    let positive = operator(GTR, &[&quotient, &assemble::short(-1, 1)]);
    let named = operator(CONTAINING, &[&fid(4, 2), &assemble::text(b"a")]);
    let both = operator(AND, &[&is_warm(4), &positive]);
    // Two records may be refused with different numbers at different places.
    let either = operator(OR, &[&positive, &named]);
    let beds: [&[Bed]; 6] = [
        &[(1, 301, 1), (0, 301, 1)],
        &[(1, 301, 1), (1, 301, 1), (1, 1, 3)],
        &[(0, 1, 3), (1, 301, 1)],
        &[(2, 65_535, 2), (0, 65_535, 9)],
        &[(1, 5, 0), (1, 5, 3), (0, 5, 1)],
        &[(1, 301, 0), (2, 302, 1)],
    ];
    let mut cases = Vec::new();
    for beds in beds {
        for code in CODES {
            for condition in [&positive, &named, &both, &either] {
                cases.push(when(&with(code, 4, condition), &[run(beds)]));
            }
        }
    }
    cases
}

/// One over another, whose run is used again for each record of the outer one.
pub fn nested() -> Vec<Case> {
    let same = operator(EQL, &[&fid(4, 0), &fid(5, 0)]);
    let below = operator(LSS, &[&fid(5, 1), &fid(4, 1)]);
    let runs = [
        [heats(&[10, 20]), heats(&[20, 10, 5])],
        [heats(&[10]), heats(&[])],
        [heats(&[]), heats(&[10])],
        [heats(&[7, 65_535, 9]), heats(&[8])],
    ];
    let mut cases = Vec::new();
    for outer in CODES {
        for inner in CODES {
            for condition in [&same, &below] {
                let boolean = with(outer, 4, &with(inner, 5, condition));
                cases.extend(runs.iter().map(|runs| when(&boolean, runs)));
            }
            let refuted = operator(NOT, &[&with(inner, 5, &below)]);
            let boolean = with(outer, 4, &operator(OR, &[&is_warm(4), &refuted]));
            cases.push(when(&boolean, &runs[0]));
        }
    }
    cases
}

/// Several side by side and inside one another: each has the run of its place.
pub fn in_order() -> Vec<Case> {
    let inner = |context: u8| with(UNIQUE, context, &is_warm(context));
    let first = with(ANY, 4, &operator(AND, &[&is_warm(4), &inner(5)]));
    let booleans = [
        operator(AND, &[&first, &inner(4)]),
        operator(OR, &[&inner(4), &operator(NOT, &[&first])]),
        operator(AND, &[&inner(4), &operator(AND, &[&inner(4), &inner(9)])]),
    ];
    let runs = [[301, 302], [1, 301], [2, 3]].map(|run| heats(&run));
    let mut cases = Vec::new();
    for boolean in &booleans {
        for order in [[0, 1, 2], [0, 2, 1], [1, 0, 2], [1, 2, 0], [2, 0, 1], [2, 1, 0]] {
            cases.push(when(boolean, &order.map(|at| runs[at].clone())));
        }
    }
    cases
}

/// Inside a for: the record of the for beside those of the run, and what is missing beside a run.
pub fn outer() -> Vec<Case> {
    let same = operator(EQL, &[&fid(4, 0), &fid(0, 0)]);
    let mut cases = Vec::new();
    for code in CODES {
        for number in [1, 2, 9] {
            let beside = with(code, 4, &same);
            let booleans = [
                beside.clone(),
                operator(NOT, &[&beside]),
                operator(AND, &[&is_warm(0), &beside]),
                operator(OR, &[&beside, &is_warm(0)]),
                operator(AND, &[&beside, &operator(MISSING, &[&fid(0, 1)])]),
            ];
            for boolean in &booleans {
                let clauses = [&[BOOLEAN], &boolean[..]].concat();
                let statement = for_loop(&[&rid(2, 0)], &clauses, &NOTHING);
                let runs = [run(&[(1, 5, 0), (2, 5, 0), (1, 5, 0)])];
                cases.push(evaluation(&statement, &[bed((number, 65_535, 1))], &runs));
            }
        }
    }
    cases
}

/// Beds whose heat divided by four tenths is above 2, by each version's quotient.
pub fn versions() -> Vec<Case> {
    let quotient = operator(DIVIDE, &[&fid(4, 1), &assemble::short(-1, 4)]);
    let mut cases = Vec::new();
    for version in [VERSION4, VERSION5] {
        for code in CODES {
            for limit in [2, 7, 8, 9] {
                let above = operator(GTR, &[&quotient, &assemble::short(-1, limit)]);
                let statement = [&[IF], &with(code, 4, &above)[..], &NOTHING, &[END]].concat();
                let runs = [heats(&[3, 65_535, 2])];
                cases.push(evaluation_of(version, &statement, &[], &runs));
            }
        }
    }
    cases
}
