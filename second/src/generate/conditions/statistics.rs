//! Statistics over runs of beds: every choice of values kept, sums that do not fit, and nesting.

use super::runs::{bed, evaluation, evaluation_of, heats, is_warm, marked, run, when, with, HEATS};
use super::sheet::{int64, record, relation};
use crate::dictionary::{Dictionary, Relation};
use crate::generate::assemble::{self, fid, for_loop, operator, rid, statistic, NOTHING};
use crate::generate::data;
use crate::generate::dictionaries;
use crate::generate::Case;
use crate::wire::{
    ADD, AND, ANY, ASCENDING, AVERAGE, BETWEEN, BOOLEAN, COUNT, DIVIDE, END, EQL, GTR, IF, LSS,
    MAXIMUM, MINIMUM, MISSING, MULTIPLY, NEGATE, NOT, OR, SORT, STATISTICS, TOTAL, UNIQUE,
    VERSION4, VERSION5,
};

/// A value and the runs of the codes in it.
pub type Worked = (Vec<u8>, Vec<Vec<u8>>);

/// A statistic of the beds in context 4.
fn of_beds(code: u8, clauses: &[u8], number: &[u8]) -> Vec<u8> {
    statistic(code, &rid(2, 4), clauses, number)
}

/// The clause of a boolean.
fn clause(boolean: &[u8]) -> Vec<u8> {
    [&[BOOLEAN], boolean].concat()
}

/// All values with their runs.
pub fn all() -> Vec<Worked> {
    [kept(), signs(), sums(), orders(), nested(), sorted(), unread()].concat()
}

/// Every statistic of the heat of no, one and two beds, warm, cold or missing, with and without a
/// condition.
fn kept() -> Vec<Worked> {
    let mut choices: Vec<Vec<u16>> = vec![Vec::new()];
    choices.extend(HEATS.map(|heat| vec![heat]));
    choices.extend(HEATS.iter().flat_map(|first| HEATS.map(|second| vec![*first, second])));
    let mut worked = Vec::new();
    for choice in &choices {
        for code in STATISTICS {
            for clauses in [vec![], clause(&is_warm(4))] {
                worked.push((of_beds(code, &clauses, &fid(4, 1)), vec![heats(choice)]));
            }
        }
    }
    worked
}

/// Every statistic of numbers of both signs; averages are cut toward zero.
fn signs() -> Vec<Worked> {
    let runs: [&[i16]; 6] =
        [&[-7, 0], &[7, 0], &[-1, 2, 3], &[5, -5], &[i16::MIN, i16::MIN, i16::MAX], &[-2, -2, -1]];
    let mut worked = Vec::new();
    for numbers in runs {
        let beds: Vec<_> = numbers.iter().map(|number| (*number, 0, 0)).collect();
        for code in STATISTICS {
            worked.push((of_beds(code, &[], &fid(4, 0)), vec![run(&beds)]));
        }
    }
    worked
}

/// Numbers of which a partial sum may not fit: the bed's number times 2^62.
fn sums() -> Vec<Worked> {
    let number = operator(MULTIPLY, &[&fid(4, 0), &assemble::two_to_62()]);
    let runs: [&[i16]; 7] =
        [&[1], &[1, 1], &[1, -1, 1], &[1, 1, -1], &[-1, -1], &[-2, 1], &[-1, -1, -1]];
    let mut worked = Vec::new();
    for numbers in runs {
        let beds: Vec<_> = numbers.iter().map(|number| (*number, 300, 0)).collect();
        for code in STATISTICS {
            worked.push((of_beds(code, &[], &number), vec![run(&beds)]));
        }
    }
    worked
}

/// A refused number beside a refused test of the next bed, and one of a bed that is not kept.
fn orders() -> Vec<Worked> {
    let quotient = |context: u8| operator(DIVIDE, &[&assemble::short(0, 6), &fid(context, 0)]);
    let named = operator(EQL, &[&fid(4, 2), &assemble::text(b"a")]);
    let sixth = operator(EQL, &[&quotient(4), &assemble::short(0, 6)]);
    let runs = [
        run(&[(0, 301, 1), (1, 301, 9)]),
        run(&[(1, 301, 9), (0, 301, 1)]),
        run(&[(0, 5, 1), (1, 301, 1)]),
        run(&[(1, 301, 1), (0, 65_535, 1), (2, 400, 1)]),
    ];
    let mut worked = Vec::new();
    for (turn, one) in runs.iter().enumerate() {
        for condition in [&named, &is_warm(4), &sixth] {
            let code = STATISTICS[turn % 5];
            worked.push((of_beds(code, &clause(condition), &quotient(4)), vec![one.clone()]));
            worked.push((of_beds(TOTAL, &clause(condition), &quotient(4)), vec![one.clone()]));
        }
    }
    worked
}

/// Statistics in the condition and in the number of another: the condition's run comes first.
fn nested() -> Vec<Worked> {
    let inner = |code: u8, context: u8| statistic(code, &rid(2, context), &[], &fid(context, 1));
    let above = clause(&operator(GTR, &[&fid(4, 1), &inner(AVERAGE, 5)]));
    let sum = operator(ADD, &[&fid(4, 0), &inner(COUNT, 5)]);
    let product = operator(MULTIPLY, &[&fid(4, 0), &inner(MAXIMUM, 6)]);
    let runs = [heats(&[10, 20, 30]), heats(&[5, 25]), heats(&[1, 65_535, 2])];
    let mut worked = Vec::new();
    for code in STATISTICS {
        for order in [[0, 1, 2], [1, 2, 0], [2, 0, 1]] {
            let runs = order.map(|at| runs[at].clone());
            worked.push((of_beds(code, &above, &fid(4, 0)), runs[..2].to_vec()));
            let due = if code == COUNT { 1 } else { 2 };
            worked.push((of_beds(code, &[], &sum), runs[..due].to_vec()));
            worked.push((of_beds(code, &above, &product), runs[..due + 1].to_vec()));
        }
    }
    let any = clause(&with(ANY, 5, &operator(LSS, &[&fid(5, 1), &fid(4, 1)])));
    worked.push((of_beds(AVERAGE, &any, &fid(4, 1)), runs[..2].to_vec()));
    worked
}

/// Sorts, whose codes have no run and are never worked out.
fn sorted() -> Vec<Worked> {
    let inner = statistic(AVERAGE, &rid(2, 5), &[], &fid(5, 1));
    let refused = operator(DIVIDE, &[&inner, &assemble::short(0, 0)]);
    let sort = [&[SORT, 1, ASCENDING], &refused[..]].concat();
    let both = [clause(&is_warm(4)), sort.clone()].concat();
    let mut worked = Vec::new();
    for code in STATISTICS {
        for clauses in [&sort, &both] {
            worked.push((of_beds(code, clauses, &fid(4, 1)), vec![heats(&[301, 300])]));
        }
    }
    worked
}

/// Runs of one to three beds whose values are all missing, by the bit, by the reading and by both,
/// alone, negated, and added to one that is there.
fn unread() -> Vec<Worked> {
    let heat = fid(4, 1);
    let sum = operator(ADD, &[&fid(4, 0), &heat]);
    let runs = [
        data::run(&[marked(1, 300)]),
        data::run(&[marked(1, 65_535), bed((2, 65_535, 0))]),
        data::run(&[bed((1, 65_535, 0)), marked(2, 0), marked(3, 301)]),
    ];
    let mut worked = Vec::new();
    for run in &runs {
        for code in STATISTICS {
            for number in [&heat, &operator(NEGATE, &[&heat]), &sum] {
                worked.push((of_beds(code, &[], number), vec![run.clone()]));
            }
        }
    }
    worked
}

/// The relation of 64-bit numbers.
pub fn wide() -> Relation {
    relation(3, &[(int64(0, 0), false)])
}

/// Every statistic of 64-bit numbers whose sums reach and pass both ends of the range, of version 5.
pub fn ends() -> Vec<Worked> {
    const TOP: i64 = i64::MAX;
    const LOW: i64 = i64::MIN;
    let runs: [&[i64]; 14] = [
        &[TOP],
        &[LOW],
        &[TOP, 0],
        &[TOP, 1],
        &[TOP - 1, 1],
        &[TOP, 1, -1],
        &[TOP, -1, 1],
        &[LOW, 0],
        &[LOW, -1],
        &[LOW + 1, -1],
        &[LOW, -1, 1],
        &[LOW, TOP, TOP],
        &[TOP, LOW, LOW],
        &[TOP, TOP],
    ];
    let mut worked = Vec::new();
    for numbers in runs {
        let records: Vec<Vec<u8>> =
            numbers.iter().map(|number| record(&wide(), &[(int64(0, *number), false)])).collect();
        for code in STATISTICS {
            let value = statistic(code, &rid(3, 4), &[], &fid(4, 0));
            worked.push((value, vec![data::run(&records)]));
        }
    }
    worked
}

/// The values of `ends` against numbers at the ends.
pub fn at_ends() -> Vec<Case> {
    let dictionary = dictionaries::encode(&Dictionary { relations: vec![wide()] });
    let mut cases = Vec::new();
    for (turn, (value, runs)) in ends().into_iter().enumerate() {
        let number = int64(0, [i64::MAX, i64::MIN, 0][turn % 3]).literal();
        let boolean = operator([EQL, GTR, LSS][turn % 3], &[&value, &number]);
        let statement = [&[IF], &boolean[..], &NOTHING, &[END]].concat();
        cases.push(Case::Evaluate {
            dictionary: dictionary.clone(),
            request: assemble::request_of(VERSION5, &[&statement]),
            condition: 0,
            messages: Vec::new(),
            records: Vec::new(),
            runs: runs.concat(),
        });
    }
    cases
}

/// Statistics in the condition of an any or a unique, beside the bed of that run.
pub fn in_runs() -> Vec<Case> {
    let runs = [
        [heats(&[10, 20, 30]), heats(&[20, 65_535, 10])],
        [heats(&[65_535, 12]), heats(&[11])],
        [heats(&[5]), heats(&[])],
        [heats(&[]), heats(&[7])],
    ];
    let mut cases = Vec::new();
    for code in [ANY, UNIQUE] {
        for inner in STATISTICS {
            // Of the inner run's beds those above the outer bed.
            let above = clause(&operator(GTR, &[&fid(5, 1), &fid(4, 1)]));
            for clauses in [vec![], above] {
                let value = statistic(inner, &rid(2, 5), &clauses, &fid(5, 1));
                let boolean = with(code, 4, &operator(GTR, &[&fid(4, 1), &value]));
                cases.extend(runs.iter().map(|runs| when(&boolean, runs)));
            }
        }
    }
    cases
}

/// A for that is sorted by a statistic, which has no run, before and behind its condition.
pub fn in_sorts() -> Vec<Case> {
    let mut cases = Vec::new();
    for code in STATISTICS {
        let value = |context: u8| statistic(code, &rid(2, context), &[], &fid(context, 1));
        let refused = operator(DIVIDE, &[&value(5), &assemble::short(0, 0)]);
        let sort = [&[SORT, 1, ASCENDING], &refused[..]].concat();
        let boolean = clause(&operator(GTR, &[&value(6), &fid(0, 1)]));
        for clauses in [[&sort[..], &boolean].concat(), [&boolean[..], &sort].concat()] {
            let statement = for_loop(&[&rid(2, 0)], &clauses, &NOTHING);
            for heat in [0, 301, 65_535] {
                let runs = [heats(&[300, 302])];
                cases.push(evaluation(&statement, &[bed((1, heat, 1))], &runs));
            }
        }
    }
    cases
}

/// Statistics of quotients, which have each version's scale, and averages of both versions.
pub fn versions() -> Vec<Case> {
    let quotient = operator(DIVIDE, &[&fid(4, 1), &assemble::short(-1, 4)]);
    let mut cases = Vec::new();
    for version in [VERSION4, VERSION5] {
        for code in STATISTICS {
            for limit in [1, 7, 12] {
                let value = of_beds(code, &[], &quotient);
                let boolean = operator(EQL, &[&value, &assemble::short(-1, limit)]);
                let statement = [&[IF], &boolean[..], &NOTHING, &[END]].concat();
                let runs = [heats(&[3, 65_535, 5])];
                cases.push(evaluation_of(version, &statement, &[], &runs));
            }
        }
    }
    cases
}

/// Every value, missing or there, and against a number.
pub fn tests() -> Vec<Case> {
    let mut cases = Vec::new();
    for (turn, (value, runs)) in all().into_iter().enumerate() {
        let number = assemble::short(-1, [300, 0, 601, -35, 301][turn % 5]);
        let code = [EQL, GTR, LSS][turn % 3];
        cases.push(when(&operator(code, &[&value, &number]), &runs));
        if turn.is_multiple_of(4) {
            cases.push(when(&operator(MISSING, &[&value]), &runs));
        }
    }
    cases
}

/// What is missing by nothing, in arithmetic, tests and logic; and a quotient of two statistics.
pub fn in_tests() -> Vec<Case> {
    let one = assemble::short(0, 1);
    let none = vec![heats(&[]), heats(&[300])];
    let mut cases = Vec::new();
    for code in [AVERAGE, MAXIMUM, MINIMUM] {
        let value = of_beds(code, &[], &fid(4, 1));
        let other = of_beds(COUNT, &[], &[]);
        let missing = operator(EQL, &[&value, &one]);
        let there = operator(EQL, &[&other, &one]);
        for boolean in [
            operator(EQL, &[&operator(ADD, &[&value, &other]), &one]),
            operator(EQL, &[&operator(NEGATE, &[&value]), &other]),
            operator(LSS, &[&operator(DIVIDE, &[&value, &other]), &one]),
            operator(BETWEEN, &[&one, &value, &other]),
            operator(BETWEEN, &[&value, &one, &other]),
            operator(AND, &[&missing, &there]),
            operator(OR, &[&missing, &there]),
            operator(NOT, &[&operator(AND, &[&missing, &operator(NOT, &[&there])])]),
        ] {
            cases.push(when(&boolean, &none));
        }
    }
    let quotient = [TOTAL, COUNT].map(|code| of_beds(code, &[], &fid(4, 1)));
    let quotient = operator(DIVIDE, &[&quotient[0], &quotient[1]]);
    let average = of_beds(AVERAGE, &[], &fid(4, 1));
    let boolean = operator(EQL, &[&quotient, &average]);
    for run in [heats(&[7, 8]), heats(&[7, 65_535, 9]), heats(&[])] {
        cases.push(when(&boolean, &[run.clone(), run.clone(), run]));
    }
    cases
}
