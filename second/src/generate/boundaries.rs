//! Each greatest size and range of document 01, on both sides.

use super::assemble::{
    self, condition, for_loop, message, operator, over, rid, short, text, NOTHING,
};
use super::data;
use super::dictionaries::{self, field, house};
use super::{Case, Size, TABLE_LENGTHS};
use crate::dictionary::{Dictionary, Field, Relation};
use crate::hex;
use crate::wire::{
    AND, ANY, ASCENDING, BEGIN, BOOLEAN, COUNT, CSTRING, DATE, DIVIDE, END, EOC, EQL, FIELD, IF,
    INT64, LITERAL, LONG, MISSING, MULTIPLY, NEGATE, NOT, OR, READING, RELATION, RSE, SEND, SHORT,
    SORT, STATISTICS, TEXT, UNIQUE, VARYING, VERSION4, VERSION5,
};
use std::sync::OnceLock;

/// All cases.
pub fn all() -> Vec<Case> {
    let parts = [
        depths(),
        counts(),
        message_sizes(),
        context_counts(),
        selections(),
        statistics(),
        request_ranges(),
        ranges_of_type_16(),
        arithmetic_scales(),
        quotient_scales(),
        names(),
        table_lengths(),
        dictionary_counts(),
        dictionary_ranges(),
        record_lengths(),
        run_lengths(),
        lengths(),
    ];
    parts.into_iter().flatten().collect()
}

/// The cases of a size, made once.
pub fn of(size: Size) -> &'static [Case] {
    static SMALL: OnceLock<Vec<Case>> = OnceLock::new();
    static MIXED: OnceLock<Vec<Case>> = OnceLock::new();
    match size {
        Size::Small => SMALL.get_or_init(|| all().into_iter().filter(is_small).collect()),
        Size::Mixed => MIXED.get_or_init(all),
    }
}

/// The cases of the greatest sizes of a request, of which many are refused with 8.
pub fn request_sizes(size: Size) -> Vec<Case> {
    let parts = [depths(), counts(), message_sizes(), context_counts(), selections(), statistics()];
    let cases = parts.into_iter().flatten();
    cases.filter(|case| size == Size::Mixed || is_small(case)).collect()
}

/// Whether dictionary and request are short, or abbreviated to few digits, and runs are short.
fn is_small(case: &Case) -> bool {
    let (dictionary, request) = case.bytes();
    let has_long_runs = matches!(case, Case::Evaluate { runs, .. } if runs.len() > 500);
    hex::write(dictionary).len() < 500 && hex::write(request).len() < 420 && !has_long_runs
}

/// A reading beside the dictionary `house`.
fn read(request: Vec<u8>) -> Case {
    read_beside(&house(), request)
}

/// A reading beside a dictionary.
fn read_beside(dictionary: &Dictionary, request: Vec<u8>) -> Case {
    Case::Read { dictionary: dictionaries::encode(dictionary), request, lengths: TABLE_LENGTHS }
}

/// 32 and 33 levels of begins, values, booleans.
fn depths() -> Vec<Case> {
    let mut cases = Vec::new();
    for depth in [32, 33] {
        let begins = [vec![VERSION4], vec![BEGIN; depth], vec![END; depth], vec![EOC]].concat();
        cases.push(read_beside(&Dictionary::default(), begins));
        // Levels: begin, for, missing, then negates, then the literal.
        let negated = [vec![NEGATE; depth - 4], short(0, 1)].concat();
        cases.push(read(assemble::request(&[&condition(&operator(MISSING, &[&negated]))])));
        let test = operator(EQL, &[&short(0, 1), &short(0, 1)]);
        let refuted = [vec![NOT; depth - 4], test].concat();
        cases.push(read(assemble::request(&[&condition(&refuted)])));
    }
    cases
}

/// 512 and 513 statements, 16 and 17 messages, 128, 129, 256 and 257 parameters.
fn counts() -> Vec<Case> {
    let mut cases = Vec::new();
    for count in [511, 512] {
        cases.push(read(assemble::request(&[&NOTHING.repeat(count)])));
    }
    for count in [16, 17] {
        let messages: Vec<u8> = (0..count).flat_map(|number| message(number, &[])).collect();
        cases.push(read(assemble::request(&[&messages])));
    }
    let date: &[u8] = &[DATE];
    for count in [128, 129] {
        cases.push(read(assemble::request(&[&message(0, &vec![date; count])])));
    }
    for count in [1, 2] {
        let messages = [(0, 127), (1, 128), (2, count)]
            .map(|(number, count)| message(number, &vec![date; count]));
        cases.push(read(assemble::request(&[&messages.concat()])));
    }
    cases
}

/// Messages of 4,096 and 4,097 bytes.
fn message_sizes() -> Vec<Case> {
    let mut cases = Vec::new();
    for last in [[TEXT, 16, 0], [TEXT, 17, 0], [CSTRING, 16, 0], [VARYING, 14, 0], [VARYING, 15, 0]]
    {
        let full: &[u8] = &[TEXT, 255, 0];
        let descriptors = [vec![full; 16], vec![&last[..]]].concat();
        cases.push(read(assemble::request(&[&message(0, &descriptors)])));
    }
    cases
}

/// 32 and 33 context declarations; 0, 1, 8 and 9 streams; 0, 1, 8 and 9 sort values.
fn context_counts() -> Vec<Case> {
    let mut cases = Vec::new();
    let streams = |count: u8| (0..count).map(|context| rid(1, context)).collect::<Vec<_>>();
    let loop_over = |count: u8| {
        let streams = streams(count);
        let slices: Vec<&[u8]> = streams.iter().map(Vec::as_slice).collect();
        for_loop(&slices, &[], &NOTHING)
    };
    for extra in [vec![], loop_over(1)] {
        cases.push(read(assemble::request(&[&loop_over(8).repeat(4), &extra])));
    }
    for count in [0, 1, 8, 9] {
        cases.push(read(assemble::request(&[&loop_over(count)])));
        let value = [vec![ASCENDING], short(0, 1)].concat();
        let sort = [vec![SORT, count], value.repeat(usize::from(count))].concat();
        cases.push(read(assemble::request(&[&for_loop(&[&rid(1, 0)], &sort, &NOTHING)])));
    }
    cases
}

/// 0, 1, 2, 8 and 9 streams of any and unique, 32 and 33 context declarations with theirs, and 32
/// and 33 levels below them.
fn selections() -> Vec<Case> {
    let test = operator(EQL, &[&short(0, 1), &short(0, 1)]);
    let mut cases = Vec::new();
    for code in [ANY, UNIQUE] {
        for count in [0, 1, 2, 8, 9] {
            let streams: Vec<Vec<u8>> = (1..=count).map(|context| rid(1, context)).collect();
            let rse = [&[code, RSE, count], &streams.concat()[..], &[END]].concat();
            cases.push(read(assemble::request(&[&condition(&rse)])));
        }
        // The for has a context, and each of these one more.
        for count in [31, 32] {
            let one = over(code, &rid(1, 7), &[]);
            let all = [vec![AND; count - 1], one.repeat(count)].concat();
            // And nests to the left, too deep from the 28th on.
            let halves = balanced(&vec![one; count]);
            cases.push(read(assemble::request(&[&condition(&halves)])));
            cases.push(read(assemble::request(&[&condition(&all)])));
        }
        // Levels: begin, for, nots, any, eql, literal.
        for nots in [27, 28] {
            let inner = over(code, &rid(1, 7), &[&[BOOLEAN], &test[..]].concat());
            let refuted = [vec![NOT; nots], inner].concat();
            cases.push(read(assemble::request(&[&condition(&refuted)])));
        }
    }
    cases
}

/// 0, 1, 2, 8 and 9 streams of every statistic, and 32 and 33 levels below it.
fn statistics() -> Vec<Case> {
    let mut cases = Vec::new();
    for code in STATISTICS {
        let number = if code == COUNT { Vec::new() } else { short(0, 1) };
        for count in [0, 1, 2, 8, 9] {
            let streams: Vec<Vec<u8>> = (1..=count).map(|context| rid(1, context)).collect();
            let rse = [&[code, RSE, count], &streams.concat()[..], &[END], &number].concat();
            cases.push(read(assemble::request(&[&condition(&operator(MISSING, &[&rse]))])));
        }
        // Levels: begin, for, missing, negates, the statistic, its number or its test's values.
        for negates in [26, 27, 28] {
            let test = [vec![BOOLEAN], operator(MISSING, &[&short(0, 1)])].concat();
            for clauses in [vec![], test] {
                let inner = assemble::statistic(code, &rid(1, 7), &clauses, &number);
                let value = [vec![NEGATE; negates], inner].concat();
                cases.push(read(assemble::request(&[&condition(&operator(MISSING, &[&value]))])));
            }
        }
    }
    cases
}

/// Booleans joined by and, in as few levels as may be.
fn balanced(booleans: &[Vec<u8>]) -> Vec<u8> {
    match booleans {
        [one] => one.clone(),
        _ => {
            let (left, right) = booleans.split_at(booleans.len() / 2);
            operator(AND, &[&balanced(left), &balanced(right)])
        }
    }
}

/// Text sizes and scales of descriptors and literals.
fn request_ranges() -> Vec<Case> {
    let mut cases = Vec::new();
    for n in [0u16, 1, 255, 256] {
        for code in [TEXT, VARYING, CSTRING] {
            let descriptor = [&[code], &n.to_le_bytes()[..]].concat();
            cases.push(read(assemble::request(&[&message(0, &[&descriptor])])));
        }
        let literal = text(&vec![b'a'; usize::from(n)]);
        let test = operator(MISSING, &[&literal]);
        cases.push(read(assemble::request(&[&condition(&test)])));
    }
    for scale in [-10i8, -9, 0, 1, 127, -128] {
        for code in [SHORT, LONG] {
            let descriptor = [code, scale.to_le_bytes()[0]];
            cases.push(read(assemble::request(&[&message(0, &[&descriptor])])));
            let zeros: &[u8] = if code == SHORT { &[0; 2] } else { &[0; 4] };
            let literal = [&[LITERAL], &descriptor[..], zeros].concat();
            let test = operator(MISSING, &[&literal]);
            cases.push(read(assemble::request(&[&condition(&test)])));
        }
    }
    cases
}

/// Scales of type 16 in descriptors and literals, in both versions.
fn ranges_of_type_16() -> Vec<Case> {
    let mut cases = Vec::new();
    for version in [VERSION4, VERSION5] {
        for scale in [-19i8, -18, -10, 0, 1] {
            let declared = message(0, &[&[INT64, scale.to_le_bytes()[0]]]);
            cases.push(read(assemble::request_of(version, &[&declared])));
            let test = operator(MISSING, &[&assemble::int64(scale, -1)]);
            cases.push(read(assemble::request_of(version, &[&condition(&test)])));
        }
    }
    cases
}

/// Quotients of scale -18 and -19 in version 5, and of scale 0 and 1 in version 4.
fn quotient_scales() -> Vec<Case> {
    let mut cases = Vec::new();
    for scales in [[-9, -9], [-9, -10], [-18, 0], [-18, -1], [0, -18], [-8, -9], [0, 0]] {
        let [left, right] = scales.map(|scale| assemble::int64(scale, 1));
        let test = operator(MISSING, &[&operator(DIVIDE, &[&left, &right])]);
        cases.push(read(assemble::request_of(VERSION5, &[&condition(&test)])));
    }
    for scales in [[-9, -9], [-8, -9], [0, -9]] {
        let [left, right] = scales.map(|scale| short(scale, 1));
        let test = operator(MISSING, &[&operator(DIVIDE, &[&left, &right])]);
        for version in [VERSION4, VERSION5] {
            cases.push(read(assemble::request_of(version, &[&condition(&test)])));
        }
    }
    cases
}

/// Results of scale -18 and -19, and of scale 0 and 1.
fn arithmetic_scales() -> Vec<Case> {
    let nine = short(-9, 1);
    let eighteen = assemble::scale_18(1);
    let values = [
        eighteen.clone(),
        operator(MULTIPLY, &[&eighteen, &short(-1, 1)]),
        operator(MULTIPLY, &[&eighteen, &short(0, 1)]),
        operator(MULTIPLY, &[&short(-1, 1), &eighteen]),
        operator(DIVIDE, &[&nine, &nine]),
        operator(DIVIDE, &[&short(-8, 1), &nine]),
        operator(DIVIDE, &[&short(0, 1), &short(-1, 1)]),
        operator(DIVIDE, &[&eighteen, &eighteen]),
        operator(DIVIDE, &[&eighteen, &short(0, 1)]),
        operator(DIVIDE, &[&nine, &eighteen]),
    ];
    let case = |value: &Vec<u8>| {
        let test = operator(MISSING, &[value]);
        read(assemble::request(&[&condition(&test)]))
    };
    values.iter().map(case).collect()
}

/// Names of 0, 1, 31 and 32 bytes, in the dictionary and in the request.
fn names() -> Vec<Case> {
    let mut cases = Vec::new();
    for length in [0, 1, 31, 32] {
        let name = vec![b'N'; length];
        let mut named_relation = house();
        named_relation.relations[0].name = name.clone();
        let mut named_field = house();
        named_field.relations[0].fields[3].name = name.clone();
        let counted = dictionaries::counted(&name);
        let stream = [&[RELATION], &counted[..], &[0]].concat();
        let by_relation = assemble::request(&[&for_loop(&[&stream], &[], &NOTHING)]);
        let value = [&[FIELD, 0], &counted[..]].concat();
        let by_field = assemble::request(&[&condition(&operator(MISSING, &[&value]))]);
        cases.push(read_beside(&named_relation, by_relation.clone()));
        cases.push(read_beside(&named_field, by_field.clone()));
        cases.push(read(by_relation));
        cases.push(read(by_field));
    }
    cases
}

/// Tables one number short, just long enough, and longer.
fn table_lengths() -> Vec<Case> {
    let dictionary = dictionaries::encode(&house());
    let request = assemble::request(&[&assemble::for_house(&NOTHING)]);
    let [statements, parameters, contexts] = TABLE_LENGTHS;
    let lengths = [
        TABLE_LENGTHS,
        [statements - 1, parameters, contexts],
        [statements, parameters - 1, contexts],
        [statements, parameters, contexts - 1],
        [statements + 3, parameters + 5, contexts + 4],
        [0, 0, 0],
    ];
    let case =
        |lengths| Case::Read { dictionary: dictionary.clone(), request: request.clone(), lengths };
    lengths.map(case).to_vec()
}

/// The n-th of different names of two bytes.
fn two_byte_name(n: usize) -> Vec<u8> {
    vec![b'A' + (n / 26) as u8, b'A' + (n % 26) as u8]
}

/// 32 and 33 relations, 64 and 65 fields.
fn dictionary_counts() -> Vec<Case> {
    let mut cases = Vec::new();
    for count in [32, 33] {
        let relation =
            |n: usize| Relation { id: n as u16, name: two_byte_name(n), fields: Vec::new() };
        let relations = (0..count).map(relation).collect();
        cases.push(read_beside(&Dictionary { relations }, assemble::request(&[])));
    }
    for count in [64, 65] {
        let fields = (0..count).map(|n| field(DATE, 0, 0, &two_byte_name(n))).collect();
        let relations = vec![Relation { id: 1, name: b"R".to_vec(), fields }];
        let request =
            assemble::request(&[&condition(&operator(MISSING, &[&assemble::fid(0, 63)]))]);
        cases.push(read_beside(&Dictionary { relations }, request));
    }
    cases
}

/// Text sizes and scales of fields.
fn dictionary_ranges() -> Vec<Case> {
    let beside = |field: Field| {
        let relations = vec![Relation { id: 1, name: b"R".to_vec(), fields: vec![field] }];
        let test = operator(MISSING, &[&assemble::fid(0, 0)]);
        read_beside(&Dictionary { relations }, assemble::request(&[&condition(&test)]))
    };
    let mut cases = Vec::new();
    for code in [TEXT, VARYING, CSTRING] {
        for n in [0, 1, 255, 256] {
            cases.push(beside(field(code, 0, n, b"F")));
        }
    }
    for code in [SHORT, LONG, READING, DATE, TEXT] {
        for scale in [-10, -9, -1, 0, 1] {
            cases.push(beside(field(code, scale, 3, b"F")));
        }
    }
    for scale in [-19, -18, 0, 1] {
        cases.push(beside(field(INT64, scale, 0, b"F")));
    }
    cases
}

/// A relation of some texts of 255 bytes and one of another length.
fn relation_of_texts(count: usize, last: u16) -> Relation {
    let mut fields: Vec<Field> =
        (0..count).map(|n| field(TEXT, 0, 255, &two_byte_name(n)[1..])).collect();
    fields.push(field(TEXT, 0, last, b"Z"));
    Relation { id: 1, name: b"R".to_vec(), fields }
}

/// A record of blanks.
fn blank_record(relation: &Relation) -> Vec<u8> {
    let length = relation.entry_length();
    let bits = relation.fields.len().div_ceil(8);
    let mut record = vec![b' '; length];
    record[..2].copy_from_slice(&(length as u16).to_le_bytes());
    record[2..6].copy_from_slice(&[3, 0, 1, 0]);
    record[6..6 + bits].fill(0);
    record
}

/// Record entries of 4,096 and 4,097 bytes: 16 texts of 255 bytes and one of 7 or 8.
pub fn record_lengths() -> Vec<Case> {
    let case = |last: u16| {
        let relation = relation_of_texts(16, last);
        let records = blank_record(&relation);
        let test = operator(EQL, &[&assemble::fid(0, 16), &text(b" ")]);
        Case::Evaluate {
            dictionary: dictionaries::encode(&Dictionary { relations: vec![relation] }),
            request: assemble::request(&[&condition(&test)]),
            condition: 0,
            messages: Vec::new(),
            records,
            runs: Vec::new(),
        }
    };
    vec![case(7), case(8)]
}

/// An evaluation of two codes over runs of one relation, joined by or.
fn over_two_runs(relation: &Relation, codes: [u8; 2], runs: &[&[u8]]) -> Case {
    let last = relation.fields.len() - 1;
    let is_blank = operator(EQL, &[&assemble::fid(7, last as u8), &text(b" ")]);
    let first = over(codes[0], &rid(1, 7), &[&[BOOLEAN], &is_blank[..]].concat());
    let second = over(codes[1], &rid(1, 7), &[]);
    let boolean = operator(OR, &[&first, &second]);
    let statement = [&[IF], &boolean[..], &NOTHING, &[END]].concat();
    Case::Evaluate {
        dictionary: dictionaries::encode(&Dictionary { relations: vec![relation.clone()] }),
        request: assemble::request(&[&statement]),
        condition: 0,
        messages: Vec::new(),
        records: Vec::new(),
        runs: runs.concat(),
    }
}

/// Runs of 65,535 bytes, whole, cut, and with a byte more: 3,449 records of 19 bytes and 19 of 3,449.
/// Runs of one record of 4,096 and of 4,097 bytes, and without one.
pub fn run_lengths() -> Vec<Case> {
    let none = data::run(&[]);
    let mut cases = Vec::new();
    for relation in [relation_of_texts(0, 12), relation_of_texts(13, 126)] {
        let record = blank_record(&relation);
        let run = data::run(&vec![record.clone(); 65_531 / record.len()]);
        for codes in [[ANY, UNIQUE], [UNIQUE, ANY]] {
            for runs in [[&run[..], &none], [&none, &run], [&run, &run]] {
                cases.push(over_two_runs(&relation, codes, &runs));
            }
        }
        let cut = &run[..65_534];
        for runs in [[&run[..], cut], [cut, &none], [&run, &[4, 0, 7, 0, 4]]] {
            cases.push(over_two_runs(&relation, [ANY, ANY], &runs));
        }
    }
    for last in [7, 8] {
        let relation = relation_of_texts(16, last);
        let run = data::run(&[blank_record(&relation)]);
        for runs in [[&none, &none], [&none, &run], [&run, &none]] {
            cases.push(over_two_runs(&relation, [UNIQUE, UNIQUE], &runs.map(|run| &run[..])));
        }
    }
    cases
}

/// Requests and dictionaries of 65,535 and 65,536 bytes.
fn lengths() -> Vec<Case> {
    let mut cases = Vec::new();
    for length in [65_535, 65_536] {
        cases.push(read(request_of_length(length)));
        cases.push(read(vec![VERSION4; length]));
        let dictionary = dictionaries::encode(&dictionary_of_length(length));
        let lengths = TABLE_LENGTHS;
        cases.push(Case::Read { dictionary, request: assemble::request(&[]), lengths });
    }
    let dictionary = vec![0; 65_536];
    let request = assemble::request(&[]);
    cases.push(Case::Read { dictionary, request, lengths: TABLE_LENGTHS });
    cases
}

/// A request of a length above 600 whose grammar is right: a send with assignments of texts.
pub fn request_of_length(length: usize) -> Vec<u8> {
    let to = assemble::parameter(0, 0);
    let assign = |n: usize| assemble::assignment(&text(&vec![b'a'; n]), &to);
    let mut body = message(0, &[&[TEXT, 255, 0]]);
    body.extend([SEND, 0, BEGIN]);
    let goal = length - 5;
    let full = assign(255);
    while body.len() + full.len() + assign(1).len() < goal {
        body.extend(&full);
    }
    let rest = goal - body.len();
    if rest > full.len() {
        body.extend(assign(100));
    }
    let rest = goal - body.len();
    body.extend(assign(rest - assign(1).len() + 1));
    body.extend([END]);
    assemble::request(&[&body])
}

/// A dictionary of 65,535 or 65,536 bytes that breaks no other rule.
pub fn dictionary_of_length(length: usize) -> Dictionary {
    let long_name = |n: usize| [&[b'N'; 29][..], &two_byte_name(n)].concat();
    let full = |id: usize| Relation {
        id: id as u16,
        name: long_name(id),
        fields: (0..64).map(|n| field(DATE, 0, 0, &long_name(n))).collect(),
    };
    let mut relations: Vec<Relation> = (0..24).map(full).collect();
    // 24 relations of 2,726 bytes; one of 9 bytes with two fields of 42 and one of the rest.
    let rest = length - 24 * 2726 - 9 - 2 * 42;
    let name = vec![b'L'; rest - 11];
    let fields = vec![
        field(DATE, 0, 0, &long_name(0)),
        field(DATE, 0, 0, &long_name(1)),
        field(DATE, 0, 0, &name),
    ];
    relations.push(Relation { id: 24, name: b"ZZ".to_vec(), fields });
    Dictionary { relations }
}
