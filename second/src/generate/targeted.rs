//! Readings aimed at one refusal each.

use super::assemble::{
    self, assignment, condition, fid, for_house, for_loop, int64, message, operator, over,
    parameter, rid, short, statistic, text, NOTHING,
};
use super::boundaries;
use super::builder::{self, foci};
use super::dictionaries::{self, house};
use super::draft::{Draft, Mark};
use super::rng::Rng;
use super::{Case, Size, TABLE_LENGTHS};
use crate::dictionary::Dictionary;
use crate::reader;
use crate::reader::parsed::Role;
use crate::wire::{
    ADD, AND, ANY, ASCENDING, AVERAGE, BEGIN, BETWEEN, BOOLEAN, CONTAINING, COUNT, DATE, DIVIDE,
    END, EQL, ERASE, FIELD, FOR, GEQ, INT64, LABEL, LEAVE, LEFT_OUT_BOOLEANS, LEFT_OUT_CLAUSES,
    LEFT_OUT_DESCRIPTORS, LEFT_OUT_LITERALS, LEFT_OUT_STATEMENTS, LEFT_OUT_STREAMS,
    LEFT_OUT_VALUES, LITERAL, LOOP, MATCHING, MAXIMUM, MINIMUM, MISSING, MODIFY, MULTIPLY, NEGATE,
    PARAMETER2, RECEIVE, RELATION, RID, RSE, SELECT, SEND, SHORT, SORT, STARTING, STORE, TEXT,
    TOTAL, UNIQUE, VERSION4,
};

/// The refusals of a reading; those that have many causes come more than once.
pub const NUMBERS: [u32; 22] =
    [1, 6, 9, 14, 2, 7, 11, 13, 3, 8, 12, 14, 4, 6, 16, 13, 5, 7, 10, 14, 15, 11];

/// Message declarations, and statements of which each is refused behind them.
type Faults = (Vec<u8>, Vec<Vec<u8>>);

/// A reading that is refused with a number from 1 to 16.
pub fn refused(rng: &mut Rng, size: Size, number: u32, turn: usize) -> Case {
    let mut case = attempt(rng, size, number, turn);
    for _ in 0..60 {
        if refusal_number(&case) == Some(number) {
            break;
        }
        case = attempt(rng, size, number, turn);
    }
    case
}

/// The number with which a reading is refused; 1 by the lengths of the tables.
fn refusal_number(case: &Case) -> Option<u32> {
    match case {
        Case::Read { lengths, .. } if (0..3).any(|table| lengths[table] < TABLE_LENGTHS[table]) => {
            Some(1)
        }
        _ => {
            let (dictionary, request) = case.bytes();
            reader::parse(request, dictionary).err().map(|refusal| refusal.number)
        }
    }
}

/// One attempt at a refusal.
fn attempt(rng: &mut Rng, size: Size, number: u32, turn: usize) -> Case {
    let written = match number {
        9 if turn.is_multiple_of(2) => Some(wrong_messages(rng)),
        11 if turn.is_multiple_of(2) => Some(wrong_contexts(rng)),
        6 if turn.is_multiple_of(2) => Some(codes_not_due(rng)),
        7 if turn.is_multiple_of(3) => Some(left_out_clause(rng)),
        13 => Some(no_fit(rng)),
        14 => Some(wrong_statements(rng)),
        _ => None,
    };
    match (written, number) {
        (Some(request), _) => read(&house(), request),
        (None, 1) => short_tables(rng, size),
        (None, 3) => bad_dictionary(rng, size, turn),
        (None, 8) => too_many(rng, size),
        _ => changed(rng, size, number),
    }
}

/// A reading with tables of the least lengths.
fn read(dictionary: &Dictionary, request: Vec<u8>) -> Case {
    Case::Read { dictionary: dictionaries::encode(dictionary), request, lengths: TABLE_LENGTHS }
}

/// A request of every construct beside a dictionary.
fn draft(rng: &mut Rng, dictionary: &Dictionary, size: Size) -> Draft {
    let focus = rng.pick(&foci());
    builder::request(rng, dictionary, size, focus, false)
}

/// 1: one table or more too short.
fn short_tables(rng: &mut Rng, size: Size) -> Case {
    let dictionary = dictionaries::proper(rng, size);
    let request = draft(rng, &dictionary, size).bytes;
    let mut lengths = TABLE_LENGTHS;
    let table = rng.below(3);
    lengths[table] -= rng.pick(&[1, 1, 2, lengths[table]]);
    Case::Read { dictionary: dictionaries::encode(&dictionary), request, lengths }
}

/// 3: a dictionary that breaks a rule.
pub fn bad_dictionary(rng: &mut Rng, size: Size, turn: usize) -> Case {
    let dictionary = dictionaries::proper(rng, size);
    let request = draft(rng, &dictionary, size).bytes;
    let damaged = dictionaries::damaged(rng, &dictionary, turn);
    Case::Read { dictionary: damaged, request, lengths: TABLE_LENGTHS }
}

/// 8: a greatest size passed.
fn too_many(rng: &mut Rng, size: Size) -> Case {
    let mut cases = boundaries::request_sizes(size);
    let at = rng.below(cases.len());
    cases.swap_remove(at)
}

/// A request of every construct with one thing changed.
fn changed(rng: &mut Rng, size: Size, number: u32) -> Case {
    let dictionary = dictionaries::proper(rng, size);
    let draft = draft(rng, &dictionary, size);
    let mut request = draft.bytes.clone();
    match number {
        2 => request.resize(rng.pick(&[65_536, 65_537, 70_000]), rng.pick(&[0, 2, 255])),
        4 => request.truncate(rng.below(draft.bytes.len())),
        5 => request[0] = rng.pick(&[0, 3, 6, 252, 255]),
        6 => change_code(rng, &draft, &mut request, |_| &[0, 4, 16, 46, 64, 80, 254]),
        7 => change_code(rng, &draft, &mut request, left_out),
        9 => change(rng, &draft, &mut request, Mark::Message, &[14, 200, 254]),
        10 => change(rng, &draft, &mut request, Mark::Parameter, &[3, 12, 128, 255]),
        11 => change(rng, &draft, &mut request, Mark::Context, &[0, 1, 77, 254]),
        12 => change_name(rng, &draft, &mut request),
        15 => request.extend((0..rng.between(1, 3)).map(|_| rng.byte())),
        _ => change_range(rng, &draft, &mut request),
    }
    read(&dictionary, request)
}

/// Sets a marked byte to one of several.
fn change(rng: &mut Rng, draft: &Draft, request: &mut [u8], mark: Mark, bytes: &[u8]) {
    let places = draft.places(mark);
    if !places.is_empty() {
        request[rng.pick(&places)] = rng.pick(bytes);
    }
}

/// Changes the first byte of a name or the high byte of an id.
fn change_name(rng: &mut Rng, draft: &Draft, request: &mut [u8]) {
    let mark = rng.pick(&[Mark::Field, Mark::Field, Mark::Relation]);
    let places = draft.places(mark);
    if !places.is_empty() {
        request[rng.pick(&places) + 1] ^= rng.pick(&[1, 32, 128]);
    }
}

/// Sets a scale, a text size, or a count of streams or sort values out of range.
fn change_range(rng: &mut Rng, draft: &Draft, request: &mut [u8]) {
    match rng.below(3) {
        0 => change(rng, draft, request, Mark::Scale, &[1, 237, 246, 127, 128]),
        1 => change(rng, draft, request, Mark::Count, &[0, 9, 255]),
        _ => change(rng, draft, request, Mark::Size, &[0]),
    }
}

/// The parts that a code may have.
const ROLES: [Role; 9] = [
    Role::Statement,
    Role::Descriptor,
    Role::Value,
    Role::Literal,
    Role::Target,
    Role::Boolean,
    Role::Stream,
    Role::Clause,
    Role::Order,
];

/// Sets a code to one of several, which may hang on its part.
fn change_code(rng: &mut Rng, draft: &Draft, request: &mut [u8], codes: fn(Role) -> &'static [u8]) {
    let role = rng.pick(&ROLES);
    change(rng, draft, request, Mark::Code(role), codes(role));
}

/// The codes left out of a part.
fn left_out(role: Role) -> &'static [u8] {
    match role {
        Role::Statement => &LEFT_OUT_STATEMENTS,
        Role::Descriptor => &LEFT_OUT_DESCRIPTORS,
        Role::Value => &LEFT_OUT_VALUES,
        Role::Literal => &LEFT_OUT_LITERALS,
        Role::Boolean => &LEFT_OUT_BOOLEANS,
        Role::Stream => &LEFT_OUT_STREAMS,
        Role::Clause => &LEFT_OUT_CLAUSES,
        Role::Target => &LEFT_OUT_VALUES,
        Role::Order => &LEFT_OUT_CLAUSES,
    }
}

/// One of several requests, its statements inside up to two others.
fn one_of(rng: &mut Rng, messages: &[u8], statements: Vec<Vec<u8>>) -> Vec<u8> {
    let at = rng.below(statements.len());
    let mut statement = statements[at].clone();
    for _ in 0..rng.below(3) {
        let label = rng.pick(&[8, 9]);
        statement = match rng.below(3) {
            0 => [&[LOOP], &statement[..]].concat(),
            1 => [&[BEGIN], &statement[..], &[END]].concat(),
            _ => [&[LABEL, label], &statement[..]].concat(),
        };
    }
    assemble::request(&[messages, &statement])
}

/// 6: codes at places that the marks don't reach.
fn codes_not_due(rng: &mut Rng) -> Vec<u8> {
    let statement = rng.pick(&[3, 6, 14, 18, 19, 255]);
    let requests = [
        assemble::request(&[&NOTHING, &message(0, &[])]),
        vec![VERSION4, rng.pick(&[1, 3, 4, 6, 76, 255])],
        vec![VERSION4, BEGIN, END, rng.pick(&[0, 67, 79, 255])],
        assemble::request(&[&message(0, &[]), &[SELECT, statement, 0, BEGIN, END, END]]),
        assemble::request(&[&[SELECT, END]]),
        assemble::request(&[&[FOR, RELATION, 1]]),
        assemble::request(&[&for_loop(&[&rid(1, 0)], &[SORT, 1, BOOLEAN], &NOTHING)]),
        assemble::request(&[&two_clauses(BOOLEAN)]),
        assemble::request(&[&two_clauses(SORT)]),
        assemble::request(&[&later_types()[rng.below(3)]]),
        assemble::request(&[&condition(&[rng.pick(&[ANY, UNIQUE]), RID, 1, 0, 0])]),
    ];
    let at = rng.below(requests.len());
    requests[at].clone()
}

/// Parts of a request with type 16 in a message and in a literal, which version 4 does not have.
fn later_types() -> [Vec<u8>; 3] {
    let literal = int64(0, 1);
    [
        message(0, &[&[SHORT, 0], &[INT64, 0]]),
        condition(&operator(EQL, &[&literal, &literal])),
        for_loop(&[&rid(1, 0)], &[&[SORT, 1, ASCENDING], &literal[..]].concat(), &NOTHING),
    ]
}

/// An rse with one clause twice.
fn two_clauses(code: u8) -> Vec<u8> {
    let clause = match code {
        BOOLEAN => [vec![BOOLEAN], operator(EQL, &[&short(0, 1), &short(0, 1)])].concat(),
        _ => [vec![SORT, 1, ASCENDING], short(0, 1)].concat(),
    };
    for_loop(&[&rid(1, 0)], &clause.repeat(2), &NOTHING)
}

/// 7: a left-out clause, also after both others.
fn left_out_clause(rng: &mut Rng) -> Vec<u8> {
    let boolean = [vec![BOOLEAN], operator(EQL, &[&short(0, 1), &short(0, 1)])].concat();
    let sort = [vec![SORT, 1, ASCENDING], short(0, 1)].concat();
    let before = match rng.below(3) {
        0 => Vec::new(),
        1 => sort,
        _ => [boolean, sort].concat(),
    };
    let clauses = [before, vec![rng.pick(&LEFT_OUT_CLAUSES)]].concat();
    assemble::request(&[&for_loop(&[&rid(1, 0)], &clauses, &NOTHING)])
}

/// 9: a message declared twice, selected twice, undeclared.
fn wrong_messages(rng: &mut Rng) -> Vec<u8> {
    let (declared, statements) = message_faults();
    if rng.one_in(4) {
        return assemble::request(&[&declared, &message(3, &[])]);
    }
    one_of(rng, &declared, statements)
}

/// Statements that name a message which is not declared, or one twice, behind a message.
fn message_faults() -> Faults {
    let declared = message(3, &[&[SHORT, 0]]);
    let select = [&[SELECT, RECEIVE, 3][..], &NOTHING, &[RECEIVE, 3], &NOTHING, &[END]].concat();
    let statements = vec![
        select,
        [&[SELECT, RECEIVE, 3][..], &NOTHING, &[RECEIVE, 4], &NOTHING, &[END]].concat(),
        [&[SEND, 4][..], &NOTHING].concat(),
        [&[RECEIVE, 0][..], &NOTHING].concat(),
        condition(&operator(EQL, &[&parameter(3, 0), &parameter(0, 0)])),
        [&[SEND, 3][..], &assignment(&short(0, 1), &parameter(2, 0))].concat(),
    ];
    (declared, statements)
}

/// 11: a context declared again, out of scope, or not yet in scope.
fn wrong_contexts(rng: &mut Rng) -> Vec<u8> {
    let faults = [context_faults(), statistic_contexts()].concat();
    one_of(rng, &[], faults)
}

/// Statements that name a context which is not in scope, or declare one that is.
fn context_faults() -> Vec<Vec<u8>> {
    vec![
        for_loop(&[&rid(1, 0), &rid(1, 0)], &[], &NOTHING),
        for_house(&for_house(&NOTHING)),
        for_house(&[&[STORE][..], &rid(1, 0), &NOTHING].concat()),
        for_house(&[&[MODIFY, 0, 0][..], &NOTHING].concat()),
        for_house(&[&[MODIFY, 1, 0][..], &NOTHING].concat()),
        [&[BEGIN], &for_house(&NOTHING)[..], &[ERASE, 0, END]].concat(),
        [&[BEGIN, STORE][..], &rid(1, 2), &NOTHING, &[ERASE, 2, END]].concat(),
        for_house(&assignment(&fid(2, 0), &fid(0, 0))),
        condition(&operator(EQL, &[&fid(0, 1), &fid(1, 1)])),
        vec![ERASE, 7],
        condition(&over(ANY, &rid(1, 0), &[])),
        condition(&operator(AND, &[&over(ANY, &rid(1, 4), &[]), &field_of(4)])),
        condition(&over(UNIQUE, &rid(1, 4), &[&[BOOLEAN], &field_of(5)[..]].concat())),
        condition(&over(
            ANY,
            &rid(1, 4),
            &[&[BOOLEAN], &over(UNIQUE, &rid(1, 4), &[])[..]].concat(),
        )),
    ]
}

/// Tests of statistics over a text or a date, and one whose context ends with its number.
fn statistic_faults(words: u8) -> Vec<Vec<u8>> {
    let test = |value: Vec<u8>| condition(&operator(MISSING, &[&value]));
    let over = |code: u8, number: &[u8]| test(statistic(code, &rid(1, 4), &[], number));
    let mut faults: Vec<Vec<u8>> = [AVERAGE, MAXIMUM, MINIMUM, TOTAL]
        .iter()
        .flat_map(|code| [over(*code, &fid(4, words)), over(*code, &fid(4, 6))])
        .collect();
    let count = statistic(COUNT, &rid(1, 4), &[], &[]);
    faults.push(test(operator(ADD, &[&count, &text(b"a")])));
    faults
}

/// Statements that name the context of a statistic behind its end, or declare it again inside.
fn statistic_contexts() -> Vec<Vec<u8>> {
    let count = statistic(COUNT, &rid(1, 4), &[], &[]);
    let total = statistic(TOTAL, &rid(1, 4), &[], &fid(4, 0));
    vec![
        condition(&operator(EQL, &[&count, &fid(4, 0)])),
        condition(&operator(EQL, &[&total, &fid(4, 0)])),
        condition(&operator(MISSING, &[&statistic(TOTAL, &rid(1, 4), &[], &count)])),
        condition(&operator(MISSING, &[&statistic(AVERAGE, &rid(1, 0), &[], &fid(0, 0))])),
    ]
}

/// A test of a field of a context.
fn field_of(context: u8) -> Vec<u8> {
    operator(MISSING, &[&fid(context, 0)])
}

/// 13: kinds and scales that don't fit.
fn no_fit(rng: &mut Rng) -> Vec<u8> {
    let field = rng.pick(&[0, 1, 2]);
    let words = rng.pick(&[3, 4, 5]);
    let (messages, mut statements) = fit_faults(field, words);
    statements.extend(later_fields());
    statements.extend(statistic_faults(words));
    one_of(rng, &messages, statements)
}

/// Statements whose kinds or scales don't fit, with a number field and a text field of `house`.
fn fit_faults(field: u8, words: u8) -> Faults {
    let number = short(-1, 3);
    let letters = text(b"ab");
    let scale = assemble::scale_18(1);
    let messages = message(0, &[&[SHORT, 0], &[TEXT, 2, 0], &[DATE]]);
    let value = |value: Vec<u8>| condition(&operator(EQL, &[&value, &number]));
    let test = |code: u8, operands: &[&[u8]]| condition(&operator(code, operands));
    let send = |from: &[u8], to: &[u8]| [&[SEND, 0], &assignment(from, to)[..]].concat();
    let statements = vec![
        test(EQL, &[&fid(0, field), &letters]),
        test(GEQ, &[&letters, &fid(0, 6)]),
        test(BETWEEN, &[&number, &fid(0, field), &letters]),
        test(BETWEEN, &[&fid(0, words), &number, &letters]),
        test(CONTAINING, &[&fid(0, words), &number]),
        test(MATCHING, &[&fid(0, field), &letters]),
        test(STARTING, &[&fid(0, 6), &fid(0, 6)]),
        value(operator(ADD, &[&number, &fid(0, words)])),
        value(operator(DIVIDE, &[&fid(0, 6), &number])),
        value(operator(NEGATE, &[&fid(0, words)])),
        value(operator(MULTIPLY, &[&scale, &number])),
        value(operator(DIVIDE, &[&short(0, 4), &number])),
        value(operator(DIVIDE, &[&fid(0, 2), &short(-2, 4)])),
        test(EQL, &[&[PARAMETER2, 0, 0, 0, 1, 0], &number]),
        test(EQL, &[&number, &[PARAMETER2, 0, 0, 0, 2, 0]]),
        send(&number, &parameter(0, 1)),
        send(&letters, &parameter(0, 0)),
        send(&parameter(0, 2), &[PARAMETER2, 0, 1, 0, 0, 0]),
        send(&number, &[PARAMETER2, 0, 0, 0, 2, 0]),
        for_house(&[&[MODIFY, 0, 1], &assignment(&letters, &fid(1, field))[..]].concat()),
    ];
    (messages, statements)
}

/// Statements of version 4 that name the field of type 16 of `house`.
fn later_fields() -> Vec<Vec<u8>> {
    let number = short(-1, 3);
    vec![
        condition(&operator(EQL, &[&number, &fid(0, 7)])),
        condition(&operator(MISSING, &[&[FIELD, 0, 1, b'I']])),
        for_loop(&[&rid(1, 0)], &[&[SORT, 1, ASCENDING], &fid(0, 7)[..]].concat(), &NOTHING),
        for_house(&[&[MODIFY, 0, 1], &assignment(&number, &fid(1, 7))[..]].concat()),
    ]
}

/// 14: contexts not of a for, wrong targets, conversations in updates, leaves outside labels.
fn wrong_statements(rng: &mut Rng) -> Vec<u8> {
    let (messages, statements) = statement_faults(rng.pick(&[0, 1, 7]));
    one_of(rng, &messages, statements)
}

/// Statements that may not stand where they do; `leave` is the number of a label that is not around.
fn statement_faults(leave: u8) -> Faults {
    let messages = [message(0, &[&[SHORT, 0]]), message(1, &[&[SHORT, 0]])].concat();
    let number = short(0, 1);
    let store =
        |context: u8, statement: &[u8]| [&[STORE], &rid(1, context)[..], statement].concat();
    let modify = |statement: &[u8]| for_house(&[&[MODIFY, 0, 1], statement].concat());
    let send = |message: u8, statement: &[u8]| [&[SEND, message], statement].concat();
    let to = |target: &[u8]| assignment(&number, target);
    let statements = vec![
        store(0, &[ERASE, 0]),
        store(0, &[&[MODIFY, 0, 1], &NOTHING[..]].concat()),
        modify(&[ERASE, 1]),
        modify(&[&[BEGIN, LOOP], &send(0, &NOTHING)[..], &[END]].concat()),
        modify(&[&[RECEIVE, 1], &NOTHING[..]].concat()),
        store(2, &[&[SELECT, RECEIVE, 5], &NOTHING[..], &[END]].concat()),
        store(2, &send(9, &NOTHING)),
        vec![LEAVE, leave],
        [&[BEGIN, LABEL, leave][..], &NOTHING, &[LEAVE, leave, END]].concat(),
        vec![LABEL, 3, LEAVE, leave],
        for_house(&to(&fid(0, 0))),
        modify(&to(&fid(0, 0))),
        store(0, &store(1, &to(&fid(0, 9)))),
        [&[BEGIN][..], &store(0, &NOTHING), &for_house(&to(&fid(0, 0))), &[END]].concat(),
        to(&parameter(0, 0)),
        send(0, &to(&parameter(1, 0))),
        [&[RECEIVE, 0][..], &to(&parameter(0, 5))].concat(),
        [&[BEGIN][..], &send(0, &NOTHING), &to(&[PARAMETER2, 0, 0, 0, 0, 0]), &[END]].concat(),
    ];
    (messages, statements)
}

/// Every fault of messages, contexts, fits and statements once, and every left-out code in its place.
pub fn written() -> Vec<Case> {
    let faults = [
        message_faults(),
        (Vec::new(), context_faults()),
        fit_faults(1, 4),
        fit_faults(2, 3),
        (Vec::new(), later_fields()),
        (Vec::new(), statistic_faults(3)),
        (Vec::new(), statistic_contexts()),
        statement_faults(7),
    ];
    let mut cases = Vec::new();
    for (messages, statements) in &faults {
        let request = |statement: &Vec<u8>| assemble::request(&[messages, statement]);
        cases.extend(statements.iter().map(|statement| read(&house(), request(statement))));
    }
    cases.extend(later_types().iter().map(|part| read(&house(), assemble::request(&[part]))));
    cases.extend(left_out_codes().iter().map(|part| read(&house(), assemble::request(&[part]))));
    cases
}

/// Parts of a request with a left-out code, each in its place, and in those of a target, a receive, a direction.
fn left_out_codes() -> Vec<Vec<u8>> {
    let value = |code: u8| condition(&operator(EQL, &[&[code]]));
    let literal = |code: u8| condition(&operator(EQL, &[&[LITERAL, code]]));
    let clause = |code: u8| for_loop(&[&rid(1, 0)], &[code], &NOTHING);
    let part = |role: Role, code: u8| match role {
        Role::Statement => vec![code],
        Role::Descriptor => message(0, &[&[code]]),
        Role::Value => value(code),
        Role::Literal => literal(code),
        Role::Boolean => condition(&[code]),
        Role::Stream => vec![FOR, RSE, 1, code],
        Role::Clause => clause(code),
        Role::Target => assignment(&short(0, 1), &[code]),
        Role::Order => for_loop(&[&rid(1, 0)], &[SORT, 1, code], &NOTHING),
    };
    let mut parts = Vec::new();
    for role in ROLES {
        parts.extend(left_out(role).iter().map(|code| part(role, *code)));
    }
    parts
}
