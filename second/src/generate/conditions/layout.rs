//! Where things stand: records of several contexts, images of several messages, missing bits,
//! conditions with numbers, names, and conditions inside every statement.

use super::sheet::{
    cstring, date, long, reading, record, relation, short, slices, text, varying, FieldValue,
    Stored,
};
use crate::dictionary::Dictionary;
use crate::generate::assemble::{
    self, assignment, fid, for_loop, message, operator, parameter, rid, NOTHING,
};
use crate::generate::dictionaries;
use crate::generate::Case;
use crate::wire::{
    AND, ASCENDING, BEGIN, BOOLEAN, DESCENDING, DIVIDE, END, EQL, ERASE, FIELD, GTR, HANDLER, IF,
    LABEL, LEAVE, LONG, LOOP, LSS, MISSING, MODIFY, NOT, PARAMETER2, RECEIVE, RELATION, SELECT,
    SEND, SHORT, SORT, STORE, TEXT,
};

/// A house of two relations, with a record of each.
struct House {
    dictionary: Vec<u8>,
    first: Vec<u8>,
    second: Vec<u8>,
}

/// Relation 1: a short and a long. Relation 3: a varying, a short, a reading.
fn house(first: [FieldValue; 2], second: [FieldValue; 3]) -> House {
    let relations = vec![relation(1, &first), relation(3, &second)];
    let (first, second) = (record(&relations[0], &first), record(&relations[1], &second));
    House { dictionary: dictionaries::encode(&Dictionary { relations }), first, second }
}

/// A house whose numbers all differ.
fn numbered(number: i16) -> House {
    house(
        [(short(0, number), false), (long(-1, i32::from(number) + 1), false)],
        [(varying(1, b"ab"), false), (short(0, number + 2), false), (reading(0, 65_535), false)],
    )
}

/// An evaluation without messages.
fn evaluation(house: &House, request: &[u8], condition: usize, records: &[&[u8]]) -> Case {
    Case::Evaluate {
        dictionary: house.dictionary.clone(),
        request: assemble::request(&[request]),
        condition,
        messages: Vec::new(),
        records: records.concat(),
        runs: Vec::new(),
    }
}

/// A test of a value against a short.
fn is(value: &[u8], number: i16) -> Vec<u8> {
    operator(EQL, &[value, &assemble::short(0, number)])
}

/// An if with a boolean.
fn when(boolean: &[u8]) -> Vec<u8> {
    [&[IF], boolean, &NOTHING, &[END]].concat()
}

/// The records of two streams, whose contexts are numbered against their order.
pub fn streams() -> Vec<Case> {
    let house = numbered(10);
    let other = numbered(20);
    let mut cases = Vec::new();
    let tests = [
        is(&fid(5, 0), 10),
        is(&fid(5, 0), 22),
        is(&fid(2, 1), 12),
        is(&fid(2, 1), 22),
        operator(MISSING, &[&fid(2, 2)]),
        operator(LSS, &[&fid(5, 1), &fid(2, 1)]),
        operator(EQL, &[&fid(2, 0), &assemble::text(b"a")]),
    ];
    for boolean in &tests {
        let clauses = [&[BOOLEAN], &boolean[..]].concat();
        let streams = [rid(1, 5), rid(3, 2)];
        let request = for_loop(&slices(&streams), &clauses, &NOTHING);
        cases.push(evaluation(&house, &request, 0, &[&house.first, &house.second]));
        cases.push(evaluation(&house, &request, 0, &[&house.first, &other.second]));
    }
    // Both streams of one relation.
    for boolean in [is(&fid(0, 0), 10), is(&fid(1, 0), 10), is(&fid(1, 0), 20)] {
        let clauses = [&[BOOLEAN], &boolean[..]].concat();
        let request = for_loop(&[&rid(1, 0), &rid(1, 1)], &clauses, &NOTHING);
        cases.push(evaluation(&house, &request, 0, &[&house.first, &other.first]));
    }
    cases
}

/// The records of a for, a modify in it, a store, and a for after another.
pub fn contexts() -> Vec<Case> {
    let (house, other) = (numbered(10), numbered(20));
    let mut cases = Vec::new();
    for number in [10, 20] {
        for context in [0, 1] {
            let test = when(&is(&fid(context, 0), number));
            let modify = [&[MODIFY, 0, 1], &test[..]].concat();
            let request = for_loop(&[&rid(1, 0)], &[], &modify);
            cases.push(evaluation(&house, &request, 0, &[&house.first, &other.first]));
            let store = [&[STORE], &rid(1, 1)[..], &test].concat();
            let request = for_loop(&[&rid(1, 0)], &[], &store);
            cases.push(evaluation(&house, &request, 0, &[&house.first, &other.first]));
            let inner = for_loop(&[&rid(1, 1)], &[], &test);
            let request = for_loop(&[&rid(1, 0)], &[], &inner);
            cases.push(evaluation(&house, &request, 0, &[&house.first, &other.first]));
        }
    }
    // A context whose scope has ended has no record; its number may come again.
    let over = for_loop(&[&rid(3, 0)], &[], &NOTHING);
    for number in [10, 12] {
        let again = for_loop(&[&rid(1, 0)], &[], &when(&is(&fid(0, 0), number)));
        cases.push(evaluation(&house, &[over.clone(), again].concat(), 0, &[&house.first]));
        let stored = [&[STORE], &rid(3, 4)[..], &NOTHING].concat();
        let test = when(&is(&fid(0, 0), number));
        let body = [vec![BEGIN], stored, test, vec![END]].concat();
        cases.push(evaluation(&house, &for_loop(&[&rid(1, 0)], &[], &body), 0, &[&house.first]));
    }
    cases
}

/// Relations and fields by their names.
pub fn names() -> Vec<Case> {
    let house = numbered(10);
    let mut cases = Vec::new();
    // The relations are named B and D, their fields A, B and C.
    for (name, letter, field, number) in
        [(b'B', b'A', 0, 10), (b'B', b'B', 1, 1), (b'D', b'B', 1, 12), (b'D', b'B', 1, 10)]
    {
        let record = if name == b'B' { &house.first } else { &house.second };
        let named = vec![FIELD, 7, 1, letter];
        for value in [named, fid(7, field)] {
            let clauses = [&[BOOLEAN], &is(&value, number)[..]].concat();
            let request = for_loop(&[&[RELATION, 1, name, 7]], &clauses, &NOTHING);
            cases.push(evaluation(&house, &request, 0, &[record]));
        }
    }
    cases
}

/// Ten fields with a missing bit each: bits of both bytes, first and last.
pub fn bits() -> Vec<Case> {
    let mut cases = Vec::new();
    for set in [vec![0], vec![1], vec![7], vec![8], vec![9], vec![0, 9], vec![2, 5, 8]] {
        let fields: Vec<FieldValue> =
            (0..10).map(|n| (short(0, n as i16), set.contains(&n))).collect();
        let relation = relation(1, &fields);
        let records = record(&relation, &fields);
        let dictionary = dictionaries::encode(&Dictionary { relations: vec![relation] });
        for field in [set[0], (set[0] + 8) % 10] {
            let boolean = is(&fid(0, field as u8), field as i16);
            cases.push(Case::Evaluate {
                dictionary: dictionary.clone(),
                request: assemble::request(&[&assemble::condition(&boolean)]),
                condition: 0,
                messages: Vec::new(),
                records: records.clone(),
                runs: Vec::new(),
            });
        }
    }
    cases
}

/// A value of every type, the one that a message has at its place.
fn parts() -> [Stored; 7] {
    [
        short(0, 3),
        long(0, -70_000),
        date(-1, 7),
        text(b"abc"),
        varying(1, b"xyz"),
        cstring(b"q\0r"),
        short(-1, 50),
    ]
}

/// An evaluation of an if over messages, each a number with its parameters.
fn over_messages(messages: &[(u8, Vec<Stored>)], boolean: &[u8]) -> Case {
    let declared = messages.iter().map(|(number, parameters)| {
        let descriptors: Vec<Vec<u8>> = parameters.iter().map(Stored::descriptor).collect();
        message(*number, &slices(&descriptors))
    });
    let declared: Vec<u8> = declared.flatten().collect();
    let images = messages.iter().flat_map(|(_, parameters)| parameters);
    Case::Evaluate {
        dictionary: Vec::new(),
        request: assemble::request(&[&declared, &when(boolean)]),
        condition: 0,
        messages: images.flat_map(|stored| stored.bytes.clone()).collect(),
        records: Vec::new(),
        runs: Vec::new(),
    }
}

/// Parameters behind those of every type, and those of a later message with a smaller number.
pub fn messages() -> Vec<Case> {
    let mut cases = Vec::new();
    for part in parts() {
        // The flag stands behind the part, the value before it.
        let first = vec![short(0, 8), part.clone(), short(0, 9)];
        let messages = [(4, first.clone()), (1, vec![part.clone(), short(0, 5), short(0, 0)])];
        for (number, place, value) in [(4, 2, 9), (1, 1, 5), (4, 0, 5), (1, 1, 9)] {
            cases.push(over_messages(&messages, &is(&parameter(number, place), value)));
        }
        let missing = |flag: u8| operator(MISSING, &[&[PARAMETER2, 4, 0, 0, flag, 0]]);
        cases.push(over_messages(&[(4, first.clone())], &missing(2)));
        let own = operator(MISSING, &[&[PARAMETER2, 1, 1, 0, 2, 0]]);
        cases.push(over_messages(&[(0, first), messages[1].clone()], &own));
    }
    cases
}

/// Conditions in their order: an rse's, those of ifs, none inside another.
pub fn numbers() -> Vec<Case> {
    let house = numbered(10);
    let truth = |truth: bool| is(&assemble::short(0, 1), if truth { 1 } else { 2 });
    let both = operator(AND, &[&truth(true), &operator(NOT, &[&truth(false)])]);
    let clauses = [&[SORT, 1, DESCENDING], &fid(0, 0)[..], &[BOOLEAN], &both].concat();
    let inner = [vec![IF], truth(false), when(&is(&fid(0, 0), 10)), when(&truth(false))].concat();
    let each = for_loop(&[&rid(1, 0)], &clauses, &inner);
    let after = when(&operator(GTR, &[&assemble::short(0, 1), &assemble::short(0, 1)]));
    let request = [when(&truth(true)), each, after].concat();
    let cases = (0..6).map(|condition| {
        let in_scope = (1..5).contains(&condition);
        let records: &[&[u8]] = if in_scope { &[&house.first] } else { &[] };
        evaluation(&house, &request, condition, records)
    });
    cases.collect()
}

/// Statements that a condition may stand in or after.
fn statements(test: &[u8]) -> Vec<Vec<u8>> {
    let number = assemble::short(0, 1);
    let sort = [&[SORT, 2, ASCENDING], &number[..], &[DESCENDING], &number].concat();
    let send = [&[SEND, 0], &assignment(&number, &parameter(0, 0))[..]].concat();
    let erase = for_loop(&[&rid(1, 9)], &sort, &[ERASE, 9]);
    let modify = [&[MODIFY, 9, 8], &assignment(&number, &fid(8, 0))[..]].concat();
    let modify = for_loop(&[&[RELATION, 1, b'B', 9]], &[], &modify);
    let store = [&[STORE], &rid(1, 8)[..], &assignment(&number, &fid(8, 1))].concat();
    let select = [&[SELECT, RECEIVE, 0][..], &NOTHING, &[RECEIVE, 1], test, &[END]].concat();
    vec![
        test.to_vec(),
        [&[BEGIN, BEGIN, END][..], test, &[END]].concat(),
        [&[LOOP], test].concat(),
        [&[HANDLER], test].concat(),
        [&[LABEL, 7], test].concat(),
        [&[BEGIN, LABEL, 7, LEAVE, 7][..], test, &[END]].concat(),
        [&[RECEIVE, 1], test].concat(),
        [&[SEND, 0], test].concat(),
        select,
        [send, test.to_vec()].concat(),
        [erase, test.to_vec()].concat(),
        [modify, test.to_vec()].concat(),
        [store, test.to_vec()].concat(),
    ]
}

/// Two messages for `statements`, and their images with a value.
fn exchange(value: i32) -> (Vec<u8>, Vec<u8>) {
    let declared = [message(0, &[&[SHORT, 0]]), message(1, &[&[LONG, 255], &[TEXT, 1, 0]])];
    (declared.concat(), [&[7, 0], &value.to_le_bytes()[..], b"x"].concat())
}

/// The first condition of a statement that stands after the messages of `exchange`.
fn among_messages(statement: &[u8], value: i32, records: &[&[u8]]) -> Case {
    let (declared, messages) = exchange(value);
    Case::Evaluate {
        dictionary: numbered(10).dictionary,
        request: assemble::request(&[&declared, statement]),
        condition: 0,
        messages,
        records: records.concat(),
        runs: Vec::new(),
    }
}

/// A condition inside or after every statement, its value being a parameter.
pub fn inside() -> Vec<Case> {
    let test = when(&is(&parameter(1, 0), 4));
    let statements = statements(&test).into_iter().enumerate();
    let value = |turn: usize| if turn.is_multiple_of(2) { 40 } else { -40 };
    statements.map(|(turn, statement)| among_messages(&statement, value(turn), &[])).collect()
}

/// A condition that is refused, whose place depends on what stands before it.
pub fn places() -> Vec<Case> {
    let quotient = operator(DIVIDE, &[&parameter(1, 0), &assemble::short(0, 0)]);
    let refused = is(&quotient, 4);
    let test = when(&refused);
    let mut cases: Vec<Case> = statements(&test)
        .into_iter()
        .map(|statement| among_messages(&statement, 40, &[]))
        .collect();
    let house = numbered(10);
    let sort = [&[SORT, 2, ASCENDING], &fid(0, 0)[..], &[DESCENDING], &fid(0, 1)].concat();
    let clause = [&[BOOLEAN], &refused[..]].concat();
    for clauses in [[clause.clone(), sort.clone()].concat(), [sort, clause].concat()] {
        for stream in [rid(1, 0), vec![RELATION, 1, b'B', 0]] {
            let request = for_loop(&[&stream], &clauses, &NOTHING);
            cases.push(among_messages(&request, 40, &[&house.first]));
        }
    }
    let modify = for_loop(&[&rid(1, 0)], &[], &[&[MODIFY, 0, 1], &test[..]].concat());
    cases.push(among_messages(&modify, 40, &[&house.first, &house.first]));
    let store = [&[STORE], &rid(1, 2)[..], &test].concat();
    cases.push(among_messages(&store, 40, &[&house.first]));
    cases.extend(branches(&refused));
    cases
}

/// A refused condition in the first and the second branch of an if, and after it.
fn branches(refused: &[u8]) -> Vec<Case> {
    let one = assemble::short(0, 1);
    let first = operator(EQL, &[&one, &one]);
    let (test, other) = (when(refused), NOTHING.to_vec());
    let statements = [
        [vec![IF], first.clone(), test.clone(), vec![END]].concat(),
        [vec![IF], first.clone(), test.clone(), other.clone()].concat(),
        [vec![IF], first.clone(), other.clone(), test.clone()].concat(),
        [vec![IF], first.clone(), other.clone(), other, test].concat(),
    ];
    let second = |mut case: Case| {
        if let Case::Evaluate { condition, .. } = &mut case {
            *condition = 1;
        }
        case
    };
    statements.iter().map(|statement| second(among_messages(statement, 40, &[]))).collect()
}
