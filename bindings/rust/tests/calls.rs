//! Requests, evaluations and stores through the crate: document 01's examples, every refusal, and that nothing traps.

use greenblr::{
    codes, record, run, Answer, Cause, Dictionary, Field, Input, Opener, Outcome, Reason, Refusal,
    Request, StatementCode, Store, Test, TestCode, Truth, Type,
};

const BEDS: &[u8] = b"\x0b\0\x01\0\x01\0\x04BEDS\
\x0f\0\x02\0\0\0\xc8\xff\x02\0\x04HEAT\
\x0f\0\x02\0\x01\0\x0e\0\x04\0\x04NAME";

const S: [u8; 41] = [
    4, 2, 4, 0, 1, 0, 7, 0, 7, 67, 1, 75, 1, 0, 0, 71, 49, 24, 0, 0, 0, 21, 7, 255, 44, 1, 255, 14,
    0, 1, 21, 7, 0, 1, 0, 25, 0, 0, 0, 255, 76,
];

fn beds() -> Dictionary<'static> {
    Dictionary::new(BEDS).expect("the dictionary is proper")
}

/// The number and the place of the refusal of S with some bytes altered.
fn refused(altered: &[(usize, u8)]) -> (u32, u64) {
    let mut bytes = S;
    for (place, byte) in altered {
        bytes[*place] = *byte;
    }
    let refusal = Request::read(&beds(), &bytes).expect_err("it is refused");
    assert_eq!(refusal.input(), Input::Request);
    (refusal.number(), refusal.place())
}

fn bed(heat: Field<'_>) -> Vec<u8> {
    record(1, &[heat, Field::Bytes(b"ABCD")])
}

#[test]
fn rows_of_s() {
    let dictionary = beds();
    let request = Request::read(&dictionary, &S).unwrap();
    assert_eq!(request.bytes(), S);
    assert_eq!(request.dictionary(), dictionary);

    let rows: Vec<_> =
        request.statements().map(|s| (s.place, s.code, s.parent, s.end, s.condition)).collect();
    assert_eq!(
        rows,
        [
            (1, StatementCode::Begin, None, 40, None),
            (8, StatementCode::For, Some(0), 39, Some(0)),
            (27, StatementCode::Send, Some(1), 39, None),
            (29, StatementCode::Assignment, Some(2), 39, None),
        ]
    );
    assert_eq!(request.statements().len(), 4);
    assert_eq!(request.statements().next_back().unwrap().place, 29);
    assert_eq!(request.statements().nth(1).unwrap().code.to_string(), "for");

    let rows: Vec<_> = request
        .parameters()
        .map(|p| (p.message, p.number, p.kind, p.scale, p.offset, p.bytes))
        .collect();
    assert_eq!(rows, [(0, 0, Type::Short, 0, 0, 2)]);

    let rows: Vec<_> =
        request.contexts().map(|c| (c.number, c.place, c.scope, c.relation, c.opener)).collect();
    assert_eq!(rows, [(0, 11, 15..39, 1, Opener::For)]);
}

#[test]
fn scales_are_signed() {
    let mut bytes = S;
    bytes[7] = 0xff;
    let dictionary = beds();
    let request = Request::read(&dictionary, &bytes).unwrap();
    assert_eq!(request.parameters().next().unwrap().scale, -1);
}

#[test]
fn document_01s_alterations() {
    assert_eq!(refused(&[(0, 3)]), (5, 0));
    assert_eq!(refused(&[(0, 6)]), (5, 0));
    assert_eq!(refused(&[(18, 1)]), (11, 18));
    assert_eq!(refused(&[(19, 1)]), (13, 16));
    assert_eq!(refused(&[(19, 2)]), (12, 19));
    assert_eq!(refused(&[(36, 5)]), (9, 36));
    assert_eq!(refused(&[(37, 1)]), (10, 37));
    assert_eq!(refused(&[(23, 0xf6)]), (16, 23));
    assert!(Request::read(&beds(), &[]).is_err_and(|r| (r.number(), r.place()) == (4, 0)));
    assert!(Request::read(&beds(), &S[..40]).is_err_and(|r| (r.number(), r.place()) == (4, 40)));
}

#[test]
fn answers_of_s() {
    let dictionary = beds();
    let request = Request::read(&dictionary, &S).unwrap();
    let answer = |heat| request.evaluate(0, &[0, 0], &bed(heat)).unwrap();
    assert_eq!(answer(Field::Reading(301)), Truth::True);
    assert_eq!(answer(Field::Reading(300)), Truth::False);
    assert_eq!(answer(Field::Reading(65534)), Truth::True);
    assert_eq!(answer(Field::Reading(65535)), Truth::Missing(Cause::Reading));
    assert_eq!(answer(Field::Missing(2)), Truth::Missing(Cause::Bit));
    assert!(answer(Field::Reading(301)).is_true());
    assert!(!answer(Field::Reading(65535)).is_true());
    assert_eq!(answer(Field::Reading(65535)).cause(), Some(Cause::Reading));
    assert_eq!(answer(Field::Reading(65535)).to_string(), "missing");
}

/// 02, No. 8: S with byte 0 at 5 is accepted, and nothing of it differs.
#[test]
fn s_of_version_5() {
    let mut bytes = S;
    bytes[0] = codes::VERSION5;
    let dictionary = beds();
    let (four, five) = (Request::read(&dictionary, &S), Request::read(&dictionary, &bytes));
    let (four, five) = (four.unwrap(), five.unwrap());
    assert!(four.statements().eq(five.statements()));
    assert!(four.parameters().eq(five.parameters()));
    assert!(four.contexts().eq(five.contexts()));
    for heat in [Field::Reading(301), Field::Reading(300), Field::Reading(65535), Field::Missing(2)]
    {
        assert_eq!(
            five.evaluate(0, &[0, 0], &bed(heat)).unwrap(),
            four.evaluate(0, &[0, 0], &bed(heat)).unwrap()
        );
    }
}

/// Relation 1 BEDS with DROPS, a number of type 16 and scale -18.
const COUNTED: &[u8] = b"\x0b\0\x01\0\x01\0\x04BEDS\x10\0\x02\0\0\0\x10\xee\x08\0\x05DROPS";

/// A request of a version with one message, of a number of type 16 and scale -18 and a flag of type 16, that asks for the beds whose
/// drops are those of the message.
fn counted(version: u8) -> Vec<u8> {
    let mut bytes = vec![version, codes::BEGIN, codes::MESSAGE, 0, 2, 0];
    bytes.extend([codes::INT64, 0xee, codes::INT64, 0]);
    bytes.extend([codes::FOR, codes::RSE, 1, codes::RID, 1, 0, 0, codes::BOOLEAN, codes::EQL]);
    bytes.extend([codes::FID, 0, 0, 0, codes::PARAMETER2, 0, 0, 0, 1, 0, codes::END]);
    bytes.extend([codes::BEGIN, codes::END, codes::END, codes::EOC]);
    bytes
}

#[test]
fn numbers_of_eight_bytes() {
    let dictionary = Dictionary::new(COUNTED).unwrap();
    let bytes = counted(codes::VERSION5);
    let request = Request::read(&dictionary, &bytes).unwrap();
    let rows: Vec<_> =
        request.parameters().map(|p| (p.number, p.kind, p.scale, p.offset, p.bytes)).collect();
    assert_eq!(rows, [(0, Type::Int64, -18, 0, 8), (1, Type::Int64, 0, 8, 8)]);
    assert_eq!(rows[0].1.to_string(), "int64");

    let asked = |field, number: i64, flag: i64| {
        let message = [number.to_le_bytes(), flag.to_le_bytes()].concat();
        request.evaluate(0, &message, &record(1, &[field])).unwrap()
    };
    for number in [i64::MIN, -1, 0, 65535, i64::MAX] {
        assert_eq!(asked(Field::Int64(number), number, 0), Truth::True);
        assert_eq!(asked(Field::Int64(number), number ^ 1 << 62, 0), Truth::False);
        assert_eq!(asked(Field::Int64(number), number, i64::MIN), Truth::Missing(Cause::Flag));
    }
    // missing by its bit, and by nothing else
    assert_eq!(asked(Field::Missing(8), 0, 0), Truth::Missing(Cause::Bit));
    assert_eq!(asked(Field::Missing(8), 0, 1), Truth::Missing(Cause::Bit));
}

/// A store keeps a number of eight bytes as it is: only a reading is marked.
#[test]
fn numbers_of_eight_bytes_in_a_store() {
    let dictionary = Dictionary::new(COUNTED).unwrap();
    let mut buffer = [0; 10 + 2 * 15];
    let mut store = Store::make(&dictionary, &mut buffer, 1).unwrap();
    store.add(&record(1, &[Field::Int64(65535)])).unwrap();
    store.add(&record(1, &[Field::Missing(8)])).unwrap();
    assert_eq!((store.len(), store.missing_count()), (2, 1));
    assert_eq!(store.get(0).unwrap(), record(1, &[Field::Int64(65535)]));
}

#[test]
fn version_4_has_no_type_16() {
    let dictionary = Dictionary::new(COUNTED).unwrap();
    let told = |bytes: &[u8]| {
        let refusal = Request::read(&dictionary, bytes).unwrap_err();
        (refusal.reason(), refusal.place())
    };
    // in a message, at the type; in a literal, too
    assert_eq!(told(&counted(codes::VERSION4)), (Reason::NotDue, 6));
    let literal = [4, 2, 8, 61, 21, codes::INT64, 0, 0, 0, 0, 0, 0, 0, 0, 0, 2, 255, 255, 255, 76];
    assert_eq!(told(&literal), (Reason::NotDue, 5));
    assert!(Request::read(&dictionary, &[&[5], &literal[1..]].concat()).is_ok());

    // a field of it that is named, by its name and by its id, at the field code
    let named = b"\x04\x02\x07\x43\x01\x4b\x01\0\0\x47\x3d\x17\0\x05DROPS\xff\x02\xff\xff\x4c";
    assert_eq!(told(named), (Reason::Unfit, 11));
    assert!(Request::read(&dictionary, &[&[5], &named[1..]].concat()).is_ok());
    let by_id = b"\x04\x02\x07\x43\x01\x4b\x01\0\0\x47\x3d\x18\0\0\0\xff\x02\xff\xff\x4c";
    assert_eq!(told(by_id), (Reason::Unfit, 11));
    assert!(Request::read(&dictionary, &[&[5], &by_id[1..]].concat()).is_ok());

    // its relation may be gone through
    let streamed = b"\x04\x02\x07\x43\x01\x4b\x01\0\0\xff\x02\xff\xff\x4c";
    assert!(Request::read(&dictionary, streamed).is_ok());

    // a scale below -18
    let mut low = counted(codes::VERSION5);
    low[7] = 0xed;
    assert_eq!(told(&low), (Reason::OutOfRange, 7));
}

/// What an equality of a quotient of two shorts with a short comes out as, each a number and its scale, in a version.
fn quotient(version: u8, numbers: [(i16, i8); 3]) -> Result<Truth, Refusal> {
    let mut bytes = vec![version, codes::BEGIN, codes::IF, codes::EQL, codes::DIVIDE];
    for (number, scale) in numbers {
        bytes.extend([codes::LITERAL, codes::SHORT, scale as u8]);
        bytes.extend(number.to_le_bytes());
    }
    bytes.extend([codes::BEGIN, codes::END, codes::END, codes::END, codes::EOC]);
    let dictionary = Dictionary::new(&[])?;
    let request = Request::read(&dictionary, &bytes)?;
    request.evaluate(0, &[], &[])
}

/// A quotient's scale is the first less the second in version 4, and the sum of both in version 5.
#[test]
fn quotients_by_version() {
    // 7 by 0.2: 35.0 in version 5; in version 4 the scale would be 1
    assert_eq!(quotient(5, [(7, 0), (2, -1), (350, -1)]), Ok(Truth::True));
    assert_eq!(quotient(5, [(7, 0), (2, -1), (35, 0)]), Ok(Truth::True));
    assert_eq!(quotient(5, [(7, 0), (2, -1), (351, -1)]), Ok(Truth::False));
    let unfit = quotient(4, [(7, 0), (2, -1), (350, -1)]).unwrap_err();
    assert_eq!((unfit.reason(), unfit.place()), (Reason::Unfit, 4));
    // 0.7 by 0.2: 3 in version 4, 3.50 in version 5
    assert_eq!(quotient(4, [(7, -1), (2, -1), (3, 0)]), Ok(Truth::True));
    assert_eq!(quotient(5, [(7, -1), (2, -1), (3, 0)]), Ok(Truth::False));
    assert_eq!(quotient(5, [(7, -1), (2, -1), (350, -2)]), Ok(Truth::True));
    // 7 by 2, cut toward zero in both
    for version in [codes::VERSION4, codes::VERSION5] {
        assert_eq!(quotient(version, [(7, 0), (2, 0), (3, 0)]), Ok(Truth::True));
        assert_eq!(quotient(version, [(-7, 0), (2, 0), (-3, 0)]), Ok(Truth::True));
    }
    // 7 times 10^18 fits in 64 bits, and 10 times 10^18 does not; 0 always does; a zero divisor is told first
    assert_eq!(quotient(5, [(7, 0), (1, -9), (7000, 0)]), Ok(Truth::False));
    let told =
        |numbers| quotient(5, numbers).map_err(|refusal| (refusal.reason(), refusal.place()));
    assert_eq!(told([(10, 0), (1, -9), (0, 0)]), Err((Reason::Overflow, 4)));
    assert_eq!(told([(10, 0), (0, -9), (0, 0)]), Err((Reason::ZeroDivisor, 4)));
    assert_eq!(told([(0, 0), (1, -9), (0, 0)]), Ok(Truth::True));
}

#[test]
fn refusals_of_evaluation() {
    let dictionary = beds();
    let request = Request::read(&dictionary, &S).unwrap();
    let told = |given: Result<Truth, Refusal>| {
        let refusal = given.unwrap_err();
        (refusal.reason(), refusal.input(), refusal.place())
    };
    let proper = bed(Field::Reading(301));
    let asked =
        |number, images: &[u8], records: &[u8]| told(request.evaluate(number, images, records));
    assert_eq!(asked(1, &[0, 0], &proper), (Reason::NoBoolean, Input::Request, 0));
    assert_eq!(asked(usize::MAX, &[0, 0], &proper), (Reason::NoBoolean, Input::Request, 0));
    assert_eq!(asked(0, &[0], &proper), (Reason::BadMessageBytes, Input::Messages, 1));
    assert_eq!(asked(0, &[0, 0], &[]), (Reason::BadRecords, Input::Records, 0));
    let twice = [proper.clone(), proper.clone()].concat();
    assert_eq!(asked(0, &[0, 0], &twice), (Reason::BadRecords, Input::Records, 13));
    let long = record(1, &[Field::Bytes(&[0; 70000])]);
    assert_eq!(asked(0, &[0, 0], &long), (Reason::BadRecords, Input::Records, 0));
}

/// 02, No. 4: an if of any, or of unique, over beds above thirty.
fn over(code: u8) -> Vec<u8> {
    let mut bytes = vec![4, codes::BEGIN, codes::IF, code, codes::RSE, 1, codes::RID, 1, 0, 3];
    bytes.extend([codes::BOOLEAN, codes::GTR, codes::FID, 3, 0, 0]);
    bytes.extend([codes::LITERAL, codes::SHORT, 0xff, 44, 1, codes::END]);
    bytes.extend([codes::BEGIN, codes::END, codes::END, codes::END, codes::EOC]);
    bytes
}

#[test]
fn any_and_unique_go_over_a_run() {
    let dictionary = beds();
    for (code, opener) in [(codes::ANY, Opener::Any), (codes::UNIQUE, Opener::Unique)] {
        let bytes = over(code);
        let request = Request::read(&dictionary, &bytes).unwrap();
        let rows: Vec<_> = request.contexts().map(|c| (c.number, c.scope, c.opener)).collect();
        assert_eq!(rows, [(3, 10..22, opener)]);
        let kept = |heats: &[u16]| {
            let run = run(&heats.iter().map(|h| bed(Field::Reading(*h))).collect::<Vec<_>>());
            request.evaluate_over(0, &[], &[], &run).unwrap()
        };
        assert_eq!(kept(&[]), Truth::False);
        assert_eq!(kept(&[300, 65535]), Truth::False);
        assert_eq!(kept(&[300, 301, 65535]), Truth::True);
        let both = if opener == Opener::Any { Truth::True } else { Truth::False };
        assert_eq!(kept(&[301, 302]), both);
    }
}

#[test]
fn refusals_of_runs() {
    let dictionary = beds();
    let bytes = over(codes::ANY);
    let request = Request::read(&dictionary, &bytes).unwrap();
    let told = |runs: &[u8]| {
        let refusal = request.evaluate_over(0, &[], &[], runs).unwrap_err();
        (refusal.reason(), refusal.input(), refusal.place())
    };
    let one = run(&[bed(Field::Reading(301))]);
    let length = one.len() as u64;
    assert_eq!(told(&[]), (Reason::BadRuns, Input::Runs, 0));
    assert_eq!(told(&one[..one.len() - 1]), (Reason::BadRuns, Input::Runs, 0));
    assert_eq!(told(&[&one[..], &[0]].concat()), (Reason::BadRuns, Input::Runs, length));
    assert_eq!(told(&run(&[record(1, &[])])), (Reason::BadRuns, Input::Runs, 0));
    assert_eq!(told(&bed(Field::Reading(301))), (Reason::BadRuns, Input::Runs, 0));
    assert_eq!(
        told(&run(&vec![bed(Field::Reading(301)); 5042])),
        (Reason::BadRuns, Input::Runs, 0)
    );
    assert_eq!(
        request.evaluate(0, &[], &[]).unwrap_err().to_string(),
        "refused 26 at 0 of the runs: the runs are not as due"
    );
    let s = Request::read(&dictionary, &S).unwrap();
    let given = s.evaluate_over(0, &[0, 0], &bed(Field::Reading(301)), &one).unwrap_err();
    assert_eq!((given.reason(), given.place()), (Reason::BadRuns, 0));
    let mut two = bytes.clone();
    two[5] = 2;
    let refusal = Request::read(&dictionary, &two).unwrap_err();
    assert_eq!((refusal.reason(), refusal.place()), (Reason::TooGreat, 5));
}

#[test]
fn a_refusal_is_an_error_in_words() {
    let told: Box<dyn std::error::Error> = Box::new(Dictionary::new(&BEDS[..20]).unwrap_err());
    assert_eq!(
        told.to_string(),
        "refused 3 at 11 of the dictionary: the dictionary breaks a rule or a greatest size"
    );
    let request = Request::read(&beds(), &S[..40]).unwrap_err();
    assert_eq!(request.to_string(), "refused 4 at 40 of the request: the request ends early");
}

#[test]
fn a_dictionary_is_tested_first() {
    assert!(Dictionary::new(&[]).is_ok());
    assert_eq!(Dictionary::new(&[0; 65536]).unwrap_err().place(), 0);
    let refusal = Dictionary::new(&[BEDS, BEDS].concat()).unwrap_err();
    assert_eq!((refusal.reason(), refusal.place()), (Reason::BadDictionary, BEDS.len() as u64));
    assert_eq!(refusal.input(), Input::Dictionary);
}

/// 02, No. 9: a store of a bed as context 0. The assignments in rows 3 to 7 put into their targets its name, its heat negated, the text
/// AB, the average heat of a run, and a text of blanks; that in row 9, of a send, the date in the message.
fn storing() -> Vec<u8> {
    let name = [codes::FID, 0, 1, 0];
    let heat = [codes::FID, 0, 0, 0];
    let date = [codes::PARAMETER, 0, 0, 0];
    let assign = |value: &[u8], target: [u8; 4]| [&[codes::ASSIGNMENT], value, &target].concat();
    let average =
        [codes::AVERAGE, codes::RSE, 1, codes::RID, 1, 0, 9, codes::END, codes::FID, 9, 0, 0];
    [
        vec![4, codes::BEGIN, codes::MESSAGE, 0, 1, 0, codes::DATE],
        vec![codes::STORE, codes::RID, 1, 0, 0, codes::BEGIN],
        assign(&name, name),
        assign(&[codes::NEGATE, codes::FID, 0, 0, 0], heat),
        assign(&[codes::LITERAL, codes::TEXT, 4, 0, b'A', b'B', b' ', b' '], name),
        assign(&average, heat),
        assign(&[codes::LITERAL, codes::TEXT, 2, 0, b' ', b' '], name),
        vec![codes::END, codes::SEND, 0],
        assign(&date, date),
        vec![codes::END, codes::EOC],
    ]
    .concat()
}

#[test]
fn values_of_assignments() {
    let dictionary = beds();
    let bytes = storing();
    let request = Request::read(&dictionary, &bytes).unwrap();
    let stored = bed(Field::Reading(301));
    let date = [1, 0, 0, 0, 2, 0, 0, 0];
    let value = |row| request.evaluate_value(row, &date, &stored, &[]);
    assert_eq!(value(3), Ok(Answer::Text(b"ABCD")));
    assert_eq!(value(4), Ok(Answer::Number(-301, -1)));
    assert_eq!(value(4).unwrap().number(), Some((-301, -1)));
    assert_eq!(value(5), Ok(Answer::Text(b"AB")));
    assert_eq!(value(7), Ok(Answer::Text(b"")));
    assert_eq!(request.evaluate_value(9, &date, &[], &[]), Ok(Answer::Date(1, 2)));
    let average = |heats: &[u16]| {
        let run = run(&heats.iter().map(|h| bed(Field::Reading(*h))).collect::<Vec<_>>());
        request
            .evaluate_value(6, &date, &stored, &run)
            .map(|answer| (answer.number(), answer.cause()))
    };
    assert_eq!(average(&[300, 65535, 303]), Ok((Some((301, -1)), None)));
    assert_eq!(average(&[65535]), Ok((None, Some(Cause::Nothing))));
    let unfilled = bed(Field::Missing(2));
    let missing = request.evaluate_value(4, &date, &unfilled, &[]);
    assert_eq!(missing, Ok(Answer::Missing(Cause::Bit)));
    let told = |given: Result<Answer, Refusal>| {
        let refusal = given.unwrap_err();
        (refusal.reason(), refusal.input(), refusal.place())
    };
    assert_eq!(told(value(2)), (Reason::NoBoolean, Input::Request, 0));
    assert_eq!(told(value(usize::MAX)), (Reason::NoBoolean, Input::Request, 0));
    assert_eq!(told(value(6)), (Reason::BadRuns, Input::Runs, 0));
}

/// A bed is watered where its heat is above 5.0, and its name contains an E or does not start with a B.
#[test]
fn explanations() {
    let dictionary = beds();
    let test =
        |code: u8, text: u8| [&[code, codes::FID, 0, 1, 0][..], &[21, 14, 1, 0, text]].concat();
    let condition = [
        &[codes::AND, codes::GTR, codes::FID, 0, 0, 0, 21, 7, 255, 50, 0, codes::OR][..],
        &test(codes::CONTAINING, b'E'),
        &[codes::NOT],
        &test(codes::STARTING, b'B'),
    ]
    .concat();
    let head = [4, 2, 7, 67, 1, 75, 1, 0, 0, 71];
    let bytes = [&head[..], &condition, &[255, 2, 255, 255, 76]].concat();
    let request = Request::read(&dictionary, &bytes).unwrap();
    let why = |heat, name: &[u8]| {
        let bed = record(1, &[heat, Field::Bytes(name)]);
        request.explain(0, &[], &bed, &[]).unwrap()
    };
    let words = |tests: &[Test]| tests.iter().map(Test::to_string).collect::<Vec<_>>().join(", ");
    assert_eq!(
        words(&why(Field::Reading(51), b"EAST")),
        "gtr at 11 is true, containing at 22 is true"
    );
    assert_eq!(words(&why(Field::Reading(50), b"EAST")), "gtr at 11 is false");
    assert_eq!(
        words(&why(Field::Reading(51), b"BAD ")),
        "containing at 22 is false, starting at 33 is true"
    );
    assert_eq!(
        words(&why(Field::Missing(2), b"WAD ")),
        "gtr at 11 is missing, starting at 33 is false"
    );
    let tests = why(Field::Reading(65535), b"EAST");
    assert_eq!((tests[0].code, tests[0].outcome), (TestCode::Gtr, Outcome::Missing));
    assert_eq!(TestCode::from_code(tests[1].code.code()), TestCode::Containing);
    let told = |refusal: Refusal| (refusal.reason(), refusal.input(), refusal.place());
    let refused = |number, records: &[u8], runs: &[u8]| {
        told(request.explain(number, &[], records, runs).unwrap_err())
    };
    assert_eq!(refused(1, &[], &[]), (Reason::NoBoolean, Input::Request, 0));
    assert_eq!(refused(0, &[], &[]), (Reason::BadRecords, Input::Records, 0));
    let bed = bed(Field::Reading(1));
    assert_eq!(refused(0, &bed, &run(&[&bed])), (Reason::BadRuns, Input::Runs, 0));
}

#[test]
fn any_bytes_are_answered() {
    let dictionary = beds();
    let mut seed = 1u64;
    let mut next = || {
        seed = seed.wrapping_mul(6364136223846793005).wrapping_add(1442695040888963407);
        (seed >> 33) as usize
    };
    for _ in 0..20_000 {
        let mut bytes = S;
        for _ in 0..next() % 4 {
            bytes[next() % 41] = next() as u8;
        }
        let bytes = &bytes[..41 - (next() % 8).saturating_sub(5)];
        if let Ok(request) = Request::read(&dictionary, bytes) {
            assert!(request.statements().all(|s| s.place < s.end && s.end <= bytes.len()));
            let bed = bed(Field::Reading(next() as u16));
            let _ = request.evaluate(next() % 2, &[0, 0], &bed);
            let _ = request.evaluate_value(next() % 4, &[0, 0], &bed, &[]);
            let tests = request.explain(0, &[0, 0], &bed, &[]);
            assert!(
                tests.is_ok_and(|tests| !tests.is_empty())
                    || request.evaluate(0, &[0, 0], &bed).is_err()
            );
        }
    }
}

#[test]
fn a_store_is_a_list() {
    let dictionary = beds();
    let mut buffer = [7; 10 + 3 * 13 + 5];
    let mut store = Store::make(&dictionary, &mut buffer, 1).unwrap();
    assert!(store.is_empty());
    assert_eq!(store.relation(), 1);
    for heat in [301, 300, 65535] {
        store.add(&bed(Field::Reading(heat))).unwrap();
    }
    assert_eq!((store.len(), store.missing_count()), (3, 1));
    assert_eq!(store.iter().count(), 3);
    assert!(store.iter().enumerate().all(|(i, entry)| store.get(i) == Some(entry)));
    assert_eq!(store.get(1), Some(&bed(Field::Reading(300))[..]));
    // 65535 has got its missing bit, and its bytes stay
    assert_eq!(store.get(2).unwrap()[6..9], [1, 255, 255]);
    assert_eq!(store.get(3), None);

    store.erase(0).unwrap();
    store.replace(1, &bed(Field::Missing(2))).unwrap();
    let records: Vec<_> = store.iter().map(<[u8]>::to_vec).collect();
    assert_eq!(records, [bed(Field::Reading(300)), bed(Field::Missing(2))]);

    let left = store.bytes().to_vec();
    let mut again = left.clone();
    assert_eq!(Store::open(&dictionary, &mut again).unwrap().bytes(), left);
}

#[test]
fn refusals_of_a_store() {
    let dictionary = beds();
    let told = |refusal: Refusal| (refusal.reason(), refusal.input(), refusal.place());
    let mut buffer = [7; 10 + 13];
    let unknown = Store::make(&dictionary, &mut buffer, 2).unwrap_err();
    assert_eq!(told(unknown), (Reason::Unknown, Input::Store, 0));
    assert_eq!(buffer, [7; 10 + 13]);
    let long = Store::make(&dictionary, &mut vec![0; 65536], 1).map(drop).unwrap_err();
    assert_eq!(told(long), (Reason::MalformedStore, Input::Store, 0));
    let short = Store::make(&dictionary, &mut [0; 9], 1).map(drop).unwrap_err();
    assert_eq!(told(short), (Reason::NoRoom, Input::Store, 0));
    let malformed = Store::open(&dictionary, &mut [7; 23]).map(drop).unwrap_err();
    assert_eq!(told(malformed), (Reason::MalformedStore, Input::Store, 0));

    let mut store = Store::make(&dictionary, &mut buffer, 1).unwrap();
    assert_eq!(told(store.erase(0).unwrap_err()), (Reason::NoPosition, Input::Store, 0));
    assert_eq!(told(store.add(&[]).unwrap_err()), (Reason::WrongRecord, Input::Store, 0));
    store.add(&bed(Field::Reading(1))).unwrap();
    let full = store.add(&bed(Field::Reading(1))).unwrap_err();
    assert_eq!(told(full), (Reason::NoRoom, Input::Store, 0));
    assert_eq!(
        full.to_string(),
        "refused 53 at 0 of the store: the buffer has not enough free bytes"
    );
}

#[test]
fn requests_go_between_threads() {
    fn shared<T: Send + Sync>() {}
    shared::<Request<'_>>();
    shared::<Store<'_>>();
    shared::<Refusal>();
}
