//! Times of the proved leaves as ratios to the second program's, in one run: below 1 the proved code is faster.

use crate::explanations::TEST_TABLE;
use crate::plain;
use crate::proved::{self, Computed, Number};
use second::decimal::{self, Fault};
use second::dictionary::{Dictionary, Relation};
use second::evaluator::{self, Lent, ValueAnswer};
use second::generate::rng::Rng;
use second::generate::{assemble, data, dictionaries};
use second::reader::{self, TABLE_LENGTHS};
use second::store::{self, Call};
use second::{text, wire};
use std::hint::black_box;
use std::time::Instant;

/// Seconds that so many calls take.
fn seconds(calls: usize, call: &mut impl FnMut(usize)) -> f64 {
    let start = Instant::now();
    (0..calls).for_each(call);
    start.elapsed().as_secs_f64()
}

/// Seconds that so many calls of each take: the least of eleven runs, which go in turn, so that both see the same machine.
fn both(calls: usize, mut proved: impl FnMut(usize), mut plain: impl FnMut(usize)) -> (f64, f64) {
    (0..11).fold((f64::INFINITY, f64::INFINITY), |(one, other), _| {
        (one.min(seconds(calls, &mut proved)), other.min(seconds(calls, &mut plain)))
    })
}

fn line(name: &str, calls: usize, proved: impl FnMut(usize), plain: impl FnMut(usize)) {
    let (one, other) = both(calls, proved, plain);
    let each = one / calls as f64 * 1e9;
    println!("{name:<32} {:>8.2} {each:>12.1} ns a call", one / other);
}

fn numbers(rng: &mut Rng) -> Vec<(Number, Number)> {
    let one = |rng: &mut Rng| Number {
        value: (rng.bits() as i64) >> rng.between(1, 62),
        scale: -(rng.below(19) as i8),
    };
    (0..1024).map(|_| (one(rng), one(rng))).collect()
}

fn texts(rng: &mut Rng, length: usize) -> Vec<Vec<u8>> {
    (0..256).map(|_| (0..length).map(|_| rng.pick(b"abcAB ")).collect()).collect()
}

/// The second program's result by the number of the operation, as the exports take it.
fn operate(operation: u8, a: Number, b: Number) -> Result<(i64, i8), Fault> {
    match operation {
        proved::ADD => decimal::add(a.value, a.scale, b.value, b.scale),
        proved::SUBTRACT => decimal::subtract(a.value, a.scale, b.value, b.scale),
        proved::MULTIPLY => decimal::multiply(a.value, a.scale, b.value, b.scale),
        proved::DIVIDE => decimal::divide(a.value, a.scale, b.value, b.scale),
        proved::NEGATE => decimal::negate(a.value).map(|value| (value, a.scale)),
        _ => {
            let least = a.scale.min(b.scale);
            decimal::rescale(a.value, a.scale, least).map(|value| (value, least))
        }
    }
}

/// The second program behind a function of the same signature as the export, so that both pay for the same call.
#[inline(never)]
fn second_compute(
    operation: u8,
    a: i64,
    a_scale: i8,
    b: i64,
    b_scale: i8,
    answer: &mut [i64; 2],
) -> u32 {
    let (a, b) = (Number { value: a, scale: a_scale }, Number { value: b, scale: b_scale });
    match operate(operation, a, b) {
        Ok((value, scale)) => {
            *answer = [value, i64::from(scale)];
            0
        }
        Err(fault) => {
            *answer = [0, 0];
            match fault {
                Fault::Overflow => 24,
                Fault::ZeroDivisor => 25,
            }
        }
    }
}

fn compute(operation: u8, a: Number, b: Number) -> Computed {
    let mut answer = [i64::MAX; 2];
    let refusal = second_compute(operation, a.value, a.scale, b.value, b.scale, &mut answer);
    proved::computed(refusal, answer)
}

fn decimals(rng: &mut Rng) {
    let pairs = numbers(rng);
    type Plain = fn(i64, i8, i64, i8) -> Result<(i64, i8), Fault>;
    let operations: [(&str, u8, Plain); 4] = [
        ("add", proved::ADD, decimal::add),
        ("subtract", proved::SUBTRACT, decimal::subtract),
        ("multiply", proved::MULTIPLY, decimal::multiply),
        ("divide", proved::DIVIDE, decimal::divide),
    ];
    for (name, operation, plain) in operations {
        line(
            name,
            200_000,
            |i| {
                let (a, b) = pairs[i % 1024];
                black_box(proved::compute(operation, a, b));
            },
            |i| {
                let (a, b) = pairs[i % 1024];
                let _ = black_box(plain(a.value, a.scale, b.value, b.scale));
            },
        );
        line(
            &format!("{name}, same call"),
            200_000,
            |i| {
                let (a, b) = pairs[i % 1024];
                black_box(proved::compute(operation, a, b));
            },
            |i| {
                let (a, b) = pairs[i % 1024];
                black_box(compute(operation, a, b));
            },
        );
    }
    line(
        "compare",
        200_000,
        |i| {
            let (a, b) = pairs[i % 1024];
            black_box(proved::compare(a, b));
        },
        |i| {
            let (a, b) = pairs[i % 1024];
            black_box(decimal::compare(a.value, a.scale, b.value, b.scale));
        },
    );
}

fn searches(rng: &mut Rng) {
    let (long, short) = (texts(rng, 255), texts(rng, 4));
    line(
        "order of texts",
        100_000,
        |i| {
            black_box(proved::compare_texts(&long[i % 256], &long[(i + 1) % 256]));
        },
        |i| {
            black_box(text::compare(&long[i % 256], &long[(i + 1) % 256]));
        },
    );
    type Plain = fn(&[u8], &[u8]) -> bool;
    let kinds: [(&str, u8, Plain); 3] = [
        ("containing", 0, text::containing),
        ("matching", 1, text::matching),
        ("starting", 2, text::starting),
    ];
    for (name, search, plain) in kinds {
        line(
            name,
            20_000,
            |i| {
                black_box(proved::search(search, &long[i % 256], &short[i % 256]));
            },
            |i| {
                black_box(plain(&long[i % 256], &short[i % 256]));
            },
        );
    }
}

/// The pattern that makes a plain matcher exponential: 255 bytes against 255.
fn worst(rng: &mut Rng) {
    let mut pattern: Vec<u8> = b"*a".iter().copied().cycle().take(254).collect();
    pattern.push(b'b');
    let text: Vec<u8> = vec![b'a'; 255];
    let _ = rng;
    line(
        "matching, worst of 255",
        100,
        |_| {
            black_box(proved::search(1, &text, &pattern));
        },
        |_| {
            black_box(text::matching(&text, &pattern));
        },
    );
}

fn parts(rng: &mut Rng) {
    let held = texts(rng, 64);
    line(
        "trimming a text",
        200_000,
        |i| {
            black_box(proved::text(0, &held[i % 256]));
        },
        |i| {
            let bytes = &held[i % 256];
            // The exports take four calls.
            for _ in 0..4 {
                black_box(text::value(wire::TEXT, bytes));
            }
        },
    );
}

/// A proper dictionary of the most entries: 32 relations of 64 fields each, with names as long as 65,535 bytes allow.
fn largest_dictionary() -> Vec<u8> {
    let name = |prefix: &str, n: usize| format!("{prefix}{n:0>19}").into_bytes();
    let fields =
        || (0..64).map(|n| dictionaries::field(wire::LONG, -2, 4, &name("F", n))).collect();
    let relations =
        (0..32).map(|n| Relation { id: n as u16, name: name("R", n), fields: fields() }).collect();
    dictionaries::encode(&Dictionary { relations })
}

fn dictionary_check() {
    let bytes = largest_dictionary();
    assert!(Dictionary::check(&bytes).is_ok(), "the largest dictionary is proper");
    line(
        "check of the largest dictionary",
        20,
        |_| {
            black_box(proved::check(&bytes));
        },
        |_| {
            black_box(Dictionary::check(&bytes).is_ok());
        },
    );
}

/// An if with a condition of so many tests, joined by and, and an assignment to a parameter.
fn branch(tests: usize) -> Vec<u8> {
    let test = |n: usize| match n % 3 {
        0 => assemble::operator(wire::GTR, &[&assemble::fid(0, 2), &assemble::short(-1, n as i16)]),
        1 => assemble::operator(wire::CONTAINING, &[&assemble::fid(0, 3), &assemble::text(b"TOP")]),
        _ => {
            let sum = assemble::operator(wire::ADD, &[&assemble::fid(0, 0), &assemble::fid(0, 1)]);
            assemble::operator(wire::LSS, &[&sum, &assemble::long(0, n as i32)])
        }
    };
    let condition =
        (1..tests).fold(test(0), |rest, n| assemble::operator(wire::AND, &[&test(n), &rest]));
    let assign = assemble::assignment(&assemble::fid(0, 1), &assemble::parameter(0, 0));
    [&[wire::IF], condition.as_slice(), assign.as_slice(), &[wire::END]].concat()
}

/// A request of about so many bytes: a loop over a relation that sends, with statements, tests, fields, literals and parameters.
fn request_of_about(length: usize) -> Vec<u8> {
    let head = assemble::message(0, &[&[wire::LONG, 0]]);
    let mut body = vec![wire::SEND, 0, wire::BEGIN];
    while body.len() + 200 < length {
        body.extend(branch(if length < 1_000 { 3 } else { 20 }));
    }
    body.extend(branch(1));
    body.push(wire::END);
    assemble::request(&[&head, &assemble::for_house(&body)])
}

/// Requests of several lengths: the ratio, and the bytes that the proved reader reads in a second.
fn readings() {
    let dictionary = dictionaries::encode(&dictionaries::house());
    for about in [100, 400, 1_600, 6_400, 25_600, 65_300] {
        let request = request_of_about(about);
        let length = request.len();
        let mut tables = TABLE_LENGTHS.map(|length| vec![0u32; length]);
        let mut plain_tables = tables.clone();
        let [statements, parameters, contexts] = &mut tables;
        let [plain_statements, plain_parameters, plain_contexts] = &mut plain_tables;
        let calls = 2_000_000 / length;
        let (one, other) = both(
            calls,
            |_| {
                let answer = proved::read(&request, &dictionary, statements, parameters, contexts);
                black_box(answer).expect("a request that the rules allow");
            },
            |_| {
                let answer = reader::read(
                    &request,
                    &dictionary,
                    plain_statements,
                    plain_parameters,
                    plain_contexts,
                );
                black_box(answer).expect("a request that the rules allow");
            },
        );
        let speed = (length * calls) as f64 / one / 1e6;
        println!(
            "{:<32} {:>8.2} {speed:>12.1} MB a second",
            format!("reading {length} bytes"),
            one / other
        );
    }
}

/// So many tests joined by and, no deeper than their number needs.
fn joined(tests: &[Vec<u8>]) -> Vec<u8> {
    match tests {
        [test] => test.clone(),
        _ => {
            let (left, right) = tests.split_at(tests.len() / 2);
            assemble::operator(wire::AND, &[&joined(left), &joined(right)])
        }
    }
}

/// A request whose first condition has about so many bytes, over the relation of `dictionaries::house`.
fn condition_of_about(length: usize) -> (Vec<u8>, usize) {
    let test = |n: usize| match n % 3 {
        0 => assemble::operator(wire::GTR, &[&assemble::fid(0, 2), &assemble::short(-1, n as i16)]),
        1 => assemble::operator(wire::CONTAINING, &[&assemble::fid(0, 3), &assemble::text(b"TOP")]),
        _ => {
            let sum = assemble::operator(wire::ADD, &[&assemble::fid(0, 0), &assemble::fid(0, 1)]);
            assemble::operator(wire::LSS, &[&sum, &assemble::long(0, n as i32)])
        }
    };
    let mut tests = vec![test(0)];
    while tests.iter().map(|test| test.len() + 1).sum::<usize>() < length {
        tests.push(test(tests.len()));
    }
    let condition = joined(&tests);
    let bytes = condition.len();
    (assemble::request(&[&assemble::condition(&condition)]), bytes)
}

/// The relation of `dictionaries::house`, and 31 others of 64 fields each.
fn large_dictionary() -> Dictionary {
    let name = |prefix: &str, n: usize| format!("{prefix}{n:0>18}").into_bytes();
    let fields =
        || (0..64).map(|n| dictionaries::field(wire::LONG, -2, 4, &name("F", n))).collect();
    let mut dictionary = dictionaries::house();
    dictionary.relations.extend((0..31).map(|n| Relation {
        id: 100 + n as u16,
        name: name("R", n),
        fields: fields(),
    }));
    dictionary
}

/// A record of the house relation: every field is there.
pub fn house_record() -> Vec<u8> {
    let head = [42, 0, 3, 0, 1, 0, 0, 100, 0, 1, 0, 0, 0, 45, 1];
    [&head[..], b"TOP", &[3, 0], b"TOP", &[b'A', 0, 0], &[0; 16]].concat()
}

/// Conditions of several lengths beside a small and a large dictionary; and how much of the time reading and the dictionary's check take.
fn evaluations() {
    let record = house_record();
    for (words, dictionary) in [("small", dictionaries::house()), ("large", large_dictionary())] {
        let dictionary = dictionaries::encode(&dictionary);
        for about in [10, 100, 500, 2_000] {
            let (request, bytes) = condition_of_about(about);
            let calls = if words == "small" { 400_000 / bytes } else { 40 };
            let (one, other) = both(
                calls,
                |_| {
                    let given = proved::evaluation(&request, &dictionary, 0, &[], &record, &[]);
                    assert!(black_box(given) & 0xff < 3, "a condition that comes out");
                },
                |_| {
                    let answer = evaluator::evaluate(&request, &dictionary, 0, &[], &record);
                    black_box(answer).expect("a condition that comes out");
                },
            );
            let mut tables = TABLE_LENGTHS.map(|length| vec![0u32; length]);
            let [statements, parameters, contexts] = &mut tables;
            let mut read = |_| {
                let answer = proved::read(&request, &dictionary, statements, parameters, contexts);
                black_box(answer).expect("a request that the rules allow");
            };
            let reading = (0..11).map(|_| seconds(calls, &mut read)).fold(f64::INFINITY, f64::min);
            let mut check = |_| {
                black_box(proved::check(&dictionary));
            };
            let checking =
                (0..11).map(|_| seconds(calls, &mut check)).fold(f64::INFINITY, f64::min);
            println!(
                "{:<32} {:>8.2} {:>12.1} ns a call; reading {:.0} %, of it the dictionary {:.0} %",
                format!("condition of {bytes}, {words}"),
                one / other,
                one / calls as f64 * 1e9,
                reading / one * 100.0,
                checking / one * 100.0
            );
        }
    }
}

/// Explanations of the same conditions, in a table of 512 numbers and in the greatest, which is cleared first, against the proved evaluation of
/// them: at most 1.5 is the goal.
fn explanations() {
    let record = house_record();
    let dictionary = dictionaries::encode(&dictionaries::house());
    let lengths = [10, 100, 500, 2_000];
    for (about, room) in lengths.iter().flat_map(|about| [(*about, 512), (*about, TEST_TABLE)]) {
        let (request, bytes) = condition_of_about(about);
        let mut tests = vec![0; room];
        line(
            &format!("explaining {bytes}, table of {room}"),
            400_000 / bytes,
            |_| {
                let given =
                    proved::explanation(&request, &dictionary, 0, &[], &record, &[], &mut tests);
                assert!(black_box(given) & 0xff == 7, "a condition that comes out");
            },
            |_| {
                let given = proved::evaluation(&request, &dictionary, 0, &[], &record, &[]);
                assert!(black_box(given) & 0xff < 3, "a condition that comes out");
            },
        );
    }
}

/// A request with an if of a boolean.
fn request_if(boolean: &[u8]) -> Vec<u8> {
    let statement = [&[wire::IF], boolean, &assemble::NOTHING, &[wire::END]].concat();
    assemble::request(&[&statement])
}

/// Any over a run of 1,000 records, and one in another over runs of 100 each, all records tested.
fn runs() {
    let dictionary = dictionaries::encode(&dictionaries::house());
    let over = |context: u8, condition: &[u8]| {
        let clauses = [&[wire::BOOLEAN], condition].concat();
        assemble::over(wire::ANY, &assemble::rid(1, context), &clauses)
    };
    let heat = |context: u8| assemble::fid(context, 2);
    let above = assemble::operator(wire::GTR, &[&heat(1), &assemble::short(0, 31)]);
    let below = assemble::operator(wire::LSS, &[&heat(2), &heat(1)]);
    let run = |count: usize| data::run(&vec![house_record(); count]);
    let works = [
        ("any over 1,000", over(1, &above), run(1_000)),
        ("any in any, 100 by 100", over(1, &over(2, &below)), [run(100), run(100)].concat()),
    ];
    for (name, boolean, runs) in works {
        let request = request_if(&boolean);
        line(
            name,
            40,
            |_| {
                let given = proved::evaluation(&request, &dictionary, 0, &[], &[], &runs);
                assert!(black_box(given) & 0xff < 3, "a condition that comes out");
            },
            |_| {
                let lent = Lent { messages: &[], records: &[], runs: &runs };
                let answer = evaluator::evaluate_over(&request, &dictionary, 0, lent);
                black_box(answer).expect("a condition that comes out");
            },
        );
    }
}

/// The average of 10,000 readings, two of each bed of a run of 5,000, which is as long as a run may be; against the second program and
/// against plain Rust over the same bytes.
fn averages() {
    let reading = |name: &[u8]| dictionaries::field(wire::READING, -1, 2, name);
    let fields = vec![reading(b"HEAT"), reading(b"WET")];
    let relation = Relation { id: 1, name: b"BEDS".to_vec(), fields };
    let dictionary = dictionaries::encode(&Dictionary { relations: vec![relation] });
    let sum = assemble::operator(wire::ADD, &[&assemble::fid(3, 0), &assemble::fid(3, 1)]);
    let value = assemble::statistic(wire::AVERAGE, &assemble::rid(1, 3), &[], &sum);
    let send = [&[wire::SEND, 0], &assemble::assignment(&value, &assemble::parameter(0, 0))[..]];
    let message = assemble::message(0, &[&[wire::LONG, 255]]);
    let request = assemble::request(&[&message, &send.concat()]);
    // One bed of 16 has sent no heat.
    let heat = |n: usize| if n % 16 == 0 { 65_535 } else { 200 + (n % 150) as u16 };
    let bed = |n: usize| {
        let [heat, wet] = [heat(n), (n % 900) as u16].map(u16::to_le_bytes);
        [&[11, 0, 3, 0, 1, 0, 0][..], &heat, &wet].concat()
    };
    let runs = data::run(&(0..5_000).map(bed).collect::<Vec<_>>());
    let lent = Lent { messages: &[0; 4], records: &[], runs: &runs };
    let due = evaluator::evaluate_value(&request, &dictionary, 2, lent).expect("an average");
    assert_eq!(due, ValueAnswer::Number(plain::average(&runs).expect("an average"), -1));
    let proved = |_| {
        let (given, _) = proved::value_evaluation(&request, &dictionary, 2, &[0; 4], &[], &runs);
        assert!(black_box(given) == 4, "an average");
    };
    line("average of 10,000, second", 10, proved, |_| {
        let lent = Lent { messages: &[0; 4], records: &[], runs: &runs };
        black_box(evaluator::evaluate_value(&request, &dictionary, 2, lent)).expect("an average");
    });
    line("average of 10,000, plain", 10, proved, |_| {
        black_box(plain::average(black_box(&runs)));
    });
}

/// The records of BEDS of document 01 in a full buffer of 65,535 bytes, and one record.
fn full_store() -> (Vec<u8>, Vec<u8>, Vec<u8>) {
    let dictionary = [
        [&[11u8, 0, 1, 0, 1, 0, 4][..], b"BEDS"].concat(),
        [&[15, 0, 2, 0, 0, 0, 200, 255, 2, 0, 4][..], b"HEAT"].concat(),
        [&[15, 0, 2, 0, 1, 0, 14, 0, 4, 0, 4][..], b"NAME"].concat(),
    ]
    .concat();
    let record = [&[13u8, 0, 3, 0, 1, 0, 0, 255, 255][..], b"BED1"].concat();
    let mut buffer = vec![0; 65_535];
    proved::store_call(&dictionary, &mut buffer, &Call::Make(1)).expect("an empty store");
    while proved::store_call(&dictionary, &mut buffer, &Call::Add(record.clone())).is_ok() {}
    (dictionary, buffer, record)
}

/// Erasing the first record of a full store and adding one at its end, against the second program and against plain Rust in place.
fn stores() {
    let (dictionary, full, record) = full_store();
    let calls = [Call::Erase(0), Call::Add(record.clone())];
    let (mut one, mut other, mut third) = (full.clone(), full.clone(), full);
    line(
        "store, erase and add, second",
        4,
        |turn| {
            proved::store_call(&dictionary, &mut one, &calls[turn % 2]).expect("a call");
        },
        |turn| {
            store::call(&dictionary, &mut other, &calls[turn % 2]).expect("a call");
        },
    );
    line(
        "store, erase and add, in place",
        40,
        |turn| {
            proved::store_call(&dictionary, &mut one, &calls[turn % 2]).expect("a call");
        },
        |turn| {
            plain::call(&dictionary, &mut third, &calls[turn % 2]).expect("a call");
        },
    );
}

/// Prints a line for each leaf: its ratio, and the time of a proved call.
pub fn run() {
    let mut rng = Rng::new(1);
    println!("{:<32} {:>8}", "leaf", "ratio");
    decimals(&mut rng);
    parts(&mut rng);
    searches(&mut rng);
    worst(&mut rng);
    dictionary_check();
    readings();
    evaluations();
    explanations();
    runs();
    averages();
    stores();
}
