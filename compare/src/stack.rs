//! The stack that the proved reader and evaluator use: each works on a stack of known bytes, and what is no longer known was used.

use crate::explanations::TEST_TABLE;
use crate::proved;
use crate::times::house_record;
use second::generate::{assemble, data, dictionaries};
use second::reader::TABLE_LENGTHS;
use second::wire;
use std::ffi::{c_int, c_void};

const STACK: usize = 4 << 20;
const UNUSED: u8 = 0xA5;

/// A thread's attributes, at least as large as the C library's.
#[repr(C, align(16))]
struct Attributes([u8; 256]);

extern "C" {
    fn pthread_attr_init(attributes: *mut Attributes) -> c_int;
    fn pthread_attr_setstack(attributes: *mut Attributes, stack: *mut c_void, size: usize)
        -> c_int;
    fn pthread_create(
        thread: *mut usize,
        attributes: *const Attributes,
        start: extern "C" fn(*mut c_void) -> *mut c_void,
        argument: *mut c_void,
    ) -> c_int;
    fn pthread_join(thread: usize, result: *mut *mut c_void) -> c_int;
}

/// What is done on the stack that is measured.
enum Work {
    Nothing,
    Read(Vec<u8>),
    Evaluate(Vec<u8>, Vec<u8>),
    Explain(Vec<u8>, Vec<u8>),
}

struct Job {
    work: Work,
    dictionary: Vec<u8>,
    tables: [Vec<u32>; 3],
    tests: Vec<u32>,
}

/// Reads the request, or evaluates or explains its first condition with one long as message, no records, and runs.
extern "C" fn work(job: *mut c_void) -> *mut c_void {
    let job = unsafe { &mut *job.cast::<Job>() };
    let [statements, parameters, contexts] = &mut job.tables;
    match &job.work {
        Work::Nothing => {}
        Work::Read(request) => {
            let answer = proved::read(request, &job.dictionary, statements, parameters, contexts);
            answer.expect("a request that the rules allow");
        }
        Work::Evaluate(request, runs) => {
            let given = proved::evaluation(request, &job.dictionary, 0, &[0; 4], &[], runs);
            assert!(given & 0xff < 3, "a condition that comes out");
        }
        Work::Explain(request, runs) => {
            let (dictionary, tests) = (&job.dictionary, &mut job.tests);
            let given = proved::explanation(request, dictionary, 0, &[0; 4], &[], runs, tests);
            assert!(given & 0xff == 7, "a condition that comes out");
        }
    }
    std::ptr::null_mut()
}

/// The bytes of a stack that a thread wrote to.
fn used(work: Work) -> usize {
    let dictionary = dictionaries::encode(&dictionaries::house());
    let tables = TABLE_LENGTHS.map(|length| vec![0; length]);
    let mut job = Job { work, dictionary, tables, tests: vec![0; TEST_TABLE] };
    let mut stack = vec![UNUSED; STACK + 4096];
    let start = stack.as_ptr().align_offset(4096);
    let mut attributes = Attributes([0; 256]);
    let mut thread = 0;
    // The stack and the job outlive the thread, which is joined.
    let failed = unsafe {
        pthread_attr_init(&mut attributes)
            | pthread_attr_setstack(&mut attributes, stack[start..].as_mut_ptr().cast(), STACK)
            | pthread_create(&mut thread, &attributes, self::work, (&raw mut job).cast())
            | pthread_join(thread, std::ptr::null_mut())
    };
    assert_eq!(failed, 0, "a thread on a stack of its own");
    STACK - stack[start..start + STACK].iter().take_while(|byte| **byte == UNUSED).count()
}

/// A request of the greatest depth, 32: so many statements, each inside the one before, around an innermost one.
fn nested(levels: usize, inner: Vec<u8>, around: impl Fn(usize, Vec<u8>) -> Vec<u8>) -> Vec<u8> {
    let body = (0..levels).fold(inner, |inner, level| around(level, inner));
    let message = assemble::message(0, &[&[wire::LONG, 0]]);
    assemble::request(&[&message, &body])
}

fn headed(head: &[u8], inner: Vec<u8>) -> Vec<u8> {
    [head, &inner].concat()
}

/// Operators around a literal, down to the last level, in an assignment or a condition.
fn operators(codes: &[u8]) -> Vec<u8> {
    headed(codes, assemble::short(0, 1))
}

/// Prints the stack that requests of the greatest depth use, by what is nested in them.
pub fn run() {
    let empty = vec![wire::BEGIN, wire::END];
    let assign = |value: Vec<u8>| {
        headed(&[wire::SEND, 0], assemble::assignment(&value, &assemble::parameter(0, 0)))
    };
    let conditional =
        |boolean: Vec<u8>| [&[wire::IF], boolean.as_slice(), &empty, &[wire::END]].concat();
    let loops = |level, inner| {
        assemble::for_loop(&[&assemble::rid(1, level as u8)], &[], &Vec::<u8>::clone(&inner))
    };
    let test = [&[wire::BOOLEAN, wire::MISSING], assemble::short(0, 1).as_slice()].concat();
    let streams: Vec<Vec<u8>> = (0..8).map(|context| assemble::rid(1, context)).collect();
    let streams: Vec<&[u8]> = streams.iter().map(Vec::as_slice).collect();
    let eight_streams = assemble::for_loop(&streams, &test, &empty);
    let store = [&[wire::STORE], assemble::rid(1, 0).as_slice(), &empty].concat();
    let block = |count| {
        [vec![wire::BEGIN], [wire::BEGIN, wire::END].repeat(count), vec![wire::END]].concat()
    };
    let cases = [
        (
            "begin",
            nested(30, empty.clone(), |_, inner| {
                [&[wire::BEGIN], inner.as_slice(), &[wire::END]].concat()
            }),
        ),
        ("loop", nested(30, empty.clone(), |_, inner| headed(&[wire::LOOP], inner))),
        ("label", nested(30, empty.clone(), |_, inner| headed(&[wire::LABEL, 1], inner))),
        (
            "if",
            nested(29, empty.clone(), |_, inner| {
                let test = assemble::operator(wire::MISSING, &[&assemble::short(0, 1)]);
                [&[wire::IF], test.as_slice(), &inner, &[wire::END]].concat()
            }),
        ),
        (
            "select",
            nested(15, empty.clone(), |_, inner| {
                [&[wire::SELECT, wire::RECEIVE, 0], inner.as_slice(), &[wire::END]].concat()
            }),
        ),
        ("for", nested(30, empty.clone(), loops)),
        ("negate", nested(1, operators(&[wire::NEGATE; 28]), |_, value| assign(value))),
        (
            "not",
            nested(1, operators(&[&[wire::NOT; 28][..], &[wire::MISSING]].concat()), |_, test| {
                conditional(test)
            }),
        ),
        (
            "loop, then for of 8 streams",
            nested(28, eight_streams, |_, inner| headed(&[wire::LOOP], inner)),
        ),
        ("loop, then store", nested(29, store, |_, inner| headed(&[wire::LOOP], inner))),
        (
            "loop, then assignment",
            nested(28, assign(assemble::parameter(0, 0)), |_, inner| headed(&[wire::LOOP], inner)),
        ),
        ("500 statements in a begin", nested(0, block(500), |_, inner| inner)),
        (
            "loop, then 450 in a begin",
            nested(28, block(450), |_, inner| headed(&[wire::LOOP], inner)),
        ),
    ];
    let own = used(Work::Nothing);
    for (name, request) in cases {
        println!("{name:<32} {:>8} bytes of stack", used(Work::Read(request)) - own);
    }
    for (name, request, runs) in deepest_conditions() {
        let explained = used(Work::Explain(request.clone(), runs.clone())) - own;
        println!("{name:<32} {:>8} bytes of stack", used(Work::Evaluate(request, runs)) - own);
        println!("{:<32} {explained:>8} bytes of stack", name.replace("evaluation", "explanation"));
    }
}

/// Conditions of the greatest depth, with their runs: not, negate under one test, any in any and total in total, in its condition and in its
/// number, with a record for each.
fn deepest_conditions() -> Vec<(&'static str, Vec<u8>, Vec<u8>)> {
    let conditional = |boolean: Vec<u8>| {
        let body = [&[wire::IF], boolean.as_slice(), &[wire::BEGIN, wire::END], &[wire::END]];
        nested(0, body.concat(), |_, inner| inner)
    };
    let value = assemble::parameter(0, 0);
    let nots = [&[wire::NOT; 28][..], &[wire::MISSING], &value].concat();
    let negates = [&[wire::MISSING][..], &[wire::NEGATE; 28], &value].concat();
    let sums =
        (0..28).fold(value.clone(), |rest, _| assemble::operator(wire::ADD, &[&rest, &value]));
    let test = assemble::operator(wire::MISSING, &[&value]);
    let anys = (0..28).fold(test, |inner, context| {
        let clauses = [&[wire::BOOLEAN], inner.as_slice()].concat();
        assemble::over(wire::ANY, &assemble::rid(1, context), &clauses)
    });
    let totals = (0..27).fold(value.clone(), |inner, context| {
        assemble::statistic(wire::TOTAL, &assemble::rid(1, context), &[], &inner)
    });
    let tests = (0..14).fold(assemble::operator(wire::MISSING, &[&value]), |inner, context| {
        let clauses = [&[wire::BOOLEAN], inner.as_slice()].concat();
        let total = assemble::statistic(wire::TOTAL, &assemble::rid(1, context), &clauses, &value);
        assemble::operator(wire::MISSING, &[&total])
    });
    let run = data::run(&[house_record()]);
    let runs = run.repeat(28);
    vec![
        ("evaluation: not", conditional(nots), vec![]),
        ("evaluation: negate", conditional(negates), vec![]),
        ("evaluation: add", conditional(assemble::operator(wire::MISSING, &[&sums])), vec![]),
        ("evaluation: any", conditional(anys), runs),
        (
            "evaluation: total of totals",
            conditional(assemble::operator(wire::MISSING, &[&totals])),
            run.repeat(27),
        ),
        ("evaluation: total by total", conditional(tests), run.repeat(14)),
    ]
}
