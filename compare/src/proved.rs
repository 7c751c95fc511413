//! The proved functions, behind safe ones. Nothing checks these declarations against the Rattle source
//! `crates/greenblr/src/lib.rt`, `crates/greenblr/src/stores.rt` and `crates/leaf_exports/src/lib.rt`: they pass numbers and slices only, and every function there is total.

use second::hex;
use second::store::Call;
use std::cmp::Ordering;

#[allow(improper_ctypes)]
extern "C" {
    fn greenblr_read(
        request: *const u8,
        request_length: usize,
        dictionary: *const u8,
        dictionary_length: usize,
        statements: *mut u32,
        statements_length: usize,
        parameters: *mut u32,
        parameters_length: usize,
        contexts: *mut u32,
        contexts_length: usize,
        answer: *mut usize,
    ) -> u32;
    fn greenblr_evaluate(
        request: *const u8,
        request_length: usize,
        dictionary: *const u8,
        dictionary_length: usize,
        number: usize,
        images: *const u8,
        images_length: usize,
        records: *const u8,
        records_length: usize,
        runs: *const u8,
        runs_length: usize,
    ) -> u64;
    fn greenblr_evaluate_value(
        request: *const u8,
        request_length: usize,
        dictionary: *const u8,
        dictionary_length: usize,
        row: usize,
        images: *const u8,
        images_length: usize,
        records: *const u8,
        records_length: usize,
        runs: *const u8,
        runs_length: usize,
        answer: *mut i64,
    ) -> u64;
    fn greenblr_explain(
        request: *const u8,
        request_length: usize,
        dictionary: *const u8,
        dictionary_length: usize,
        number: usize,
        images: *const u8,
        images_length: usize,
        records: *const u8,
        records_length: usize,
        runs: *const u8,
        runs_length: usize,
        tests: *mut u32,
        tests_length: usize,
    ) -> u64;
    fn greenblr_store_make(
        dictionary: *const u8,
        dictionary_length: usize,
        buffer: *mut u8,
        buffer_length: usize,
        relation: u32,
        answer: *mut usize,
    ) -> u32;
    fn greenblr_store_add(
        dictionary: *const u8,
        dictionary_length: usize,
        buffer: *mut u8,
        buffer_length: usize,
        entry: *const u8,
        entry_length: usize,
        answer: *mut usize,
    ) -> u32;
    fn greenblr_store_erase(
        dictionary: *const u8,
        dictionary_length: usize,
        buffer: *mut u8,
        buffer_length: usize,
        position: usize,
        answer: *mut usize,
    ) -> u32;
    fn greenblr_store_replace(
        dictionary: *const u8,
        dictionary_length: usize,
        buffer: *mut u8,
        buffer_length: usize,
        position: usize,
        entry: *const u8,
        entry_length: usize,
        answer: *mut usize,
    ) -> u32;
    fn greenblr_store_read(
        dictionary: *const u8,
        dictionary_length: usize,
        buffer: *const u8,
        buffer_length: usize,
        answer: *mut usize,
    ) -> u32;
    fn greenblr_store_find(
        dictionary: *const u8,
        dictionary_length: usize,
        buffer: *const u8,
        buffer_length: usize,
        position: usize,
        answer: *mut usize,
    ) -> u32;
    fn leaf_compute(
        operation: u8,
        a: i64,
        a_scale: i8,
        b: i64,
        b_scale: i8,
        answer: *mut i64,
    ) -> u32;
    fn leaf_compare(a: i64, a_scale: i8, b: i64, b_scale: i8) -> i64;
    fn leaf_text_malformed(text_type: u8, bytes: *const u8, length: usize) -> bool;
    fn leaf_text_start(text_type: u8, bytes: *const u8, length: usize) -> usize;
    fn leaf_text_end(text_type: u8, bytes: *const u8, length: usize) -> usize;
    fn leaf_text_length(text_type: u8, bytes: *const u8, length: usize) -> usize;
    fn leaf_text_compare(a: *const u8, a_length: usize, b: *const u8, b_length: usize) -> i64;
    fn leaf_search(
        search: u8,
        a: *const u8,
        a_length: usize,
        b: *const u8,
        b_length: usize,
    ) -> bool;
    fn leaf_word(bytes: *const u8, length: usize, at: usize) -> u32;
    fn leaf_long(bytes: *const u8, length: usize, at: usize) -> u32;
    fn leaf_signed_word(bytes: *const u8, length: usize, at: usize) -> i64;
    fn leaf_signed_long(bytes: *const u8, length: usize, at: usize) -> i64;
    fn house_proper(bytes: *const u8, length: usize) -> bool;
    fn house_fault(bytes: *const u8, length: usize) -> usize;
    fn house_named(bytes: *const u8, length: usize, name: *const u8, name_length: usize) -> usize;
    fn house_numbered(bytes: *const u8, length: usize, id: u32) -> usize;
    fn house_records_due(
        bytes: *const u8,
        length: usize,
        relations: *const u32,
        count: usize,
        run: *const u8,
        run_length: usize,
    ) -> bool;
    fn house_records_wrong(
        bytes: *const u8,
        length: usize,
        relations: *const u32,
        count: usize,
        run: *const u8,
        run_length: usize,
    ) -> usize;
    fn house_missing(
        bytes: *const u8,
        length: usize,
        relation: usize,
        run: *const u8,
        run_length: usize,
        place: usize,
        field: usize,
    ) -> u32;
    fn house_offset(bytes: *const u8, length: usize, relation: usize, field: usize) -> usize;
    fn house_length(bytes: *const u8, length: usize, relation: usize) -> usize;
}

/// A scaled number.
#[derive(Clone, Copy, Debug, PartialEq, Eq)]
pub struct Number {
    pub value: i64,
    pub scale: i8,
}

/// What an operation gives: a number, or refusal 24 or 25.
#[derive(Clone, Copy, Debug, PartialEq, Eq)]
pub enum Computed {
    Value(Number),
    Refused(u32),
}

/// The operations, by the numbers that the exports give them.
pub const ADD: u8 = 0;
pub const SUBTRACT: u8 = 1;
pub const MULTIPLY: u8 = 2;
pub const DIVIDE: u8 = 3;
pub const NEGATE: u8 = 4;
pub const RESCALE: u8 = 5;
pub const DIVIDE5: u8 = 6;

/// The result of an operation, from the number of a refusal, or 0, and the value and scale left in the answer.
pub fn computed(refusal: u32, answer: [i64; 2]) -> Computed {
    match refusal {
        0 => Computed::Value(Number { value: answer[0], scale: answer[1] as i8 }),
        _ => Computed::Refused(refusal),
    }
}

pub fn compute(operation: u8, a: Number, b: Number) -> Computed {
    let mut answer = [i64::MAX; 2];
    let pointer = answer.as_mut_ptr();
    // Numbers are passed, and an array that is borrowed for the call alone.
    let refusal = unsafe { leaf_compute(operation, a.value, a.scale, b.value, b.scale, pointer) };
    computed(refusal, answer)
}

fn ordering(sign: i64) -> Ordering {
    sign.cmp(&0)
}

/// The order of two numbers.
pub fn compare(a: Number, b: Number) -> Ordering {
    ordering(unsafe { leaf_compare(a.value, a.scale, b.value, b.scale) })
}

/// Start and end of a text's value, or nothing if it is malformed; and the length of the part that the text reader returns.
pub fn text(text_type: u8, bytes: &[u8]) -> (Option<(usize, usize)>, usize) {
    let (pointer, length) = (bytes.as_ptr(), bytes.len());
    // The pointer and the length are those of one slice, here and below.
    unsafe {
        let part = if leaf_text_malformed(text_type, pointer, length) {
            None
        } else {
            Some((
                leaf_text_start(text_type, pointer, length),
                leaf_text_end(text_type, pointer, length),
            ))
        };
        (part, leaf_text_length(text_type, pointer, length))
    }
}

/// The order of two texts.
pub fn compare_texts(a: &[u8], b: &[u8]) -> Ordering {
    ordering(unsafe { leaf_text_compare(a.as_ptr(), a.len(), b.as_ptr(), b.len()) })
}

/// Containing 0, matching 1, starting 2.
pub fn search(search: u8, a: &[u8], b: &[u8]) -> bool {
    unsafe { leaf_search(search, a.as_ptr(), a.len(), b.as_ptr(), b.len()) }
}

/// The unsigned and signed words and four-byte numbers at a place.
pub fn numbers_at(bytes: &[u8], at: usize) -> (u32, u32, i64, i64) {
    let (pointer, length) = (bytes.as_ptr(), bytes.len());
    unsafe {
        (
            leaf_word(pointer, length, at),
            leaf_long(pointer, length, at),
            leaf_signed_word(pointer, length, at),
            leaf_signed_long(pointer, length, at),
        )
    }
}

/// The first entry at fault, if the dictionary isn't proper.
pub fn check(bytes: &[u8]) -> Option<usize> {
    let (pointer, length) = (bytes.as_ptr(), bytes.len());
    unsafe { (!house_proper(pointer, length)).then(|| house_fault(pointer, length)) }
}

/// The place of a relation's entry; the exports give the length where there is none.
pub fn relation_named(bytes: &[u8], name: &[u8]) -> Option<usize> {
    let place = unsafe { house_named(bytes.as_ptr(), bytes.len(), name.as_ptr(), name.len()) };
    Some(place).filter(|place| *place < bytes.len())
}

pub fn relation_numbered(bytes: &[u8], id: u32) -> Option<usize> {
    let place = unsafe { house_numbered(bytes.as_ptr(), bytes.len(), id) };
    Some(place).filter(|place| *place < bytes.len())
}

/// The first fault of a run of records against relations, by the places of their entries.
pub fn records(bytes: &[u8], relations: &[u32], run: &[u8]) -> Option<usize> {
    let (pointer, length) = (bytes.as_ptr(), bytes.len());
    let (places, count) = (relations.as_ptr(), relations.len());
    unsafe {
        (!house_records_due(pointer, length, places, count, run.as_ptr(), run.len()))
            .then(|| house_records_wrong(pointer, length, places, count, run.as_ptr(), run.len()))
    }
}

/// Of a field in the record at a place: 0 if it is there, 1 or 2 if it is missing by its bit or as a reading; its offset; and
/// the length of the record.
pub fn field(
    bytes: &[u8],
    relation: usize,
    run: &[u8],
    place: usize,
    field: usize,
) -> (u32, usize, usize) {
    let (pointer, length) = (bytes.as_ptr(), bytes.len());
    unsafe {
        (
            house_missing(pointer, length, relation, run.as_ptr(), run.len(), place, field),
            house_offset(pointer, length, relation, field),
            house_length(pointer, length, relation),
        )
    }
}

/// The counts of rows of an accepted request, or the number and the place of a refusal.
pub fn read(
    request: &[u8],
    dictionary: &[u8],
    statements: &mut [u32],
    parameters: &mut [u32],
    contexts: &mut [u32],
) -> Result<[u32; 3], (u32, u32)> {
    let mut answer = [usize::MAX; 3];
    // Each slice passes as a pointer and its length, and is borrowed for the call alone.
    let number = unsafe {
        greenblr_read(
            request.as_ptr(),
            request.len(),
            dictionary.as_ptr(),
            dictionary.len(),
            statements.as_mut_ptr(),
            statements.len(),
            parameters.as_mut_ptr(),
            parameters.len(),
            contexts.as_mut_ptr(),
            contexts.len(),
            answer.as_mut_ptr(),
        )
    };
    match number {
        0 => Ok(answer.map(|count| count as u32)),
        _ => Err((number, answer[0] as u32)),
    }
}

/// The answer of an evaluation, as include/greenblr.h lays it out.
pub fn evaluation(
    request: &[u8],
    dictionary: &[u8],
    condition: usize,
    messages: &[u8],
    records: &[u8],
    runs: &[u8],
) -> u64 {
    // Each slice passes as a pointer and its length, and is borrowed for the call alone.
    unsafe {
        greenblr_evaluate(
            request.as_ptr(),
            request.len(),
            dictionary.as_ptr(),
            dictionary.len(),
            condition,
            messages.as_ptr(),
            messages.len(),
            records.as_ptr(),
            records.len(),
            runs.as_ptr(),
            runs.len(),
        )
    }
}

/// What an evaluation comes out as: an answer, a missing one with its cause, or a refusal with its number and its place.
pub fn evaluate(
    request: &[u8],
    dictionary: &[u8],
    condition: usize,
    messages: &[u8],
    records: &[u8],
    runs: &[u8],
) -> String {
    let given = evaluation(request, dictionary, condition, messages, records, runs);
    match given & 0xff {
        0 => "false".to_string(),
        1 => "true".to_string(),
        2 => format!("missing {}", cause(given >> 8 & 0xff)),
        _ => format!("refused {} {}", given >> 8 & 0xff, given >> 16),
    }
}

/// The number that the evaluation of a from-value gives, and the three that it writes.
pub fn value_evaluation(
    request: &[u8],
    dictionary: &[u8],
    row: usize,
    messages: &[u8],
    records: &[u8],
    runs: &[u8],
) -> (u64, [i64; 3]) {
    // What is not written would be seen.
    let mut answer = [i64::MIN; 3];
    // Each slice passes as a pointer and its length, and is borrowed for the call alone.
    let given = unsafe {
        greenblr_evaluate_value(
            request.as_ptr(),
            request.len(),
            dictionary.as_ptr(),
            dictionary.len(),
            row,
            messages.as_ptr(),
            messages.len(),
            records.as_ptr(),
            records.len(),
            runs.as_ptr(),
            runs.len(),
            answer.as_mut_ptr(),
        )
    };
    (given, answer)
}

/// What a from-value comes out as: a number with its scale, a text, a date, missing with its cause, or a refusal with its number and its
/// place; other numbers than are due stand behind it.
pub fn evaluate_value(
    request: &[u8],
    dictionary: &[u8],
    row: usize,
    messages: &[u8],
    records: &[u8],
    runs: &[u8],
) -> String {
    let (given, answer) = value_evaluation(request, dictionary, row, messages, records, runs);
    let [first, second, third] = answer;
    let (word, zeros) = match given {
        4 => (format!("number {first} {second}"), &answer[2..]),
        5 => {
            let inputs = [request, dictionary, messages, records, runs];
            let text = &inputs[first as usize][second as usize..third as usize];
            (format!("text {}", hex::write(text)), &answer[3..])
        }
        6 => (format!("date {first} {second}"), &answer[2..]),
        _ if given & 0xff == 2 => (format!("missing {}", cause(given >> 8)), &answer[..]),
        _ => (format!("refused {} {}", given >> 8 & 0xff, given >> 16), &answer[..]),
    };
    match zeros.iter().all(|number| *number == 0) {
        true => word,
        false => format!("{word} with {answer:?}"),
    }
}

/// The number that an explanation gives, with the tests in a table.
pub fn explanation(
    request: &[u8],
    dictionary: &[u8],
    number: usize,
    messages: &[u8],
    records: &[u8],
    runs: &[u8],
    tests: &mut [u32],
) -> u64 {
    // Each slice passes as a pointer and its length, and is borrowed for the call alone.
    unsafe {
        greenblr_explain(
            request.as_ptr(),
            request.len(),
            dictionary.as_ptr(),
            dictionary.len(),
            number,
            messages.as_ptr(),
            messages.len(),
            records.as_ptr(),
            records.len(),
            runs.as_ptr(),
            runs.len(),
            tests.as_mut_ptr(),
            tests.len(),
        )
    }
}

/// What an explanation comes out as in a table of so many numbers: a line for each test, or the refusal; numbers of the table that are not
/// as due stand behind it.
pub fn explain(
    request: &[u8],
    dictionary: &[u8],
    number: usize,
    messages: &[u8],
    records: &[u8],
    runs: &[u8],
    room: usize,
) -> String {
    // What is not written would be seen.
    let mut tests = vec![u32::MAX; room];
    let given = explanation(request, dictionary, number, messages, records, runs, &mut tests);
    let count = if given & 0xffff == 7 { (given >> 16) as usize } else { 0 };
    let (rows, rest) = tests.split_at(room.min(2 * count));
    let line = |row: &[u32]| match row {
        [place, 0] => format!("{place} false\n"),
        [place, 1] => format!("{place} true\n"),
        [place, 2] => format!("{place} missing\n"),
        other => format!("{other:?}\n"),
    };
    let mut words: String = rows.chunks(2).map(line).collect();
    if given & 0xff == 3 {
        words = format!("refused {} at {}\n", given >> 8 & 0xff, given >> 16);
    }
    if rest.iter().any(|number| *number != 0) {
        words += &format!("with {rest:?}");
    }
    words
}

/// The name of a cause.
fn cause(number: u64) -> String {
    match number {
        1 => "bit".to_string(),
        2 => "reading".to_string(),
        3 => "flag".to_string(),
        4 => "nothing".to_string(),
        other => format!("by {other}"),
    }
}

/// The answer of a function of a store, or the number and the place of the refusal.
fn stored(number: u32, answer: [usize; 3]) -> Result<[usize; 3], (u32, usize)> {
    match number {
        0 => Ok(answer),
        _ => Err((number, answer[0])),
    }
}

/// A call on the store in a buffer.
pub fn store_call(dictionary: &[u8], buffer: &mut [u8], call: &Call) -> Result<(), (u32, usize)> {
    let mut answer = [usize::MAX; 3];
    let (words, length) = (dictionary.as_ptr(), dictionary.len());
    let (bytes, room) = (buffer.as_mut_ptr(), buffer.len());
    let out = answer.as_mut_ptr();
    // Each slice passes as a pointer and its length, and is borrowed for the call alone.
    let number = unsafe {
        match call {
            Call::Make(id) => greenblr_store_make(words, length, bytes, room, *id, out),
            Call::Add(entry) => {
                greenblr_store_add(words, length, bytes, room, entry.as_ptr(), entry.len(), out)
            }
            Call::Erase(position) => {
                greenblr_store_erase(words, length, bytes, room, *position, out)
            }
            Call::Replace(position, entry) => {
                let (pointer, size) = (entry.as_ptr(), entry.len());
                greenblr_store_replace(words, length, bytes, room, *position, pointer, size, out)
            }
        }
    };
    stored(number, answer).map(|_| ())
}

/// The relation's id, the record count and the missing count of the store in a buffer.
pub fn store_read(dictionary: &[u8], buffer: &[u8]) -> Result<[usize; 3], (u32, usize)> {
    let mut answer = [usize::MAX; 3];
    let (bytes, room) = (buffer.as_ptr(), buffer.len());
    let out = answer.as_mut_ptr();
    let number =
        unsafe { greenblr_store_read(dictionary.as_ptr(), dictionary.len(), bytes, room, out) };
    stored(number, answer)
}

/// The place and the length of the record at a position, and zero.
pub fn store_find(
    dictionary: &[u8],
    buffer: &[u8],
    position: usize,
) -> Result<[usize; 3], (u32, usize)> {
    let mut answer = [usize::MAX; 3];
    let (bytes, room) = (buffer.as_ptr(), buffer.len());
    let out = answer.as_mut_ptr();
    let number = unsafe {
        greenblr_store_find(dictionary.as_ptr(), dictionary.len(), bytes, room, position, out)
    };
    stored(number, answer)
}
