//! Cases as lines: the input, `=`, and the outcome.
//!
//! `read DICTIONARY REQUEST LENGTHS.. = accepted S P C | rows ; .. | rows ; .. | rows ; ..`,
//! `evaluate DICTIONARY REQUEST CONDITION MESSAGES RECORDS RUNS = true`, or `= refused NUMBER
//! PLACE`. Where no byte of a run is lent, RUNS is left out. A table without rows has nothing
//! between its bars. A missing answer stands with its cause: `= missing bit`, `= missing reading`,
//! `= missing flag` or `= missing nothing`.
//!
//! `value DICTIONARY REQUEST ROW MESSAGES RECORDS RUNS = number NUMBER SCALE`, `= text BYTES`,
//! `= date DAY FRACTION`, `= missing CAUSE` or `= refused NUMBER PLACE`.

use crate::evaluator::{evaluate_over, evaluate_value, Answer, Lent, ValueAnswer};
use crate::generate::Case;
use crate::hex;
use crate::reader::{self, WIDTHS};
use crate::record::Cause;
use crate::refusal::Refusal;

/// A case and its outcome.
pub fn line(case: &Case) -> String {
    format!("{} = {}", input(case), outcome(case))
}

/// The input of a case.
pub fn input(case: &Case) -> String {
    match case {
        Case::Read { dictionary, request, lengths } => {
            let lengths = lengths.map(|length| length.to_string()).join(" ");
            format!("read {} {} {lengths}", hex::write(dictionary), hex::write(request))
        }
        Case::Evaluate { dictionary, request, condition, messages, records, runs } => {
            let [dictionary, request, messages, records] =
                [dictionary, request, messages, records].map(|bytes| hex::write(bytes));
            let runs = last_word(runs);
            format!("evaluate {dictionary} {request} {condition} {messages} {records}{runs}")
        }
        Case::Value { dictionary, request, row, messages, records, runs } => {
            let [dictionary, request, messages, records] =
                [dictionary, request, messages, records].map(|bytes| hex::write(bytes));
            let runs = last_word(runs);
            format!("value {dictionary} {request} {row} {messages} {records}{runs}")
        }
    }
}

/// A blank and the runs; nothing where they are empty.
fn last_word(runs: &[u8]) -> String {
    match runs.is_empty() {
        true => String::new(),
        false => format!(" {}", hex::write(runs)),
    }
}

/// The outcome of a case.
pub fn outcome(case: &Case) -> String {
    let result = match case {
        Case::Read { dictionary, request, lengths } => read(dictionary, request, *lengths),
        Case::Evaluate { dictionary, request, condition, messages, records, runs } => {
            let lent = Lent { messages, records, runs };
            let result = evaluate_over(request, dictionary, *condition, lent);
            result.map(|answer| answer_and_cause(answer).to_string())
        }
        Case::Value { dictionary, request, row, messages, records, runs } => {
            let lent = Lent { messages, records, runs };
            evaluate_value(request, dictionary, *row, lent).map(|answer| value_answer(&answer))
        }
    };
    result.unwrap_or_else(|refusal| format!("refused {} {}", refusal.number, refusal.place))
}

/// The name of an answer, without its cause.
pub fn answer_name(answer: Answer) -> &'static str {
    match answer {
        Answer::True => "true",
        Answer::False => "false",
        Answer::Missing(_) => "missing",
    }
}

/// The name of an answer, that of a missing one with its cause.
pub fn answer_and_cause(answer: Answer) -> &'static str {
    match answer {
        Answer::Missing(Cause::Bit) => "missing bit",
        Answer::Missing(Cause::Reading) => "missing reading",
        Answer::Missing(Cause::Flag) => "missing flag",
        Answer::Missing(Cause::Nothing) => "missing nothing",
        Answer::True | Answer::False => answer_name(answer),
    }
}

/// A from-value as words.
pub fn value_answer(answer: &ValueAnswer) -> String {
    match answer {
        ValueAnswer::Number(number, scale) => format!("number {number} {scale}"),
        ValueAnswer::Text(text) => format!("text {}", hex::write(text)),
        ValueAnswer::Date(day, fraction) => format!("date {day} {fraction}"),
        ValueAnswer::Missing(cause) => answer_and_cause(Answer::Missing(*cause)).to_string(),
    }
}

/// The counts and rows of an accepted request.
fn read(dictionary: &[u8], request: &[u8], lengths: [usize; 3]) -> Result<String, Refusal> {
    let [mut statements, mut parameters, mut contexts] = lengths.map(|length| vec![0; length]);
    let counts =
        reader::read(request, dictionary, &mut statements, &mut parameters, &mut contexts)?;
    let numbers = [counts.statements, counts.parameters, counts.contexts];
    let mut line = format!("accepted {} {} {}", numbers[0], numbers[1], numbers[2]);
    for (at, table) in [statements, parameters, contexts].iter().enumerate() {
        line.push_str(" |");
        line.push_str(&rows(table, WIDTHS[at], numbers[at]));
    }
    Ok(line)
}

/// The first rows of a table, each with a blank before it.
fn rows(table: &[u32], width: usize, count: u32) -> String {
    let row = |row: &[u32]| {
        let numbers: Vec<String> = row.iter().map(u32::to_string).collect();
        format!(" {}", numbers.join(" "))
    };
    let rows: Vec<String> = table.chunks(width).take(count as usize).map(row).collect();
    rows.join(" ;")
}
