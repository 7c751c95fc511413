//! `compare leaves SEED COUNT` compares the proved leaves with the second program's, `compare dictionaries SEED COUNT` the check of
//! dictionaries, look-ups and records, `compare requests SEED COUNT` the reader, `compare evaluations SEED COUNT` the evaluator, `compare explanations SEED COUNT` explanations, `compare stores SEED COUNT` calls on stores; `compare times` times both, and `compare stack`
//! measures the stack that the reader uses.

mod evaluations;
mod explanations;
mod houses;
mod leaves;
mod plain;
mod proved;
mod requests;
mod stack;
mod stores;
mod times;

use std::process::ExitCode;

fn main() -> ExitCode {
    let words: Vec<String> = std::env::args().skip(1).collect();
    let words: Vec<&str> = words.iter().map(String::as_str).collect();
    let differences = match words.as_slice() {
        [what, seed, count] => match (*what, seed.parse(), count.parse()) {
            ("leaves", Ok(seed), Ok(count)) => leaves::run(seed, count),
            ("dictionaries", Ok(seed), Ok(count)) => houses::run(seed, count),
            ("requests", Ok(seed), Ok(count)) => requests::run(seed, count),
            ("evaluations", Ok(seed), Ok(count)) => evaluations::run(seed, count),
            ("explanations", Ok(seed), Ok(count)) => explanations::run(seed, count),
            ("stores", Ok(seed), Ok(count)) => stores::run(seed, count),
            _ => return usage(),
        },
        ["stack"] => {
            stack::run();
            0
        }
        ["times"] => {
            times::run();
            0
        }
        _ => return usage(),
    };
    ExitCode::from(u8::from(differences != 0))
}

fn usage() -> ExitCode {
    eprintln!(
        "usage: compare leaves|dictionaries|requests|evaluations|explanations|stores SEED COUNT | compare times|stack"
    );
    ExitCode::from(2)
}
