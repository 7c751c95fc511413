//! The command line of the second program.

use second::cases;
use second::count::Tally;
use second::evaluator::{evaluate_over, evaluate_value, Lent};
use second::explanation::explanation;
use second::generate::{
    self, conditions, explanations, from_values, inputs::inputs, readings, Case, Size,
};
use second::hex;
use second::listing::listing;
use std::fs;
use std::io::{self, BufWriter, Read, Write};
use std::path::Path;
use std::process::ExitCode;

const USAGE: &str = "usage:
  second listing < INPUT
  second explain < INPUT
  second evaluate DICTIONARYHEX REQUESTHEX CONDITION MESSAGESHEX RECORDSHEX [RUNSHEX]
  second value DICTIONARYHEX REQUESTHEX ROW MESSAGESHEX RECORDSHEX RUNSHEX
  second cases small|mixed|readings|conditions|values SEED COUNT
  second count small|mixed|readings|conditions|values SEED COUNT
  second inputs SEED COUNT FOLDER
  second explanations SEED COUNT FOLDER
";

fn main() -> ExitCode {
    let arguments: Vec<String> = std::env::args().skip(1).collect();
    let words: Vec<&str> = arguments.iter().map(String::as_str).collect();
    let done = match words.as_slice() {
        ["listing"] => print_output(listing),
        ["explain"] => print_output(explanation),
        ["evaluate", dictionary, request, condition, messages, records] => {
            evaluate_hex([dictionary, request, messages, records, "-"], condition)
        }
        ["evaluate", dictionary, request, condition, messages, records, runs] => {
            evaluate_hex([dictionary, request, messages, records, runs], condition)
        }
        ["value", dictionary, request, row, messages, records, runs] => {
            value_hex([dictionary, request, messages, records, runs], row)
        }
        ["cases", size, seed, count] => print_cases(size, seed, count),
        ["count", size, seed, count] => print_count(size, seed, count),
        ["inputs", seed, count, folder] => write_inputs(inputs, seed, count, Path::new(folder)),
        ["explanations", seed, count, folder] => {
            write_inputs(explanations::inputs, seed, count, Path::new(folder))
        }
        _ => None,
    };
    match done {
        Some(Ok(())) => ExitCode::SUCCESS,
        Some(Err(error)) => {
            eprintln!("{error}");
            ExitCode::FAILURE
        }
        None => {
            eprint!("{USAGE}");
            ExitCode::FAILURE
        }
    }
}

/// What a program prints for the standard input.
fn print_output(program: fn(&[u8]) -> String) -> Option<io::Result<()>> {
    let mut input = Vec::new();
    let read = io::stdin().read_to_end(&mut input);
    Some(read.and_then(|_| io::stdout().write_all(program(&input).as_bytes())))
}

/// The outcome of one evaluation; nothing if an argument cannot be read.
fn evaluate_hex(strings: [&str; 5], condition: &str) -> Option<io::Result<()>> {
    let mut bytes = Vec::new();
    for string in strings {
        bytes.push(hex::read(string)?);
    }
    let condition: usize = condition.parse().ok()?;
    let lent = Lent { messages: &bytes[2], records: &bytes[3], runs: &bytes[4] };
    let outcome = match evaluate_over(&bytes[1], &bytes[0], condition, lent) {
        Ok(answer) => cases::answer_name(answer).to_string(),
        Err(refusal) => format!("refused {} at {}", refusal.number, refusal.place),
    };
    Some(writeln!(io::stdout(), "{outcome}"))
}

/// The outcome of one from-value; nothing if an argument cannot be read.
fn value_hex(strings: [&str; 5], row: &str) -> Option<io::Result<()>> {
    let mut bytes = Vec::new();
    for string in strings {
        bytes.push(hex::read(string)?);
    }
    let lent = Lent { messages: &bytes[2], records: &bytes[3], runs: &bytes[4] };
    let outcome = match evaluate_value(&bytes[1], &bytes[0], row.parse().ok()?, lent) {
        Ok(answer) => cases::value_answer(&answer),
        Err(refusal) => format!("refused {} at {}", refusal.number, refusal.place),
    };
    Some(writeln!(io::stdout(), "{outcome}"))
}

/// The cases of a size, readings, conditions, or from-values, of a seed; nothing if an argument
/// cannot be read.
fn run(kind: &str, seed: &str, count: &str) -> Option<Box<dyn Iterator<Item = Case>>> {
    let (seed, count) = (seed.parse().ok()?, count.parse().ok()?);
    Some(match kind {
        "readings" => Box::new(readings::cases(seed, count)),
        "conditions" => Box::new(conditions::cases(seed, count)),
        "values" => Box::new(from_values::cases(seed, count)),
        size => Box::new(generate::cases(Size::named(size)?, seed, count)),
    })
}

fn print_cases(size: &str, seed: &str, count: &str) -> Option<io::Result<()>> {
    let mut output = BufWriter::new(io::stdout());
    for case in run(size, seed, count)? {
        if let Err(error) = writeln!(output, "{}", cases::line(&case)) {
            return Some(Err(error));
        }
    }
    Some(output.flush())
}

fn print_count(size: &str, seed: &str, count: &str) -> Option<io::Result<()>> {
    let tally = Tally::of(run(size, seed, count)?);
    Some(write!(io::stdout(), "{}", tally.table()))
}

/// Inputs of a program as files of a folder, each under its number.
fn write_inputs(
    inputs: fn(u64, usize) -> Vec<Vec<u8>>,
    seed: &str,
    count: &str,
    folder: &Path,
) -> Option<io::Result<()>> {
    let inputs = inputs(seed.parse().ok()?, count.parse().ok()?);
    for (number, input) in inputs.iter().enumerate() {
        if let Err(error) = fs::write(folder.join(format!("{number:04}")), input) {
            return Some(Err(error));
        }
    }
    Some(Ok(()))
}
