//! Cases that independent programs agreed on (`tests/agreed/README.md`): all must agree.

use second::cases;
use second::explanation::explanation;
use second::generate::evaluations::outcome;
use second::generate::Case;
use second::hex;
use second::listing::listing;

/// A file with its number of cases.
type File = (&'static str, usize);

/// The files whose missing answers have no causes.
const WITHOUT_CAUSES: [File; 2] =
    [(include_str!("agreed/evaluations.txt"), 165), (include_str!("agreed/no-01.txt"), 28)];

/// The files whose missing answers have causes.
const WITH_CAUSES: [File; 6] = [
    (include_str!("agreed/no-03.txt"), 42),
    (include_str!("agreed/no-04.txt"), 167),
    (include_str!("agreed/no-06.txt"), 160),
    (include_str!("agreed/no-07.txt"), 42),
    (include_str!("agreed/no-08.txt"), 308),
    (include_str!("agreed/no-09.txt"), 242),
];

/// The case of an input.
fn case(input: &str) -> Option<Case> {
    let words: Vec<&str> = input.split(' ').collect();
    match words[..] {
        ["read", dictionary, request, statements, parameters, contexts] => Some(Case::Read {
            dictionary: hex::read(dictionary)?,
            request: hex::read(request)?,
            lengths: [statements.parse().ok()?, parameters.parse().ok()?, contexts.parse().ok()?],
        }),
        ["evaluate", dictionary, request, condition, messages, records, ..] => {
            Some(Case::Evaluate {
                dictionary: hex::read(dictionary)?,
                request: hex::read(request)?,
                condition: condition.parse().ok()?,
                messages: hex::read(messages)?,
                records: hex::read(records)?,
                runs: hex::read(words.get(6).unwrap_or(&"-"))?,
            })
        }
        ["value", dictionary, request, row, messages, records, ..] => Some(Case::Value {
            dictionary: hex::read(dictionary)?,
            request: hex::read(request)?,
            row: row.parse().ok()?,
            messages: hex::read(messages)?,
            records: hex::read(records)?,
            runs: hex::read(words.get(6).unwrap_or(&"-"))?,
        }),
        _ => None,
    }
}

/// The output of a program whose input is the word behind its name, `;` for each line feed.
fn output(input: &str) -> Option<String> {
    let (name, bytes) = input.split_once(' ')?;
    let program = match name {
        "listing" => listing,
        "explain" => explanation,
        _ => return None,
    };
    Some(program(&hex::read(bytes)?).replace('\n', ";"))
}

/// A case with its outcome, that of a missing answer without its cause.
fn without_cause(case: &Case) -> String {
    match outcome(case) {
        Some(Ok(answer)) => format!("{} = {}", cases::input(case), cases::answer_name(answer)),
        _ => cases::line(case),
    }
}

/// Compares all lines of a file, written so.
fn agree((lines, count): File, write: impl Fn(&Case) -> String) {
    for line in lines.lines() {
        let (input, _) = line.split_once(" = ").expect("an input and an outcome");
        match output(input) {
            Some(output) => assert_eq!(format!("{input} = {output}"), line),
            None => assert_eq!(write(&case(input).expect("a case")), line),
        }
    }
    assert_eq!(lines.lines().count(), count);
}

#[test]
fn evaluations_agree() {
    for file in WITHOUT_CAUSES {
        agree(file, without_cause);
    }
}

#[test]
fn cases_agree() {
    for file in WITH_CAUSES {
        agree(file, cases::line);
    }
}
