//! Evaluations of conditions and of from-values, valid and damaged: the proved evaluator against the second program's.

use crate::proved;
use second::cases::{answer_and_cause, value_answer};
use second::evaluator::{self, Lent};
use second::generate::{self, Case, Size};
use second::hex;
use second::refusal::Refusal;

const DICTIONARY: &str = include_str!("../../second/tests/real/dictionary.hex");
const CONDITIONS: &str = include_str!("../../second/tests/real/conditions.jsonl");
const AGREED: [&str; 6] = [
    include_str!("../../second/tests/agreed/evaluations.txt"),
    include_str!("../../second/tests/agreed/no-01.txt"),
    include_str!("../../second/tests/agreed/no-03.txt"),
    include_str!("../../second/tests/agreed/no-04.txt"),
    include_str!("../../second/tests/agreed/no-08.txt"),
    include_str!("../../second/tests/agreed/no-09.txt"),
];

/// What is asked for: a condition by its number, or the from-value of an assignment by its row.
#[derive(Clone, Copy)]
enum Asked {
    Condition(usize),
    Row(usize),
}

/// What an evaluation takes.
struct Input {
    dictionary: Vec<u8>,
    request: Vec<u8>,
    asked: Asked,
    messages: Vec<u8>,
    records: Vec<u8>,
    runs: Vec<u8>,
}

impl Input {
    /// The words that both programs give.
    fn outcomes(&self) -> (String, String) {
        let Input { dictionary, request, asked, messages, records, runs } = self;
        let lent = Lent { messages, records, runs };
        let (proved, plain) = match *asked {
            Asked::Condition(number) => (
                proved::evaluate(request, dictionary, number, messages, records, runs),
                evaluator::evaluate_over(request, dictionary, number, lent)
                    .map(|answer| answer_and_cause(answer).to_string()),
            ),
            Asked::Row(row) => (
                proved::evaluate_value(request, dictionary, row, messages, records, runs),
                evaluator::evaluate_value(request, dictionary, row, lent)
                    .map(|answer| value_answer(&answer)),
            ),
        };
        let refused = |refusal: Refusal| format!("refused {} {}", refusal.number, refusal.place);
        (proved, plain.unwrap_or_else(refused))
    }

    /// The input as a line of a case has it.
    fn text(&self) -> String {
        let parts = [&self.dictionary, &self.request, &self.messages, &self.records, &self.runs];
        let [dictionary, request, messages, records, runs] = parts.map(|bytes| hex::write(bytes));
        let (word, number) = match self.asked {
            Asked::Condition(number) => ("evaluate", number),
            Asked::Row(row) => ("value", row),
        };
        format!("{word} {dictionary} {request} {number} {messages} {records} {runs}")
    }
}

/// A generated case; a reading is evaluated as well, as a condition or a from-value, with no messages, no records and no runs.
fn input(case: Case, index: usize) -> Input {
    match case {
        Case::Evaluate { dictionary, request, condition, messages, records, runs } => {
            let asked = Asked::Condition(condition);
            Input { dictionary, request, asked, messages, records, runs }
        }
        Case::Value { dictionary, request, row, messages, records, runs } => {
            Input { dictionary, request, asked: Asked::Row(row), messages, records, runs }
        }
        Case::Read { dictionary, request, .. } => {
            let number = [0, 1, 511, 512, usize::MAX][index % 5];
            let asked = [Asked::Condition(number), Asked::Row(number)][index / 5 % 2];
            Input { dictionary, request, asked, messages: vec![], records: vec![], runs: vec![] }
        }
    }
}

/// The text behind a key of a line of JSON.
fn part<'a>(line: &'a str, key: &str) -> &'a str {
    let key = format!("\"{key}\": \"");
    let rest = line.find(&key).map_or("", |at| &line[at + key.len()..]);
    &rest[..rest.find('"').unwrap_or(0)]
}

/// The answer due to a condition of a real implementation: its own, or that of document 02's request No. 1.
fn due(line: &str) -> String {
    let changed = part(line, "no-01");
    if changed.is_empty() { part(line, "answer") } else { changed }.to_string()
}

/// The conditions of a real implementation, each with the answer due.
fn real() -> Vec<(Input, String)> {
    let dictionary = hex::read(DICTIONARY.trim()).expect("hex digits");
    let bytes = |text: &str| hex::read(text).expect("hex digits");
    CONDITIONS
        .lines()
        .map(|line| {
            let [request, messages, records] =
                ["request", "messages", "records"].map(|key| bytes(part(line, key)));
            let dictionary = dictionary.clone();
            let runs = Vec::new();
            let asked = Asked::Condition(0);
            (Input { dictionary, request, asked, messages, records, runs }, due(line))
        })
        .collect()
}

/// The evaluations that independent programs agreed on, each with its answer.
fn agreed() -> Vec<(Input, String)> {
    let bytes = |text: &str| hex::read(text).expect("hex digits");
    AGREED
        .iter()
        .flat_map(|text| text.lines())
        .filter_map(|line| {
            let (input, answer) = line.split_once(" = ")?;
            let mut words: Vec<&str> = input.split(' ').collect();
            // A line without runs ends with the records.
            words.resize(words.len().max(7), "-");
            let [word, dictionary, request, number, messages, records, runs] = words[..] else {
                return None;
            };
            let asked = match word {
                "evaluate" => Asked::Condition(number.parse().ok()?),
                "value" => Asked::Row(number.parse().ok()?),
                _ => return None,
            };
            let [dictionary, request, messages, records, runs] =
                [dictionary, request, messages, records, runs].map(bytes);
            let input = Input { dictionary, request, asked, messages, records, runs };
            Some((input, answer.to_string()))
        })
        .collect()
}

/// Whether an outcome is the one due, which may be `missing` without a cause.
fn is_due(outcome: &str, due: &str) -> bool {
    outcome == due || due == "missing" && outcome.starts_with("missing ")
}

/// What generated cases come out as: true, false, missing by each cause, a number, a text, a date, and the refusals by their numbers.
const OUTCOMES: usize = 34;

fn outcome(text: &str) -> usize {
    match text {
        "true" => 0,
        "false" => 1,
        "missing bit" => 27,
        "missing reading" => 28,
        "missing flag" => 29,
        "missing nothing" => 30,
        _ if text.starts_with("number ") => 31,
        _ if text.starts_with("text ") => 32,
        _ if text.starts_with("date ") => 33,
        _ => text.split(' ').nth(1).and_then(|word| word.parse().ok()).unwrap_or(17),
    }
}

/// Runs so many generated cases, the real conditions and those agreed on, and gives the number of differences.
pub fn run(seed: u64, count: usize) -> usize {
    let (mut differences, mut outcomes) = (0, [0usize; OUTCOMES]);
    let mut note = |input: &Input, due: Option<&str>| {
        let (proved, plain) = input.outcomes();
        outcomes[outcome(&plain)] += usize::from(due.is_none());
        if proved != plain || due.is_some_and(|due| !is_due(&plain, due)) {
            differences += 1;
            println!("differs: {}: {proved}, {plain}, {}", input.text(), due.unwrap_or("-"));
        }
    };
    for (index, case) in generate::cases(Size::Mixed, seed, count).enumerate() {
        note(&input(case, index), None);
    }
    let (real, agreed) = (real(), agreed());
    for (input, answer) in real.iter().chain(&agreed) {
        note(input, Some(answer));
    }
    let unseen: Vec<usize> =
        (0..OUTCOMES).filter(|n| !(17..20).contains(n) && outcomes[*n] == 0).collect();
    println!(
        "evaluations: {count} cases, {} real ones and {} agreed on, {differences} differences",
        real.len(),
        agreed.len()
    );
    if !unseen.is_empty() {
        println!("evaluations: {unseen:?} do not come up");
    }
    differences + unseen.len()
}
