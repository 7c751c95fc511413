//! Counting of outcomes and codes over a run of cases.

use crate::cases;
use crate::generate::Case;
use crate::reader;
use crate::reader::parsed::Role;
use std::collections::BTreeMap;
use std::fmt::Write;

/// Counts over a run of cases.
#[derive(Clone, Debug, Default)]
pub struct Tally {
    pub reads: usize,
    pub evaluations: usize,
    pub values: usize,
    /// Outcomes by `accepted`, `true`, `false`, `missing` with its cause, `number`, `text`, `date`.
    pub answers: BTreeMap<String, usize>,
    /// Refusals by number.
    pub refusals: BTreeMap<u32, usize>,
    /// Codes of the accepted requests, each in its part.
    pub codes: BTreeMap<(Role, u8), usize>,
}

impl Tally {
    /// Counts all cases.
    pub fn of(cases: impl Iterator<Item = Case>) -> Tally {
        let mut tally = Tally::default();
        for case in cases {
            tally.add(&case);
        }
        tally
    }

    fn add(&mut self, case: &Case) {
        match case {
            Case::Read { .. } => self.reads += 1,
            Case::Evaluate { .. } => self.evaluations += 1,
            Case::Value { .. } => self.values += 1,
        }
        self.add_outcome(&cases::outcome(case));
        let (dictionary, request) = case.bytes();
        let Ok((parsed, _)) = reader::parse(request, dictionary) else {
            return;
        };
        for code in parsed.codes {
            *self.codes.entry(code).or_default() += 1;
        }
    }

    /// Counts an outcome: a refusal by its number, `accepted` without its rows, a value by its kind,
    /// an answer as it is.
    fn add_outcome(&mut self, outcome: &str) {
        let mut words = outcome.split(' ');
        let first = words.next().unwrap_or_default();
        let number = words.next().and_then(|word| word.parse().ok());
        match (first, number) {
            ("refused", Some(number)) => *self.refusals.entry(number).or_default() += 1,
            ("accepted" | "number" | "text" | "date", _) => {
                *self.answers.entry(first.to_string()).or_default() += 1
            }
            _ => *self.answers.entry(outcome.to_string()).or_default() += 1,
        }
    }

    /// The table, one count a line.
    pub fn table(&self) -> String {
        let mut output = String::new();
        push(&mut output, "read", self.reads);
        push(&mut output, "evaluate", self.evaluations);
        push(&mut output, "value", self.values);
        for (answer, count) in &self.answers {
            push(&mut output, answer, *count);
        }
        for (number, count) in &self.refusals {
            push(&mut output, &format!("refused {number}"), *count);
        }
        for ((role, code), count) in &self.codes {
            let part = format!("{role:?}").to_lowercase();
            push(&mut output, &format!("{part} {code}"), *count);
        }
        output
    }
}

fn push(output: &mut String, name: &str, count: usize) {
    writeln!(output, "{name}: {count}").expect("a string takes all writes");
}
