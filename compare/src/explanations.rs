//! Explanations of conditions, valid and damaged: the proved one against the second program's, in tables of several lengths.

use crate::proved;
use second::cases::answer_name;
use second::evaluator::{deciders, Decider, Lent};
use second::generate::{self, conditions, Case, Size};
use second::hex;

const AGREED: &str = include_str!("../../second/tests/agreed/no-06.txt");

/// The numbers of a table in which the tests of every condition fit.
pub const TEST_TABLE: usize = 21_844;

/// What an explanation takes.
#[derive(Default)]
struct Input {
    dictionary: Vec<u8>,
    request: Vec<u8>,
    number: usize,
    messages: Vec<u8>,
    records: Vec<u8>,
    runs: Vec<u8>,
}

impl Input {
    /// What the second program gives.
    fn plain(&self) -> Result<Vec<Decider>, (u32, u64)> {
        let Input { dictionary, request, number, messages, records, runs } = self;
        let lent = Lent { messages, records, runs };
        deciders(request, dictionary, *number, lent)
            .map_err(|refusal| (u32::from(refusal.number), refusal.place as u64))
    }

    /// The words of what the proved code lists in a table of so many numbers.
    fn proved(&self, room: usize) -> String {
        let Input { dictionary, request, number, messages, records, runs } = self;
        proved::explain(request, dictionary, *number, messages, records, runs, room)
    }

    /// The input as a line of a case has it.
    fn text(&self) -> String {
        let parts = [&self.dictionary, &self.request, &self.messages, &self.records, &self.runs];
        let [dictionary, request, messages, records, runs] = parts.map(|bytes| hex::write(bytes));
        format!("{dictionary} {request} {} {messages} {records} {runs}", self.number)
    }
}

/// The words due for a table of so many numbers: refused by 1 at 0 is what does not fit.
fn due(plain: &Result<Vec<Decider>, (u32, u64)>, room: usize) -> String {
    match plain {
        Ok(tests) if 2 * tests.len() > room => "refused 1 at 0\n".to_string(),
        Ok(tests) => tests
            .iter()
            .map(|test| format!("{} {}\n", test.place, answer_name(test.answer)))
            .collect(),
        Err((number, place)) => format!("refused {number} at {place}\n"),
    }
}

/// A generated case; a reading and a from-value are explained as well, as a condition of some number.
fn input(case: Case, index: usize) -> Input {
    let number = [0, 1, 511, 512, usize::MAX][index % 5];
    match case {
        Case::Evaluate { dictionary, request, condition: number, messages, records, runs } => {
            Input { dictionary, request, number, messages, records, runs }
        }
        Case::Value { dictionary, request, messages, records, runs, .. } => {
            Input { dictionary, request, number, messages, records, runs }
        }
        Case::Read { dictionary, request, .. } => {
            Input { dictionary, request, number, ..Input::default() }
        }
    }
}

/// The entries of a program's input: kind and whole entry of each.
fn entries(bytes: &[u8]) -> Option<Vec<(u16, &[u8])>> {
    let mut found = Vec::new();
    let mut rest = bytes;
    while let [low, high, kind, other, ..] = *rest {
        let length = usize::from(u16::from_le_bytes([low, high]));
        let (entry, behind) = rest.split_at_checked(length.max(4))?;
        found.push((u16::from_le_bytes([kind, other]), entry));
        rest = behind;
    }
    rest.is_empty().then_some(found)
}

/// The explanations that independent programs agreed on, each with its lines; those of input that is not as due are the program's own.
fn agreed() -> Vec<(Input, String)> {
    let part = |line: &str| {
        let (bytes, answer) = line.strip_prefix("explain ")?.split_once(" = ")?;
        let bytes = hex::read(bytes)?;
        let mut input = Input::default();
        for (kind, entry) in entries(&bytes).filter(|_| answer != "bad input;")? {
            match kind {
                4 => input.dictionary = entry[4..].to_vec(),
                5 => input.request = entry[4..].to_vec(),
                9 => input.number = usize::from(u16::from_le_bytes([entry[4], entry[5]])),
                10 => input.messages.extend(&entry[4..]),
                3 => input.records.extend(entry),
                _ => input.runs.extend(entry),
            }
        }
        Some((input, answer.replace(';', "\n")))
    };
    AGREED.lines().filter_map(part).collect()
}

/// What comes up, of which those of explanation have to: the refusals by their numbers; tests that are false, true and missing; explanations of several tests.
const OUTCOMES: usize = 31;

fn note(outcomes: &mut [usize; OUTCOMES], words: &str) {
    match words
        .strip_prefix("refused ")
        .and_then(|rest| rest.split(' ').next()?.parse::<usize>().ok())
    {
        Some(number) => outcomes[number] += 1,
        None => {
            for (index, word) in [(27, "false"), (28, "true"), (29, "missing")] {
                outcomes[index] += words.lines().filter(|line| line.ends_with(word)).count();
            }
            outcomes[30] += usize::from(words.lines().count() > 1);
        }
    }
}

/// Explains so many generated cases, half of them conditions, and those agreed on, and gives the number of differences.
pub fn run(seed: u64, count: usize) -> usize {
    let (mut differences, mut outcomes) = (0, [0usize; OUTCOMES]);
    let mut compare = |input: &Input, room: usize, words: String| {
        let proved = input.proved(room);
        note(&mut outcomes, &words);
        if proved != words {
            differences += 1;
            println!("differs: {} in {room}: {proved:?}, {words:?}", input.text());
        }
    };
    let mixed = generate::cases(Size::Mixed, seed, count / 2);
    let all = mixed.chain(conditions::cases(seed, count - count / 2));
    for (index, case) in all.enumerate() {
        let input = input(case, index);
        let plain = input.plain();
        let exact = 2 * plain.as_ref().map_or(0, Vec::len);
        let room = [TEST_TABLE, exact, exact.saturating_sub(1), exact + 5, 0][index % 5];
        compare(&input, room, due(&plain, room));
    }
    let agreed = agreed();
    for (input, lines) in &agreed {
        assert_eq!(due(&input.plain(), TEST_TABLE), *lines, "{}", input.text());
        compare(input, TEST_TABLE, lines.clone());
    }
    let unseen: Vec<usize> = (20..OUTCOMES).chain([1]).filter(|n| outcomes[*n] == 0).collect();
    println!(
        "explanations: {count} cases and {} agreed on, {differences} differences",
        agreed.len()
    );
    if !unseen.is_empty() {
        println!("explanations: {unseen:?} do not come up");
    }
    differences + unseen.len()
}
