//! The evaluations, explanations, readings and calls on stores of second/tests/agreed through this crate: answers, causes, tests, rows,
//! refusals, places, buffers.

use greenblr::{Answer, Cause, Dictionary, Refusal, Request, Store, Truth};
use std::fs;

fn lines(name: &str) -> Vec<String> {
    let path = format!("{}/../../second/tests/agreed/{name}", env!("CARGO_MANIFEST_DIR"));
    let text = fs::read_to_string(&path).unwrap_or_else(|error| panic!("{path}: {error}"));
    text.lines().map(str::to_string).collect()
}

/// Bytes in hex: `-` for none, `(bb*count)` for a run.
fn bytes(text: &str) -> Vec<u8> {
    let mut made = Vec::new();
    let mut rest = text.trim_start_matches('-');
    let byte = |pair: &str| u8::from_str_radix(pair, 16).expect("hex");
    while !rest.is_empty() {
        if let Some((run, after)) = rest.strip_prefix('(').and_then(|run| run.split_once(')')) {
            let (pair, count) = run.split_once('*').expect("a run");
            made.resize(made.len() + count.parse::<usize>().expect("a count"), byte(pair));
            rest = after;
        } else {
            made.push(byte(&rest[..2]));
            rest = &rest[2..];
        }
    }
    made
}

fn refused(refusal: Refusal) -> String {
    format!("refused {} {}", refusal.number(), refusal.place())
}

/// The outcome of an evaluation in the words of the files.
fn outcome(words: &[&str]) -> Result<String, Refusal> {
    let (words, runs) = words.split_at(words.len().min(6));
    let ["evaluate", dictionary, request, condition, messages, records] = words else {
        panic!("no evaluation: {words:?}");
    };
    // A line without runs ends with the records.
    let runs = runs.first().map_or_else(Vec::new, |runs| bytes(runs));
    let (dictionary, request) = (bytes(dictionary), bytes(request));
    let dictionary = Dictionary::new(&dictionary)?;
    let request = Request::read(&dictionary, &request)?;
    let condition = condition.parse().expect("a number");
    Ok(match request.evaluate_over(condition, &bytes(messages), &bytes(records), &runs)? {
        Truth::True => "true".to_string(),
        Truth::False => "false".to_string(),
        Truth::Missing(cause) => missing(cause),
    })
}

/// A missing answer with its cause in the words of the files.
fn missing(cause: Cause) -> String {
    format!("missing {}", format!("{cause:?}").to_lowercase())
}

/// The from-value of an assignment in the words of the files.
fn from_value(words: &[&str]) -> Result<String, Refusal> {
    let (words, runs) = words.split_at(words.len().min(6));
    let ["value", dictionary, request, row, messages, records] = words else {
        panic!("no from-value: {words:?}");
    };
    let runs = runs.first().map_or_else(Vec::new, |runs| bytes(runs));
    let [dictionary, request, messages, records] =
        [dictionary, request, messages, records].map(|word| bytes(word));
    let dictionary = Dictionary::new(&dictionary)?;
    let request = Request::read(&dictionary, &request)?;
    let row = row.parse().expect("a row");
    Ok(match request.evaluate_value(row, &messages, &records, &runs)? {
        Answer::Number(number, scale) => format!("number {number} {scale}"),
        Answer::Text([]) => "text -".to_string(),
        Answer::Text(text) => {
            let pairs: Vec<String> = text.iter().map(|byte| format!("{byte:02x}")).collect();
            format!("text {}", pairs.concat())
        }
        Answer::Date(day, fraction) => format!("date {day} {fraction}"),
        Answer::Missing(cause) => missing(cause),
    })
}

#[test]
fn evaluations_agree() {
    for (name, count) in [("evaluations.txt", 165), ("no-01.txt", 28), ("no-03.txt", 42)] {
        let lines = lines(name);
        assert_eq!(lines.len(), count);
        for line in lines {
            let (input, due) = line.split_once(" = ").expect("an outcome");
            let words: Vec<&str> = input.split(' ').collect();
            let given = outcome(&words).unwrap_or_else(refused);
            // Two of the files were agreed on without causes.
            let given = if due == "missing" { &given[..due.len()] } else { &given[..] };
            assert_eq!(given, due, "{line}");
        }
    }
}

/// The rows of a request in the words of the files, from the typed rows.
fn rows(words: &[&str]) -> Result<String, Refusal> {
    let ["read", dictionary, request, _, _, _] = words else {
        panic!("no reading: {words:?}");
    };
    let (dictionary, request) = (bytes(dictionary), bytes(request));
    let dictionary = Dictionary::new(&dictionary)?;
    let request = Request::read(&dictionary, &request)?;
    let plus_one = |number: Option<usize>| number.map_or(0, |number| number + 1);
    let statements: Vec<String> = request
        .statements()
        .map(|s| {
            let (parent, condition) = (plus_one(s.parent), plus_one(s.condition));
            format!(" {} {} {parent} {} {condition}", s.place, s.code.code(), s.end)
        })
        .collect();
    let parameters: Vec<String> = request
        .parameters()
        .map(|p| {
            let (kind, scale) = (p.kind.code(), p.scale as u8);
            format!(" {} {} {kind} {scale} {} {}", p.message, p.number, p.offset, p.bytes)
        })
        .collect();
    let contexts: Vec<String> = request
        .contexts()
        .map(|c| {
            let (start, end, opener) = (c.scope.start, c.scope.end, c.opener.code());
            format!(" {} {} {start} {end} {} {opener}", c.number, c.place, c.relation)
        })
        .collect();
    let tables = [statements, parameters, contexts];
    let [s, p, c] = tables.each_ref().map(Vec::len);
    let [statements, parameters, contexts] = tables.map(|table| table.join(" ;"));
    Ok(format!("accepted {s} {p} {c} |{statements} |{parameters} |{contexts}"))
}

/// Runs a file of readings, evaluations and from-values, all but the inputs of the listing program, which are for the shell: how many there
/// are of evaluations, readings and from-values.
fn agree(name: &str, count: usize) -> [usize; 3] {
    let lines = lines(name);
    assert_eq!(lines.len(), count);
    let mut run = [0, 0, 0];
    for line in lines.iter().filter(|line| !line.starts_with("listing ")) {
        let (input, due) = line.split_once(" = ").expect("an outcome");
        let words: Vec<&str> = input.split(' ').collect();
        let (kind, given) = match words[0] {
            "read" => (1, rows(&words)),
            "value" => (2, from_value(&words)),
            _ => (0, outcome(&words)),
        };
        assert_eq!(given.unwrap_or_else(refused), due, "{line}");
        run[kind] += 1;
    }
    run
}

/// Requests of both versions.
#[test]
fn versions_agree() {
    assert_eq!(agree("no-08.txt", 308), [123, 153, 0]);
}

/// Any and unique over runs.
#[test]
fn runs_agree() {
    assert_eq!(agree("no-04.txt", 167), [97, 56, 0]);
}

/// Statistics over runs, and from-values.
#[test]
fn statistics_agree() {
    assert_eq!(agree("no-09.txt", 242), [102, 71, 52]);
}

/// The explanation of a program's input in the words of the files, a line ended by `;`; nothing of an input that is not as due.
fn explained(input: &[u8]) -> Result<String, Refusal> {
    let mut parts: [Vec<u8>; 12] = Default::default();
    let mut rest = input;
    while let [low, high, kind, ..] = *rest {
        let (entry, behind) = rest.split_at(usize::from(u16::from_le_bytes([low, high])));
        // Records and runs are whole entries.
        let head = if matches!(kind, 3 | 7) { 0 } else { 4 };
        parts[usize::from(kind)].extend(&entry[head..]);
        rest = behind;
    }
    let dictionary = Dictionary::new(&parts[4])?;
    let request = Request::read(&dictionary, &parts[5])?;
    let condition = usize::from(u16::from_le_bytes([parts[9][0], parts[9][1]]));
    let tests = request.explain(condition, &parts[10], &parts[3], &parts[7])?;
    Ok(tests.iter().map(|test| format!("{} {};", test.place, test.outcome)).collect())
}

/// Explanations of conditions.
#[test]
fn explanations_agree() {
    let lines = lines("no-06.txt");
    assert_eq!(lines.len(), 160);
    let mut run = 0;
    for line in lines.iter().filter(|line| !line.ends_with(" = bad input;")) {
        let (input, due) = line.split_once(" = ").expect("an outcome");
        let input = bytes(input.strip_prefix("explain ").expect("an explanation"));
        let told =
            |refusal: Refusal| format!("refused {} at {};", refusal.number(), refusal.place());
        assert_eq!(explained(&input).unwrap_or_else(told), due, "{line}");
        run += 1;
    }
    assert_eq!(run, 156);
}

/// What a call on a store leaves in the buffer, or what reading it tells, in the words of the files.
fn called(dictionary: &[u8], buffer: &mut [u8], call: &[&str]) -> Result<Option<String>, Refusal> {
    let dictionary = Dictionary::new(dictionary)?;
    let position = |word: &str| word.parse::<usize>().expect("a position");
    match call {
        ["make", id] => {
            Store::make(&dictionary, buffer, id.parse().expect("an id"))?;
        }
        ["add", entry] => Store::open(&dictionary, buffer)?.add(&bytes(entry))?,
        ["erase", at] => Store::open(&dictionary, buffer)?.erase(position(at))?,
        ["replace", at, entry] => {
            Store::open(&dictionary, buffer)?.replace(position(at), &bytes(entry))?;
        }
        ["records"] => {
            let store = Store::open(&dictionary, buffer)?;
            let mut told =
                format!("relation {} missing {} records", store.relation(), store.missing_count());
            if store.is_empty() {
                told.push_str(" none");
            }
            for entry in store.iter() {
                told.push(' ');
                entry.iter().for_each(|byte| told.push_str(&format!("{byte:02x}")));
            }
            return Ok(Some(told));
        }
        _ => panic!("no call: {call:?}"),
    }
    Ok(None)
}

/// Whether two tellings of a store are the same, runs of equal bytes written out.
fn same(given: &str, due: &str) -> bool {
    let plain = |text: &str| -> Vec<String> {
        text.split(' ')
            .enumerate()
            .map(|(i, word)| if i < 5 { word.to_string() } else { written_out(word) })
            .collect()
    };
    plain(given) == plain(due)
}

fn written_out(word: &str) -> String {
    match word {
        "none" => word.to_string(),
        _ => format!("{:?}", bytes(word)),
    }
}

#[test]
fn stores_agree() {
    let lines = lines("no-10.txt");
    assert_eq!(lines.len(), 126);
    for line in lines {
        let (input, due) = line.split_once(" = ").expect("an outcome");
        let words: Vec<&str> = input.split(' ').collect();
        let (dictionary, before) = (bytes(words[0]), bytes(words[1]));
        let mut buffer = before.clone();
        match called(&dictionary, &mut buffer, &words[2..]) {
            Ok(None) => assert_eq!(buffer, bytes(due), "{line}"),
            Ok(Some(told)) => assert!(same(&told, due) && buffer == before, "{told}\n{line}"),
            Err(refusal) => {
                assert_eq!(refused(refusal), due, "{line}");
                assert_eq!(buffer, before, "{line}");
            }
        }
    }
}
