//! The requests of a real front end and the answers of its engine (second/tests/real) through this crate.

use greenblr::{Dictionary, Refusal, Request, Truth};
use std::fs;

fn text(name: &str) -> String {
    let path = format!("{}/../../second/tests/real/{name}", env!("CARGO_MANIFEST_DIR"));
    fs::read_to_string(&path).unwrap_or_else(|error| panic!("{path}: {error}"))
}

fn bytes(hex: &str) -> Vec<u8> {
    let hex = hex.trim().as_bytes();
    let digit = |byte: u8| (byte as char).to_digit(16).expect("hex") as u8;
    hex.chunks(2).map(|pair| 16 * digit(pair[0]) + digit(pair[1])).collect()
}

/// The text of a key on a line; the keys asked for have no quote in theirs.
fn value<'l>(line: &'l str, key: &str) -> Option<&'l str> {
    let (_, rest) = line.split_once(&format!("\"{key}\": \""))?;
    rest.split('"').next()
}

/// A request as the program `listing` prints it, from the typed rows.
fn listing(dictionary: &Dictionary<'_>, bytes: &[u8]) -> Result<String, Refusal> {
    let request = Request::read(dictionary, bytes)?;
    let mut lines = vec![format!("request {}", bytes.len())];
    lines.extend(request.statements().map(|s| {
        let parent = s.parent.map_or(0, |row| row + 1);
        format!("statement {} {} {parent} {}", s.place, s.code.code(), s.end)
    }));
    lines.extend(request.parameters().map(|p| {
        let (kind, scale) = (p.kind.code(), p.scale as u8);
        format!("parameter {} {} {kind} {scale} {} {}", p.message, p.number, p.offset, p.bytes)
    }));
    lines.extend(request.contexts().map(|c| {
        let (start, end) = (c.scope.start, c.scope.end);
        format!("context {} {} {start} {end} {}", c.number, c.place, c.relation)
    }));
    Ok(lines.join("\\n") + "\\n")
}

#[test]
fn requests_are_listed() {
    let dictionary = bytes(&text("dictionary.hex"));
    let dictionary = Dictionary::new(&dictionary).expect("it is proper");
    let requests = text("requests.jsonl");
    assert_eq!(requests.lines().count(), 56);
    for line in requests.lines() {
        let request = bytes(value(line, "request").expect("a request"));
        let given = listing(&dictionary, &request).unwrap_or_else(|refusal| {
            format!("refused {} at {}\\n", refusal.number(), refusal.place())
        });
        // Where request No. 4 of document 02 accepts what was refused with 7, its rows stand beside the refusal.
        let due = value(line, "no-04").or(value(line, "listing"));
        assert_eq!(Some(&given[..]), due, "{line}");
    }
}

#[test]
fn conditions_are_answered() {
    let dictionary = bytes(&text("dictionary.hex"));
    let dictionary = Dictionary::new(&dictionary).expect("it is proper");
    let conditions = text("conditions.jsonl");
    assert_eq!(conditions.lines().count(), 480);
    for line in conditions.lines() {
        let part = |key| value(line, key).expect("a part");
        let request = bytes(part("request"));
        let request = Request::read(&dictionary, &request).expect("it is accepted");
        let (messages, records) = (bytes(part("messages")), bytes(part("records")));
        let answer = request.evaluate(0, &messages, &records).expect("it is answered");
        // Where request No. 1 of document 02 made an answer another, it stands beside the engine's.
        let due = value(line, "no-01").unwrap_or(part("answer"));
        assert_eq!(answer.to_string(), due, "{line}");
        assert_eq!(answer.cause().is_some(), matches!(answer, Truth::Missing(_)));
    }
}
