//! Requests and answers of a real implementation (`tests/real/README.md`): all must agree.

mod common;

use common::entry;
use second::cases::answer_name;
use second::evaluator::evaluate;
use second::hex;
use second::listing::listing;
use std::collections::HashMap;

const DICTIONARY: &str = include_str!("real/dictionary.hex");
const REQUESTS: &str = include_str!("real/requests.jsonl");
const CONDITIONS: &str = include_str!("real/conditions.jsonl");

/// The string members of a JSON object on one line.
fn members(line: &str) -> HashMap<String, String> {
    let mut strings = Vec::new();
    let mut rest = line;
    while let Some(start) = rest.find('"') {
        let (string, behind) = json_string(&rest[start + 1..]);
        strings.push(string);
        rest = behind;
    }
    strings.chunks(2).map(|pair| (pair[0].clone(), pair[1].clone())).collect()
}

/// A JSON string up to its closing quote, and the text behind it.
fn json_string(text: &str) -> (String, &str) {
    let mut string = String::new();
    let mut characters = text.char_indices();
    while let Some((at, character)) = characters.next() {
        match character {
            '"' => return (string, &text[at + 1..]),
            '\\' => string.push(escaped(characters.next().expect("an escape").1)),
            other => string.push(other),
        }
    }
    panic!("a string without its closing quote");
}

/// The character of an escape.
fn escaped(character: char) -> char {
    match character {
        'n' => '\n',
        't' => '\t',
        '"' | '\\' | '/' => character,
        other => panic!("escape {other} is not read"),
    }
}

/// A string of hex digits, which may be empty.
fn bytes(digits: &str) -> Vec<u8> {
    hex::read(digits.trim()).expect("hex digits")
}

/// A listing whose rows of statements and contexts are without their last number, that of No. 7.
fn without_no_7(listing: &str) -> String {
    let line = |line: &str| match line.split(' ').next() {
        Some("statement" | "context") => line.rsplit_once(' ').expect("a row").0.to_string(),
        _ => line.to_string(),
    };
    listing.lines().map(|row| line(row) + "\n").collect()
}

#[test]
fn listings_agree() {
    let dictionary = bytes(DICTIONARY);
    let mut count = 0;
    for line in REQUESTS.lines() {
        let case = members(line);
        let input = [entry(4, &dictionary), entry(5, &bytes(&case["request"]))].concat();
        let due = case.get("no-04").unwrap_or(&case["listing"]);
        assert_eq!(&without_no_7(&listing(&input)), due, "{}", case["name"]);
        count += 1;
    }
    assert_eq!(count, 56);
}

#[test]
fn answers_agree() {
    let dictionary = bytes(DICTIONARY);
    let mut count = 0;
    for line in CONDITIONS.lines() {
        let case = members(line);
        let [request, messages, records] =
            ["request", "messages", "records"].map(|member| bytes(&case[member]));
        let answer = evaluate(&request, &dictionary, 0, &messages, &records).expect("an answer");
        let due = case.get("no-01").unwrap_or(&case["answer"]);
        assert_eq!(answer_name(answer), due, "{line}");
        count += 1;
    }
    assert_eq!(count, 480);
}
