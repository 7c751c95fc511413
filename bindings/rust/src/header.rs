//! The numbers and words of this crate against include/greenblr.h and the file VERSION of the repository.

use crate::layout::*;
use crate::{codes, Cause, Reason};
use std::collections::HashMap;
use std::fs;

fn repository(path: &str) -> String {
    let path = format!("{}/../../{path}", env!("CARGO_MANIFEST_DIR"));
    fs::read_to_string(&path).unwrap_or_else(|error| panic!("{path}: {error}"))
}

/// The numbers of the header that stand after a name, in a `#define` or an enum.
fn numbers(header: &str) -> HashMap<String, u64> {
    let mut found = HashMap::new();
    for line in header.lines() {
        let words: Vec<&str> =
            line.split([' ', ',', '=']).filter(|word| !word.is_empty()).collect();
        let named = match words.as_slice() {
            ["#define", name, number, ..] => Some((name, number)),
            [name, number, ..] if name.starts_with("GREENBLR_") => Some((name, number)),
            _ => None,
        };
        if let Some((name, Ok(number))) = named.map(|(name, number)| (name, number.parse())) {
            found.insert(name.to_string(), number);
        }
    }
    found
}

/// The name of a constant for an enum's case: `BadDictionary` is `BAD_DICTIONARY`.
fn capitals(case: &str) -> String {
    let mut name = String::new();
    for (i, letter) in case.chars().enumerate() {
        if letter.is_uppercase() && i > 0 {
            name.push('_');
        }
        name.push(letter.to_ascii_uppercase());
    }
    name
}

#[test]
fn rows_are_the_headers() {
    let header = numbers(&repository("include/greenblr.h"));
    let named = |name: &str| header.get(&format!("GREENBLR_{name}")).map(|n| *n as usize);
    for (name, number) in [
        ("STATEMENT_ROW", STATEMENT_ROW),
        ("STATEMENT_PLACE", STATEMENT_PLACE),
        ("STATEMENT_CODE", STATEMENT_CODE),
        ("STATEMENT_PARENT", STATEMENT_PARENT),
        ("STATEMENT_END", STATEMENT_END),
        ("STATEMENT_BOOLEAN", STATEMENT_BOOLEAN),
        ("PARAMETER_ROW", PARAMETER_ROW),
        ("PARAMETER_MESSAGE", PARAMETER_MESSAGE),
        ("PARAMETER_NUMBER", PARAMETER_NUMBER),
        ("PARAMETER_TYPE", PARAMETER_TYPE),
        ("PARAMETER_SCALE", PARAMETER_SCALE),
        ("PARAMETER_OFFSET", PARAMETER_OFFSET),
        ("PARAMETER_BYTES", PARAMETER_BYTES),
        ("CONTEXT_ROW", CONTEXT_ROW),
        ("CONTEXT_NUMBER", CONTEXT_NUMBER),
        ("CONTEXT_PLACE", CONTEXT_PLACE),
        ("CONTEXT_START", CONTEXT_START),
        ("CONTEXT_END", CONTEXT_END),
        ("CONTEXT_RELATION", CONTEXT_RELATION),
        ("CONTEXT_OPENER", CONTEXT_OPENER),
        ("TEST_ROW", TEST_ROW),
        ("TEST_PLACE", TEST_PLACE),
        ("TEST_OUTCOME", TEST_OUTCOME),
        ("MAX_STATEMENTS", MAX_STATEMENTS),
        ("MAX_PARAMETERS", MAX_PARAMETERS),
        ("MAX_CONTEXTS", MAX_CONTEXTS),
        ("MAX_TESTS", MAX_TESTS),
        ("STORE_HEADER", STORE_HEADER),
    ] {
        assert_eq!(named(name), Some(number), "{name}");
    }
}

#[test]
fn refusals_are_the_headers() {
    let text = repository("include/greenblr.h");
    let header = numbers(&text);
    let refusals =
        header.iter().filter(|(name, number)| name.contains("_REFUSAL_") && **number > 0);
    assert_eq!(refusals.count(), Reason::ALL.len());
    for reason in Reason::ALL {
        let name = format!("GREENBLR_REFUSAL_{}", capitals(&format!("{reason:?}")));
        assert_eq!(header.get(&name), Some(&u64::from(reason.number())), "{name}");
        assert_eq!(Reason::from_number(reason.number()), *reason);
        let line = format!("case {name}: return \"{}\";", reason.text());
        assert!(text.contains(&line), "{line}");
    }
}

#[test]
fn causes_are_the_headers() {
    let text = repository("include/greenblr.h");
    let header = numbers(&text);
    let causes = header.iter().filter(|(name, number)| name.contains("_CAUSE_") && **number > 0);
    let named = [Cause::Bit, Cause::Reading, Cause::Flag, Cause::Nothing];
    assert_eq!(causes.count(), named.len());
    for cause in named {
        let name = format!("GREENBLR_CAUSE_{}", capitals(&format!("{cause:?}")));
        assert_eq!(header.get(&name), Some(&u64::from(cause.number())), "{name}");
        let line = format!("case {name}: return \"{cause}\";");
        assert!(text.contains(&line), "{line}");
    }
}

#[test]
fn values_are_the_headers() {
    let header = numbers(&repository("include/greenblr.h"));
    for (name, number) in [
        ("FALSE", 0),
        ("TRUE", 1),
        ("MISSING", 2),
        ("REFUSED", 3),
        ("VALUE_NUMBER", 4),
        ("VALUE_TEXT", 5),
        ("VALUE_DATE", 6),
        ("EXPLAINED", 7),
        ("INPUT_REQUEST", 0),
        ("INPUT_IMAGES", 2),
        ("INPUT_RECORDS", 3),
        ("INPUT_RUNS", 4),
    ] {
        assert_eq!(header.get(&format!("GREENBLR_{name}")), Some(&number), "{name}");
    }
}

#[test]
fn codes_are_the_headers() {
    let header = numbers(&repository("include/greenblr.h"));
    for (name, number) in codes::ALL {
        let full = format!("GREENBLR_CODE_{name}");
        assert_eq!(header.get(&full), Some(&u64::from(*number)), "{full}");
    }
}

#[test]
fn the_version_is_the_repositorys() {
    assert_eq!(repository("VERSION").trim(), env!("CARGO_PKG_VERSION"));
    assert_eq!(crate::library_version(), env!("CARGO_PKG_VERSION"));
}
