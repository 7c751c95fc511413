//! Conditions each reach an answer or one of 23 to 25, are small, and have what they are made for.

use second::cases;
use second::count::Tally;
use second::generate::conditions::{self, is_reached};
use second::reader::parsed::Role;
use second::wire::{BOOLEANS, STATEMENTS, VALUES};

/// All conditions written by hand and some at random.
fn some() -> usize {
    conditions::written().len() + 700
}

#[test]
fn conditions_are_reached() {
    for seed in [1, 2, u64::MAX] {
        for case in conditions::cases(seed, some()) {
            assert!(is_reached(&case), "{}", cases::line(&case));
        }
    }
}

#[test]
fn conditions_have_every_outcome_and_code() {
    let tally = Tally::of(conditions::cases(1, some()));
    assert_eq!((tally.reads, tally.evaluations), (0, some()));
    let least = [
        ("true", 300),
        ("false", 300),
        ("missing bit", 150),
        ("missing reading", 60),
        ("missing flag", 150),
    ];
    for (answer, least) in least {
        assert!(tally.answers[answer] >= least, "{answer}: {}", tally.answers[answer]);
    }
    for number in 23..=25 {
        assert!(tally.refusals[&number] >= 100, "refusal {number}");
    }
    let parts: [(Role, &[u8]); 3] =
        [(Role::Statement, &STATEMENTS), (Role::Value, &VALUES), (Role::Boolean, &BOOLEANS)];
    for (role, codes) in parts {
        for code in codes {
            assert!(tally.codes.contains_key(&(role, *code)), "{role:?} {code}");
        }
    }
}

#[test]
fn conditions_are_small() {
    for case in conditions::cases(1, some()) {
        let (dictionary, request) = case.bytes();
        assert!(dictionary.len() <= 160 && request.len() <= 200, "{}", cases::line(&case));
    }
}

#[test]
fn conditions_repeat_and_differ_by_seed() {
    let lines = |seed| -> Vec<String> {
        conditions::cases(seed, some()).map(|case| cases::line(&case)).collect()
    };
    let (first, second) = (lines(1), lines(2));
    assert_eq!(first, lines(1));
    let written = conditions::written().len();
    assert!(written >= 1000);
    assert_eq!(first[..written], second[..written]);
    assert_ne!(first[written..], second[written..]);
}
