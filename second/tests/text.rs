//! Texts: the part that holds the value, order, and the three tests.

use second::generate::rng::Rng;
use second::text::{
    compare, containing, cstring_value, matching, starting, text_value, value, varying_value,
};
use std::cmp::Ordering;

#[test]
fn trailing_blanks_are_no_part_of_a_value() {
    assert_eq!(text_value(b"AB  "), (0, 2));
    assert_eq!(text_value(b" A B"), (0, 4));
    assert_eq!(text_value(b"    "), (0, 0));
    assert_eq!(text_value(b"A\t "), (0, 2));
}

#[test]
fn a_varying_follows_its_length_word() {
    assert_eq!(varying_value(b"\x02\x00AB?"), Some((2, 4)));
    assert_eq!(varying_value(b"\x03\x00AB "), Some((2, 4)));
    assert_eq!(varying_value(b"\x00\x00ABC"), Some((2, 2)));
    assert_eq!(varying_value(b"\x03\x00ABC"), Some((2, 5)));
    assert_eq!(varying_value(b"\x04\x00ABC"), None);
    assert_eq!(varying_value(b"\x00\x01ABC"), None);
    assert_eq!(varying_value(b"\xff\xffABC"), None);
}

#[test]
fn a_cstring_is_cut_at_its_zero() {
    assert_eq!(cstring_value(b"AB\0C"), Some((0, 2)));
    assert_eq!(cstring_value(b"A \0C"), Some((0, 1)));
    assert_eq!(cstring_value(b"\0ABC"), Some((0, 0)));
    assert_eq!(cstring_value(b"ABC\0"), Some((0, 3)));
    assert_eq!(cstring_value(b"ABCD"), None);
}

#[test]
fn the_type_says_which() {
    assert_eq!(value(14, b"\x01\x00A"), Some((0, 3)));
    assert_eq!(value(37, b"\x01\x00A"), Some((2, 3)));
    assert_eq!(value(40, b"\x01\x00A"), Some((0, 1)));
}

#[test]
fn the_shorter_is_padded_with_blanks() {
    assert_eq!(compare(b"A", b"A "), Ordering::Equal);
    assert_eq!(compare(b"A", b"A\x1f"), Ordering::Greater);
    assert_eq!(compare(b"A", b"A!"), Ordering::Less);
    assert_eq!(compare(b"", b"\x1f"), Ordering::Greater);
    assert_eq!(compare(b"\x80", b"A"), Ordering::Greater);
    assert_eq!(compare(b"a", b"A"), Ordering::Greater);
}

#[test]
fn containing_ignores_case() {
    assert!(containing(b"Tomato", b"MAT"));
    assert!(containing(b"Tomato", b""));
    assert!(containing(b"", b""));
    assert!(!containing(b"", b"T"));
    assert!(!containing(b"Tom", b"Toma"));
    assert!(!containing(b"\xc4", b"\xe4"));
    assert!(!containing(b"@", b"`"));
}

#[test]
fn starting_does_not() {
    assert!(starting(b"Tomato", b"Tom"));
    assert!(!starting(b"Tomato", b"tom"));
    assert!(starting(b"Tomato", b""));
    assert!(!starting(b"To", b"Tom"));
}

#[test]
fn matching_is_of_the_whole_text() {
    assert!(matching(b"Tomato", b"t*O"));
    assert!(matching(b"Tomato", b"tom???"));
    assert!(!matching(b"Tomato", b"tom??"));
    assert!(matching(b"", b""));
    assert!(matching(b"", b"**"));
    assert!(!matching(b"", b"?"));
    assert!(!matching(b"A", b""));
    assert!(matching(b"A*", b"?*"));
    assert!(matching(b"aXbXc", b"*x*C"));
}

#[test]
fn matching_takes_no_exponential_time() {
    let pattern = [b"a*".repeat(60), b"b".to_vec()].concat();
    assert!(!matching(&[b'a'; 255], &pattern));
}

/// The rule of `*` and `?` as it reads, for short texts.
fn plainly_matches(text: &[u8], pattern: &[u8]) -> bool {
    match (pattern.split_first(), text.split_first()) {
        (None, rest) => rest.is_none(),
        (Some((b'*', rest)), _) => (0..=text.len()).any(|at| plainly_matches(&text[at..], rest)),
        (Some((b'?', rest)), Some((_, others))) => plainly_matches(others, rest),
        (Some((code, rest)), Some((byte, others))) => {
            code.eq_ignore_ascii_case(byte) && plainly_matches(others, rest)
        }
        (Some(_), None) => false,
    }
}

#[test]
fn matching_agrees_with_its_plain_rule() {
    let mut rng = Rng::new(2);
    for _ in 0..20_000 {
        let [text, pattern] = [b"aAb*", b"a*?B"].map(|bytes| {
            let length = rng.below(6);
            (0..length).map(|_| rng.pick(bytes)).collect::<Vec<u8>>()
        });
        let plain = plainly_matches(&text, &pattern);
        assert_eq!(matching(&text, &pattern), plain, "{text:?} {pattern:?}");
    }
}
