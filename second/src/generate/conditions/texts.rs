//! Texts of the three types: trailing blanks, malformed ones, their order and the three searches.

use super::sheet::{cstring, text, varying, Sheet, Stored, Where};
use super::COMPARISONS;
use crate::generate::assemble::{self, operator};
use crate::generate::Case;
use crate::wire::{CONTAINING, EQL, MATCHING, MISSING, STARTING};

/// The searches 53 to 55.
pub const SEARCHES: [u8; 3] = [CONTAINING, MATCHING, STARTING];

/// Texts of every type: with blanks at the end, with bytes after the end, empty, malformed.
fn forms() -> Vec<Stored> {
    vec![
        text(b"ab  "),
        text(b" ab"),
        text(b"   "),
        varying(4, b"ab  "),
        varying(2, b"abx"),
        varying(3, b"ab b"),
        varying(0, b"ab"),
        varying(3, b"ab"),
        varying(257, b"ab"),
        varying(u16::MAX, b"ab"),
        cstring(b"ab\0x"),
        cstring(b"ab \0"),
        cstring(b"\0ab"),
        cstring(b"ab"),
        cstring(b"ab "),
    ]
}

/// Every form in every place, there and missing, as the first and as the second value.
pub fn stored() -> Vec<Case> {
    let letters = assemble::text(b"ab");
    let mut cases = Vec::new();
    for (turn, form) in forms().iter().enumerate() {
        for place in [Where::Field, Where::Parameter, Where::Flagged] {
            let mut sheet = Sheet::default();
            let value = sheet.there(place, form);
            cases.push(sheet.case(&operator(EQL, &[&value, &letters])));
            let code = SEARCHES[turn % 3];
            cases.push(sheet.case(&operator(code, &[&letters, &value])));
        }
        for place in [Where::Field, Where::Flagged] {
            let mut sheet = Sheet::default();
            let value = sheet.missing(place, form);
            cases.push(sheet.case(&operator(EQL, &[&value, &letters])));
        }
        let mut sheet = Sheet::default();
        let value = sheet.value([Where::Field, Where::Flagged][turn % 2], form, turn % 4 == 3);
        cases.push(sheet.case(&operator(MISSING, &[&value])));
    }
    cases
}

/// A test of two texts: a literal beside a literal, a field or a parameter.
fn tested(code: u8, left: &[u8], right: &[u8], turn: usize) -> Case {
    let mut sheet = Sheet::default();
    let places = [Where::Literal, Where::Field, Where::Literal, Where::Parameter];
    let left = sheet.there(places[turn % 4], &text(left));
    let right = sheet.there(places[(turn + 2) % 3], &text(right));
    sheet.case(&operator(code, &[&left, &right]))
}

/// Pairs for the order: padding with blanks, unsigned bytes, case.
const ORDERED: [[&[u8]; 2]; 9] = [
    [b"a", b"a  "],
    [b"a", b"a\x1f"],
    [b"a", b"a!"],
    [b" ", b"\x1f"],
    [b"a", b"\xff"],
    [b"A", b"a"],
    [b"ab", b"b"],
    [b"ab", b"aa"],
    [b"a\x00", b"a"],
];

/// Every comparison of every pair.
pub fn order() -> Vec<Case> {
    let mut cases = Vec::new();
    for (turn, [left, right]) in ORDERED.into_iter().enumerate() {
        for (place, code) in COMPARISONS.into_iter().enumerate() {
            cases.push(tested(code, left, right, turn + place));
        }
    }
    cases
}

/// Pairs for the searches: case, runs, single bytes, empty texts, blanks.
const SEARCHED: [[&[u8]; 2]; 36] = [
    [b"abc", b"B"],
    [b"ABC", b"abc"],
    [b"abc", b"ab"],
    [b"ABc", b"ab"],
    [b"ab", b"abc"],
    [b"xab", b"ab"],
    [b"aab", b"ab"],
    [b"ab", b"*"],
    [b" ", b"*"],
    [b" ", b"?"],
    [b"a", b"?"],
    [b"ab", b"?"],
    [b"ab", b"a?"],
    [b"ab", b"?B"],
    [b"a", b"a?"],
    [b"axxb", b"a*b"],
    [b"ab", b"a*b"],
    [b"abx", b"a*b"],
    [b"abab", b"*ab"],
    [b"abc", b"*b"],
    [b"abc", b"*?c"],
    [b"abc", b"**"],
    [b"aXbYc", b"A*b*C"],
    [b"a b", b"a?b"],
    [b"ab ", b"ab?"],
    [b"*", b"?"],
    [b"a", b"*a*"],
    [b"[", b"{"],
    [b"@", b"`"],
    [b"Z", b"z"],
    [b"A", b"a"],
    [b"a", b"A  "],
    [b"ab", b"  "],
    [b" ", b" "],
    [b" ab", b"a"],
    [b"\xc1", b"\xe1"],
];

/// Every search of every pair.
pub fn searches() -> Vec<Case> {
    let mut cases = Vec::new();
    for (turn, [left, right]) in SEARCHED.into_iter().enumerate() {
        for (place, code) in SEARCHES.into_iter().enumerate() {
            cases.push(tested(code, left, right, turn + place));
        }
    }
    cases
}
