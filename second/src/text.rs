//! Texts.
//!
//! Document 01: "A text's value is the part of the lent slice that holds it, without trailing
//! blanks (a varying's follows its length word, a cstring is first cut at its zero). Order is by
//! unsigned bytes, the shorter padded with blanks. 53 and 54 ignore ASCII case, 55 does not. In 54
//! `*` is any run, `?` one byte. Containing or starting with an empty text is true."

use crate::wire::{self, CSTRING, VARYING};
use std::cmp::Ordering;

const BLANK: u8 = b' ';

/// Start and end of the part of `bytes[start..end]` without trailing blanks.
fn trim(bytes: &[u8], start: usize, end: usize) -> (usize, usize) {
    let blanks = bytes[start..end].iter().rev().take_while(|byte| **byte == BLANK);
    (start, end - blanks.count())
}

/// The value of a text: all of its bytes without trailing blanks.
pub fn text_value(bytes: &[u8]) -> (usize, usize) {
    trim(bytes, 0, bytes.len())
}

/// The value of a varying of n+2 bytes, or nothing if its length word is above n.
pub fn varying_value(bytes: &[u8]) -> Option<(usize, usize)> {
    let end = 2 + usize::from(wire::word(bytes, 0)?);
    if end > bytes.len() {
        return None;
    }
    Some(trim(bytes, 2, end))
}

/// The value of a cstring, or nothing if it has no zero.
pub fn cstring_value(bytes: &[u8]) -> Option<(usize, usize)> {
    let zero = bytes.iter().position(|byte| *byte == 0)?;
    Some(trim(bytes, 0, zero))
}

/// The value of a field of a text type: start and end within its bytes, or nothing if malformed.
pub fn value(type_code: u8, bytes: &[u8]) -> Option<(usize, usize)> {
    match type_code {
        VARYING => varying_value(bytes),
        CSTRING => cstring_value(bytes),
        _ => Some(text_value(bytes)),
    }
}

/// Order of two values by unsigned bytes, the shorter padded with blanks.
pub fn compare(left: &[u8], right: &[u8]) -> Ordering {
    let longer = left.len().max(right.len());
    let padded = |text: &[u8], at: usize| text.get(at).copied().unwrap_or(BLANK);
    (0..longer)
        .map(|at| padded(left, at).cmp(&padded(right, at)))
        .find(|order| *order != Ordering::Equal)
        .unwrap_or(Ordering::Equal)
}

/// Whether `text` contains `part`, ASCII case aside.
pub fn containing(text: &[u8], part: &[u8]) -> bool {
    (0..=text.len()).any(|at| {
        let rest = &text[at..];
        rest.len() >= part.len() && rest[..part.len()].eq_ignore_ascii_case(part)
    })
}

/// Whether `text` starts with `part`.
pub fn starting(text: &[u8], part: &[u8]) -> bool {
    text.starts_with(part)
}

/// Whether the whole of `text` matches `pattern`, ASCII case aside.
///
/// `reached[i]` says whether the pattern read so far matches the first i bytes of the text. Each
/// pattern byte makes one pass over the text.
pub fn matching(text: &[u8], pattern: &[u8]) -> bool {
    let mut reached = vec![false; text.len() + 1];
    reached[0] = true;
    for code in pattern {
        reached = match code {
            b'*' => after_run(&reached),
            _ => after_byte(&reached, text, *code),
        };
    }
    reached[text.len()]
}

/// After `*`: every place at or behind one that was reached.
fn after_run(reached: &[bool]) -> Vec<bool> {
    let mut any = false;
    let spread = reached.iter().map(|here| {
        any |= *here;
        any
    });
    spread.collect()
}

/// After one byte of pattern: one byte of text further, where it matches.
fn after_byte(reached: &[bool], text: &[u8], code: u8) -> Vec<bool> {
    let mut next = vec![false; reached.len()];
    for (at, byte) in text.iter().enumerate() {
        let same = code == b'?' || code.eq_ignore_ascii_case(byte);
        next[at + 1] = reached[at] && same;
    }
    next
}
