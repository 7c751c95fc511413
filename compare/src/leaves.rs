//! Numbers, texts and words: the proved leaves against the second program's, on generated cases with the ends of the ranges
//! among them.

use crate::proved::{self, Computed, Number};
use second::decimal::{self, Fault};
use second::generate::rng::Rng;
use second::{text, wire};

const ENDS: [i64; 13] = [
    i64::MIN,
    i64::MIN + 1,
    -1_000_000_000_000_000_000,
    -10,
    -7,
    -1,
    0,
    1,
    2,
    10,
    1_000_000_000_000_000_000,
    i64::MAX - 1,
    i64::MAX,
];

const SCALES: [i8; 9] = [-128, -19, -18, -17, -9, -1, 0, 1, 127];

fn value(rng: &mut Rng) -> i64 {
    match rng.below(4) {
        0 => rng.pick(&ENDS),
        1 => rng.bits() as i64,
        2 => (rng.bits() as i64) >> rng.below(63),
        _ => rng.below(2001) as i64 - 1000,
    }
}

fn number(rng: &mut Rng) -> Number {
    let scale = if rng.one_in(6) { rng.pick(&SCALES) } else { -(rng.below(19) as i8) };
    Number { value: value(rng), scale }
}

/// Any scale byte counts as the nearest from -18 to 0.
fn nearest(scale: i8) -> i8 {
    scale.clamp(-18, 0)
}

fn expected(operation: u8, a: Number, b: Number) -> Computed {
    let (x, y) = (nearest(a.scale), nearest(b.scale));
    let result = match operation {
        proved::ADD => decimal::add(a.value, x, b.value, y),
        proved::SUBTRACT => decimal::subtract(a.value, x, b.value, y),
        proved::MULTIPLY => decimal::multiply(a.value, x, b.value, y),
        proved::DIVIDE => decimal::divide(a.value, x, b.value, y),
        proved::NEGATE => decimal::negate(a.value).map(|value| (value, x)),
        proved::RESCALE => decimal::rescale(a.value, x, x.min(y)).map(|value| (value, x.min(y))),
        proved::DIVIDE5 => decimal::divide5(a.value, x, b.value, y),
        _ => unreachable!("seven operations"),
    };
    match result {
        Ok((value, scale)) => Computed::Value(Number { value, scale }),
        Err(Fault::Overflow) => Computed::Refused(24),
        Err(Fault::ZeroDivisor) => Computed::Refused(25),
    }
}

/// One case of numbers; a difference is told.
fn numbers(rng: &mut Rng) -> Option<String> {
    let (a, b) = (number(rng), number(rng));
    let operation = rng.below(8) as u8;
    if operation == 7 {
        let (one, other) = (
            proved::compare(a, b),
            decimal::compare(a.value, nearest(a.scale), b.value, nearest(b.scale)),
        );
        return (one != other).then(|| format!("compare {a:?} {b:?}: {one:?}, {other:?}"));
    }
    let (one, other) = (proved::compute(operation, a, b), expected(operation, a, b));
    (one != other).then(|| format!("operation {operation} {a:?} {b:?}: {one:?}, {other:?}"))
}

/// Bytes that meet often: few letters in both cases, blanks, zeros, and the signs of a pattern.
fn bytes(rng: &mut Rng, longest: usize) -> Vec<u8> {
    let length = if rng.one_in(20) { rng.between(0, 255) } else { rng.below(longest) };
    (0..length)
        .map(|_| if rng.one_in(8) { rng.byte() } else { rng.pick(b"aAbBzZ  \0*?@[`{") })
        .collect()
}

/// The bytes of a text of a type, often well formed.
fn held(rng: &mut Rng, text_type: u8) -> Vec<u8> {
    let mut bytes = bytes(rng, 12);
    if text_type == 1 && bytes.len() >= 2 && !rng.one_in(4) {
        let length = rng.below(bytes.len()) as u16;
        bytes[..2].copy_from_slice(&length.to_le_bytes());
    }
    bytes
}

fn part(rng: &mut Rng) -> Option<String> {
    let text_type = rng.below(3) as u8;
    let bytes = held(rng, text_type);
    let code = [wire::TEXT, wire::VARYING, wire::CSTRING][usize::from(text_type)];
    let (one, length) = proved::text(text_type, &bytes);
    let other = text::value(code, &bytes);
    let other_length = other.map_or(0, |(start, end)| end - start);
    (one != other || length != other_length)
        .then(|| format!("text {text_type} {bytes:?}: {one:?} {length}, {other:?}"))
}

fn test_of_texts(rng: &mut Rng) -> Option<String> {
    let (a, b) = (bytes(rng, 10), bytes(rng, 6));
    let (one, other) = match rng.below(4) {
        0 => (proved::compare_texts(&a, &b) as i8, text::compare(&a, &b) as i8),
        1 => (proved::search(0, &a, &b) as i8, text::containing(&a, &b) as i8),
        2 => (proved::search(1, &a, &b) as i8, text::matching(&a, &b) as i8),
        _ => (proved::search(2, &a, &b) as i8, text::starting(&a, &b) as i8),
    };
    (one != other).then(|| format!("texts {a:?} {b:?}: {one}, {other}"))
}

/// The bytes at a place as plain Rust has them, zeros past the end.
fn words(rng: &mut Rng) -> Option<String> {
    let bytes: Vec<u8> = (0..rng.below(9)).map(|_| rng.byte()).collect();
    let at = if rng.one_in(10) {
        rng.pick(&[usize::MAX, usize::MAX - 1, usize::MAX - 3])
    } else {
        rng.below(10)
    };
    let byte =
        |n: usize| at.checked_add(n).and_then(|place| bytes.get(place)).copied().unwrap_or(0);
    let word = u16::from_le_bytes([byte(0), byte(1)]);
    let long = u32::from_le_bytes([byte(0), byte(1), byte(2), byte(3)]);
    let other = (u32::from(word), long, i64::from(word as i16), i64::from(long as i32));
    let one = proved::numbers_at(&bytes, at);
    (one != other).then(|| format!("numbers at {at} of {bytes:?}: {one:?}, {other:?}"))
}

/// Runs so many cases and gives the number of differences.
pub fn run(seed: u64, count: usize) -> usize {
    let mut rng = Rng::new(seed);
    let mut differences = 0;
    for case in 0..count {
        let difference = match case % 10 {
            0..=4 => numbers(&mut rng),
            5 | 6 => part(&mut rng),
            7 | 8 => test_of_texts(&mut rng),
            _ => words(&mut rng),
        };
        if let Some(text) = difference {
            differences += 1;
            println!("differs: {text}");
        }
    }
    println!("leaves: {count} cases, {differences} differences");
    differences
}
