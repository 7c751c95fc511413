//! Scaled signed 64-bit numbers.
//!
//! Document 01: "Numbers are signed 64-bit with a scale, compared exactly over the powers of ten up
//! to 10^18. Add and subtract bring both to the smaller scale; a rescaled operand or result that
//! doesn't fit is overflow. Division truncates toward zero." A number is a value and a scale from
//! -18 to 0, and stands for the value times ten to the scale. The work is done in 128 bits, which
//! hold every product of two 64-bit values and every value times 10^18.
//!
//! Document 02, No. 8, on version 5: "A quotient has the sum of the two scales: the dividend times
//! ten to minus twice the divisor's scale, divided and truncated toward zero, with overflow if the
//! multiplied dividend or the quotient doesn't fit; a zero divisor is told first."

use std::cmp::Ordering;

/// Why an operation has no result.
#[derive(Clone, Copy, Debug, PartialEq, Eq)]
pub enum Fault {
    Overflow,
    ZeroDivisor,
}

/// The scales that arithmetic takes and gives.
pub fn is_scale(scale: i32) -> bool {
    (-18..=0).contains(&scale)
}

/// Ten to the power of 0 to 18.
fn power_of_ten(exponent: i32) -> i128 {
    assert!((0..=18).contains(&exponent), "a power of ten up to 10^18");
    10i128.pow(exponent.unsigned_abs())
}

/// The 64-bit value, if it fits.
fn fit(value: i128) -> Result<i64, Fault> {
    i64::try_from(value).map_err(|_| Fault::Overflow)
}

/// The value in units of the smaller scale `to`, in 128 bits.
fn widen(value: i64, from: i8, to: i8) -> i128 {
    i128::from(value) * power_of_ten(i32::from(from) - i32::from(to))
}

/// The value brought from one scale to another that isn't larger.
pub fn rescale(value: i64, from: i8, to: i8) -> Result<i64, Fault> {
    fit(widen(value, from, to))
}

/// Sum of two numbers, with its scale.
pub fn add(left: i64, left_scale: i8, right: i64, right_scale: i8) -> Result<(i64, i8), Fault> {
    let scale = left_scale.min(right_scale);
    let left = rescale(left, left_scale, scale)?;
    let right = rescale(right, right_scale, scale)?;
    Ok((fit(i128::from(left) + i128::from(right))?, scale))
}

/// Difference of two numbers, with its scale.
pub fn subtract(
    left: i64,
    left_scale: i8,
    right: i64,
    right_scale: i8,
) -> Result<(i64, i8), Fault> {
    let scale = left_scale.min(right_scale);
    let left = rescale(left, left_scale, scale)?;
    let right = rescale(right, right_scale, scale)?;
    Ok((fit(i128::from(left) - i128::from(right))?, scale))
}

/// Product of two numbers, with its scale, the sum of theirs.
pub fn multiply(
    left: i64,
    left_scale: i8,
    right: i64,
    right_scale: i8,
) -> Result<(i64, i8), Fault> {
    let product = fit(i128::from(left) * i128::from(right))?;
    Ok((product, left_scale + right_scale))
}

/// Quotient of two numbers as they stand, with its scale, the first minus the second.
pub fn divide(left: i64, left_scale: i8, right: i64, right_scale: i8) -> Result<(i64, i8), Fault> {
    if right == 0 {
        return Err(Fault::ZeroDivisor);
    }
    // Division of 128-bit numbers truncates toward zero.
    let quotient = fit(i128::from(left) / i128::from(right))?;
    Ok((quotient, left_scale - right_scale))
}

/// Quotient of two numbers in version 5, with its scale, the sum of theirs.
pub fn divide5(left: i64, left_scale: i8, right: i64, right_scale: i8) -> Result<(i64, i8), Fault> {
    if right == 0 {
        return Err(Fault::ZeroDivisor);
    }
    let multiplied = multiplied(left, -2 * i32::from(right_scale))?;
    let quotient = fit(i128::from(multiplied) / i128::from(right))?;
    Ok((quotient, left_scale + right_scale))
}

/// The value times ten to a power of 0 to 36, if it fits; only zero does beyond 10^18.
fn multiplied(value: i64, exponent: i32) -> Result<i64, Fault> {
    match exponent {
        0..=18 => fit(i128::from(value) * power_of_ten(exponent)),
        _ if value == 0 => Ok(0),
        _ => Err(Fault::Overflow),
    }
}

/// The value with its sign changed; the scale stays.
pub fn negate(value: i64) -> Result<i64, Fault> {
    fit(-i128::from(value))
}

/// Exact comparison of two numbers.
pub fn compare(left: i64, left_scale: i8, right: i64, right_scale: i8) -> Ordering {
    let scale = left_scale.min(right_scale);
    widen(left, left_scale, scale).cmp(&widen(right, right_scale, scale))
}
