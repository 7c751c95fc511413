//! Scaled numbers at both ends of their range, and beside plain 128-bit arithmetic.

use second::decimal::{add, compare, divide, divide5, multiply, negate, rescale, subtract, Fault};
use second::generate::rng::Rng;
use std::cmp::Ordering;

const LEAST: i64 = i64::MIN;
const GREATEST: i64 = i64::MAX;

#[test]
fn rescaling_fits_or_overflows() {
    assert_eq!(rescale(30, 0, -1), Ok(300));
    assert_eq!(rescale(9, 0, -18), Ok(9_000_000_000_000_000_000));
    assert_eq!(rescale(10, 0, -18), Err(Fault::Overflow));
    assert_eq!(rescale(-9, 0, -18), Ok(-9_000_000_000_000_000_000));
    assert_eq!(rescale(-10, 0, -18), Err(Fault::Overflow));
    assert_eq!(rescale(LEAST, -18, -18), Ok(LEAST));
    assert_eq!(rescale(LEAST, -17, -18), Err(Fault::Overflow));
    assert_eq!(rescale(0, 0, -18), Ok(0));
}

#[test]
fn sums_and_differences_take_the_smaller_scale() {
    assert_eq!(add(1, 0, 1, -2), Ok((101, -2)));
    assert_eq!(subtract(1, -2, 1, 0), Ok((-99, -2)));
    assert_eq!(add(GREATEST, 0, 1, 0), Err(Fault::Overflow));
    assert_eq!(add(GREATEST, 0, LEAST, 0), Ok((-1, 0)));
    assert_eq!(subtract(LEAST, 0, 1, 0), Err(Fault::Overflow));
    assert_eq!(subtract(-1, 0, LEAST, 0), Ok((GREATEST, 0)));
    assert_eq!(subtract(0, 0, LEAST, 0), Err(Fault::Overflow));
}

#[test]
fn a_rescaled_operand_that_does_not_fit_is_overflow() {
    // 10 - 1 = 9 would fit at scale -18; 10 alone does not.
    assert_eq!(subtract(10, 0, 1_000_000_000_000_000_000, -18), Err(Fault::Overflow));
    assert_eq!(add(-1_000_000_000_000_000_000, -18, 10, 0), Err(Fault::Overflow));
}

#[test]
fn products_add_scales() {
    assert_eq!(multiply(3, -9, -4, -9), Ok((-12, -18)));
    assert_eq!(multiply(LEAST, 0, -1, 0), Err(Fault::Overflow));
    assert_eq!(multiply(LEAST, 0, 1, -1), Ok((LEAST, -1)));
    assert_eq!(multiply(1 << 32, 0, 1 << 31, 0), Err(Fault::Overflow));
    assert_eq!(multiply(1 << 32, 0, -(1 << 31), 0), Ok((LEAST, 0)));
}

#[test]
fn quotients_truncate_toward_zero() {
    assert_eq!(divide(-7, 0, 2, 0), Ok((-3, 0)));
    assert_eq!(divide(7, 0, -2, 0), Ok((-3, 0)));
    assert_eq!(divide(-7, 0, -2, 0), Ok((3, 0)));
    assert_eq!(divide(7, -18, 2, -9), Ok((3, -9)));
    assert_eq!(divide(LEAST, 0, -1, 0), Err(Fault::Overflow));
    assert_eq!(divide(LEAST, 0, 1, 0), Ok((LEAST, 0)));
    assert_eq!(divide(GREATEST, 0, -1, 0), Ok((-GREATEST, 0)));
    assert_eq!(divide(LEAST, 0, 0, 0), Err(Fault::ZeroDivisor));
    assert_eq!(divide(0, 0, 0, 0), Err(Fault::ZeroDivisor));
}

#[test]
fn quotients_of_version_5_add_scales() {
    assert_eq!(divide5(-7, 0, 2, 0), Ok((-3, 0)));
    assert_eq!(divide5(7, -1, 2, -1), Ok((350, -2)));
    assert_eq!(divide5(9, 0, 1, -9), Ok((9_000_000_000_000_000_000, -9)));
    assert_eq!(divide5(10, 0, 7, -9), Err(Fault::Overflow));
    assert_eq!(divide5(0, 0, 3, -18), Ok((0, -18)));
    assert_eq!(divide5(1, 0, GREATEST, -10), Err(Fault::Overflow));
    assert_eq!(divide5(GREATEST, 0, 0, -18), Err(Fault::ZeroDivisor));
    assert_eq!(divide5(LEAST, 0, -1, 0), Err(Fault::Overflow));
    assert_eq!(divide5(LEAST, -18, 1, 0), Ok((LEAST, -18)));
}

#[test]
fn negation_of_the_least_number_is_overflow() {
    assert_eq!(negate(LEAST), Err(Fault::Overflow));
    assert_eq!(negate(GREATEST), Ok(-GREATEST));
    assert_eq!(negate(0), Ok(0));
}

#[test]
fn comparison_is_exact() {
    assert_eq!(compare(30, 0, 300, -1), Ordering::Equal);
    assert_eq!(compare(GREATEST, 0, GREATEST, -18), Ordering::Greater);
    assert_eq!(compare(LEAST, 0, LEAST, -18), Ordering::Less);
    assert_eq!(compare(9, 0, 9_000_000_000_000_000_000, -18), Ordering::Equal);
    assert_eq!(compare(9, 0, 9_000_000_000_000_000_001, -18), Ordering::Less);
    assert_eq!(compare(10, 0, GREATEST, -18), Ordering::Greater);
    assert_eq!(compare(0, 0, 0, -18), Ordering::Equal);
}

#[test]
fn comparison_agrees_with_subtraction_where_that_fits() {
    let mut rng = Rng::new(1);
    for _ in 0..20_000 {
        let [left, right] = [0; 2].map(|_| (rng.bits() as i64) >> rng.below(64));
        let [left_scale, right_scale] = [0; 2].map(|_| -(rng.below(19) as i8));
        if let Ok((difference, _)) = subtract(left, left_scale, right, right_scale) {
            assert_eq!(compare(left, left_scale, right, right_scale), difference.cmp(&0));
        }
    }
}
