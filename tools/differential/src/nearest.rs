//! Part 2: the nearest 64-bit float of a ratio, and request A.10: which side of the ratio it lies on.

use std::cmp::Ordering;

const LIMIT: u64 = 6_000_000_000_000_000_000;

/// The sides: the float equals the ratio, lies below it, lies above it.
pub const EQUAL: u8 = 0;
pub const BELOW: u8 = 1;
pub const ABOVE: u8 = 2;

/// A float, and its side of the ratio that it is nearest to.
#[derive(Clone, Copy)]
pub(crate) struct Rounded {
    pub float: f64,
    pub side: u8,
}

/// The nearest float of p / q with its side; q is above 0 and neither is above the limit in size.
pub(crate) fn ratio(p: i64, q: i64) -> Rounded {
    let float = rounded(p, q);
    Rounded {
        float,
        side: side(p, q, float),
    }
}

/// The float nearest to p / q, half to even.
///
/// The quotient is taken with 55 or 56 binary digits, the last one telling also whether there is a remainder. Two or three
/// digits more than a float has are enough to round once, which the conversion does; the scaling by a power of 2 is exact.
fn rounded(p: i64, q: i64) -> f64 {
    if p == 0 {
        return 0.0;
    }
    let (size, divisor) = (p.unsigned_abs(), q.unsigned_abs());
    let shift = 55 + size.leading_zeros() as i32 - divisor.leading_zeros() as i32;
    let (up, down) = (shift.max(0), (-shift).max(0));
    let numerator = u128::from(size) << up;
    let denominator = u128::from(divisor) << down;
    let quotient = (numerator / denominator) as u64;
    let exact = u128::from(quotient) * denominator == numerator;
    let rounded = (quotient | u64::from(!exact)) as i64 as f64;
    let scaled = rounded * f64::from_bits(((1023 - shift) as u64) << 52);
    if p < 0 {
        -scaled
    } else {
        scaled
    }
}

/// Where the nearest float lies, whatever way it was found. It is its digits times a power of 2: digits times q is held against p, one of
/// the two shifted by that power. They are then nearly equal, and have 117 binary digits at most, so that none is lost. A figure
/// below 0 lies above the ratio where its size is the lesser.
fn side(p: i64, q: i64, float: f64) -> u8 {
    if p == 0 {
        return EQUAL;
    }
    let bits = float.to_bits();
    let exponent = (bits >> 52 & 0x7FF) as i32 - 1075;
    let digits = bits & ((1 << 52) - 1) | 1 << 52;
    let (up, down) = (exponent.max(0), (-exponent).max(0));
    let float = (u128::from(digits) * u128::from(q.unsigned_abs())) << up;
    let ratio = u128::from(p.unsigned_abs()) << down;
    let by_size = float.cmp(&ratio);
    match if p < 0 { by_size.reverse() } else { by_size } {
        Ordering::Equal => EQUAL,
        Ordering::Less => BELOW,
        Ordering::Greater => ABOVE,
    }
}

pub fn nearest(p: i64, q: i64, out: &mut [f64], side: &mut [u8]) -> u8 {
    let ([out], [side]) = (out, side) else {
        return 2;
    };
    if q < 1 || q.unsigned_abs() > LIMIT || p.unsigned_abs() > LIMIT {
        return 18;
    }
    let rounded = ratio(p, q);
    *out = rounded.float;
    *side = rounded.side;
    0
}
