//! Readings as doubles (request L6): the double nearest to the fraction of document 01,
//! raw * 2^27 / ((2048 + F) * 2^E). It is worked out over whole numbers, so the machine's own
//! division has no part in it.

use crate::record::Place;
use crate::refusal::Refusal;
use crate::thousandths::{in_range, numbers_of};

/// A double has 53 binary digits. The first is 1 and isn't stored; the other 52 are.
const STORED: u32 = 52;
/// The least whole number of 53 digits.
const LEAST: u128 = 1 << STORED;
/// What is added to an exponent, so that it is stored without a sign.
const ADDED: u64 = 1023;
const SIGN: u64 = 1 << 63;

/// The 64 bits of the double. Refused as thousandths are.
pub fn double(raw: i64, e: i64, f: i64) -> Result<u64, Refusal> {
    in_range(raw, e, f)?;
    // Raw 0 is no negative number, so its zero has no sign.
    let sign = if raw < 0 { SIGN } else { 0 };
    let above = u128::from(raw.unsigned_abs()) << 27;
    let below = u128::from((2048 + f).unsigned_abs()) << e;
    Ok(sign | size(above, below))
}

/// The bits of above / below behind the sign's.
fn size(above: u128, below: u128) -> u64 {
    if above == 0 {
        return 0;
    }
    // The fraction is doubled until its whole part has 53 digits. It is below 2^32 and above 2^-16,
    // so that takes from 21 to 68 times, and the number doubled stays below 2^96.
    let mut doubled = above;
    let mut times = 0;
    while doubled < below * LEAST {
        doubled *= 2;
        times += 1;
    }
    let digits = nearest_even(doubled, below);
    // So the fraction is digits / 2^times, the first digit standing for 2^(52 - times).
    let exponent = ADDED + u64::from(STORED) - times;
    // Rounded up to 54 digits they are 2^53: what is over goes into the exponent, as it should.
    (exponent << STORED) + (digits - LEAST) as u64
}

/// The whole number nearest to above / below, of two that are as near the even one.
fn nearest_even(above: u128, below: u128) -> u128 {
    let (whole, left) = (above / below, above % below);
    let up = 2 * left > below || 2 * left == below && whole % 2 == 1;
    whole + u128::from(up)
}

/// The bits for one place of a point, none where it is absent. Refused as its thousandths are.
pub fn of_place(place: Place, scaling: Option<i64>) -> Option<Result<u64, Refusal>> {
    let numbers = numbers_of(place, scaling)?;
    Some(numbers.and_then(|[raw, e, f]| double(raw, e, f)))
}
