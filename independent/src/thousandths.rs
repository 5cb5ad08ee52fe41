//! Readings in thousandths, straight from the fraction of document 01:
//! raw * 2^27 / ((2048 + F) * 2^E). The numbers are wide, so nothing overflows.
//! One place of a point is read with its channel's scaling value, or not at all (request L3).

use std::ops::RangeInclusive;

use crate::record::Place;
use crate::refusal::Refusal;
use crate::which::{check, Which};

/// The raw numbers that have a reading, and the E and F.
pub const RAWS: RangeInclusive<i64> = -32768..=65535;
pub const ES: RangeInclusive<i64> = 0..=31;
pub const FS: RangeInclusive<i64> = 0..=2047;

/// Refused with 12 where a number is outside its range: raw is judged first, then E, then F.
pub fn in_range(raw: i64, e: i64, f: i64) -> Result<(), Refusal> {
    check(Which::Raw, raw, RAWS)?;
    check(Which::E, e, ES)?;
    check(Which::F, f, FS)
}

pub fn thousandths(raw: i64, e: i64, f: i64) -> Result<i128, Refusal> {
    in_range(raw, e, f)?;
    let above = i128::from(raw) * (1 << 27) * 1000;
    let below = (2048 + i128::from(f)) * (1 << e);
    Ok(nearest(above, below))
}

/// The whole number nearest to above / below, a half going away from zero.
fn nearest(above: i128, below: i128) -> i128 {
    let size = (2 * above.abs() + below) / (2 * below);
    above.signum() * size
}

/// The scale is (2048 + F) * 2^E over 2^27. Scale 1000 over the same 2^27 is this.
const THOUSAND: i64 = 1000 << 27;

/// The bound of request L11, compared as a fraction of whole numbers.
pub fn scale_at_most_1000(e: i64, f: i64) -> bool {
    (2048 + f) << e <= THOUSAND
}

/// Above scale 1000 the exact reading is raw less a loss, raw * (scale - 1000) / scale. This is
/// the greatest raw whose loss is at most a half, so that it reads as itself. The next one
/// loses more than a half and reads as one less: the two share a reading, also with a minus.
pub fn first_shared(e: i64, f: i64) -> Option<i64> {
    let scale = (2048 + f) << e;
    let above = scale - THOUSAND;
    (above > 0).then(|| scale / (2 * above))
}

/// What one place of a point reads as, or its refusal.
#[derive(Debug, PartialEq, Eq)]
pub enum Reading {
    Absent,
    Thousandths(i128),
    Refused(Refusal),
}

/// Raw, E and F of one place, none where it is absent. A scaling value is given where its flag is
/// set, 0 too. A number without its flag is none.
pub fn numbers_of(place: Place, scaling: Option<i64>) -> Option<Result<[i64; 3], Refusal>> {
    let raw = match place {
        // Absent stays absent, whatever the scaling value and also without one.
        Place::Absent => return None,
        // 1 divided by the scale (002, 7.3.4.2).
        Place::Constant => 1,
        Place::Number(number) => number,
    };
    // The calibration is unknown (002, 7.3.4.3). This is said before any number is judged.
    let Some(scaling) = scaling else {
        return Some(Err(Refusal::bare(20)));
    };
    // F is what is left over a multiple of 2048, so it is always in its range. A scaling value
    // below 0 has an E below 0, one above 65535 an E above 31: it is E that is named.
    Some(Ok([
        raw,
        scaling.div_euclid(2048),
        scaling.rem_euclid(2048),
    ]))
}

pub fn of_place(place: Place, scaling: Option<i64>) -> Reading {
    let Some(numbers) = numbers_of(place, scaling) else {
        return Reading::Absent;
    };
    numbers
        .and_then(|[raw, e, f]| thousandths(raw, e, f))
        .map_or_else(Reading::Refused, Reading::Thousandths)
}
