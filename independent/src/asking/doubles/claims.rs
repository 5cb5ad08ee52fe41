//! The claims of request L6, judged on what the program itself answered.

use super::value::{is_nearest_reading, Double};
use super::Numbers;
use crate::asking::order::reading;
use crate::compare::{Answered, Claim, Comparison};

const EXACT: Claim = (
    "doubles that are exact where F is 0",
    "where F is 0 the double is raw * 2^16 / 2^E, by its value over whole numbers",
);
const ZERO: Claim = (
    "doubles of raw 0",
    "raw 0 is 0000000000000000 with every E and F",
);
const NEAREST: Claim = (
    "doubles nearest to the fraction",
    "neither the next double above nor the next below is as near to the exact fraction",
);
const MIRRORED: Claim = (
    "doubles of raw and -raw",
    "raw and -raw have the same bits but for the sign's",
);
const ORDERED: Claim = (
    "order of doubles",
    "a greater raw number has a greater double, never a smaller one or the same",
);
const READING: Claim = (
    "readings beside doubles",
    "the reading is the whole number nearest to 1000 times the fraction, a half away from zero",
);
const BESIDE: Claim = (
    "doubles beside readings",
    "1000 times the double is within a half of the reading, but for its own rounding",
);
const ALIKE: Claim = (
    "doubles refused as readings are",
    "either both are numbers, or the same is answered to both",
);
const OF_PLACE: Claim = (
    "doubles of places as of raw, E and F",
    "a place with its scaling value is answered as its raw number, E and F are; a constant as raw 1",
);

/// The claims on one answer of `double`, whose numbers are all in range.
pub fn of_one(comparison: &mut Comparison, numbers: Numbers, answered: &Answered) {
    let double = Double::of(answered);
    let is = |holds: fn(&Double, Numbers) -> bool| {
        double.as_ref().is_some_and(|double| holds(double, numbers))
    };
    if numbers.f == 0 {
        comparison.claim(EXACT, &[answered], is(Double::is_exactly));
    }
    if numbers.raw == 0 {
        let plus_zero = answered.theirs.as_deref() == Some(b"double 0000000000000000");
        comparison.claim(ZERO, &[answered], plus_zero);
    } else {
        comparison.claim(NEAREST, &[answered], is(Double::is_nearest));
    }
}

/// Of the lesser raw number and of the greater, with one scale.
pub fn of_order(comparison: &mut Comparison, lesser: &Answered, greater: &Answered) {
    let ordered = match (Double::of(lesser), Double::of(greater)) {
        (Some(lesser), Some(greater)) => lesser.rank() < greater.rank(),
        _ => false,
    };
    comparison.claim(ORDERED, &[lesser, greater], ordered);
}

/// Of raw above 0 and of -raw, with one scale.
pub fn of_mirrored(comparison: &mut Comparison, above: &Answered, below: &Answered) {
    let mirrored = match (Double::of(above), Double::of(below)) {
        (Some(above), Some(below)) => above.bits ^ below.bits == 1 << 63,
        _ => false,
    };
    comparison.claim(MIRRORED, &[above, below], mirrored);
}

/// Of `double` and `thousandths` with the same numbers, all of them in range.
pub fn of_both(comparison: &mut Comparison, numbers: Numbers, both: [&Answered; 2]) {
    let (double, reading) = (Double::of(both[0]), reading(both[1]));
    let nearest = reading.is_some_and(|reading| is_nearest_reading(reading, numbers));
    comparison.claim(READING, &[both[1]], nearest);
    let beside = match (double, reading) {
        (Some(double), Some(reading)) => double.is_beside(reading),
        _ => false,
    };
    comparison.claim(BESIDE, &both, beside);
}

/// Of a double and of thousandths that are asked with the same words.
pub fn of_refusals(comparison: &mut Comparison, both: [&Answered; 2]) {
    let [double, thousandths] = both;
    let alike = match (Double::of(double), reading(thousandths)) {
        (Some(_), Some(_)) => true,
        (None, None) => double.theirs.is_some() && double.theirs == thousandths.theirs,
        _ => false,
    };
    comparison.claim(ALIKE, &both, alike);
}

/// Of `double-place` and of `double` with the same raw number and scale.
pub fn of_place(comparison: &mut Comparison, place: &Answered, double: &Answered) {
    let same = place.theirs.is_some() && place.theirs == double.theirs;
    comparison.claim(OF_PLACE, &[place, double], same);
}
