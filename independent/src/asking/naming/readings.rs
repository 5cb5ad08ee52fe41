//! Raw, E and F out of range, and the scaling value of a place.

use super::try_all;
use crate::asking::readings::{numbers_of_each_sort, places_of_each_sort};
use crate::compare::Comparison;
use crate::inputs;
use crate::random::Random;
use crate::words::ANY;

const NUMBERS: &str = "naming raw, E and F";
const PLACES: &str = "naming in places";

pub fn ask_all(comparison: &mut Comparison, random: &mut Random) {
    numbers(comparison, random);
    places(comparison, random);
}

/// The ends, one outside, and far outside; those that a narrower number would cut to a good one
/// are among them.
const RAWS: [i64; 10] = [
    ANY.0,
    -4_294_967_296,
    -32769,
    -32768,
    0,
    65535,
    65536,
    131_072,
    4_294_967_296,
    ANY.1,
];
const ES: [i64; 8] = [0, 16, 31, 32, 64, 256, 4_294_967_296, ANY.1];
const FS: [i64; 7] = [0, 2047, 2048, 4096, 65536, 4_294_967_296, ANY.1];

/// Every subset of raw, E and F outside.
pub fn every_subset() -> Vec<[i64; 3]> {
    let mut every = Vec::new();
    for raw in RAWS {
        for e in ES {
            every.extend(FS.map(|f| [raw, e, f]));
        }
    }
    every
}

/// Every subset of raw, E and F outside, then any.
fn numbers(comparison: &mut Comparison, random: &mut Random) {
    let line = |[raw, e, f]: [i64; 3]| format!("thousandths {raw} {e} {f}");
    let mut lines: Vec<String> = every_subset().into_iter().map(line).collect();
    for _ in 0..comparison.amount(2000) {
        let raw = inputs::number(random, (-32768 - 20_000, 65535 + 20_000));
        let (e, f) = (random.between(0, 45), random.between(0, 3000));
        lines.push(format!("thousandths {raw} {e} {f}"));
    }
    try_all(comparison, NUMBERS, &lines);
}

pub const PLACE_WORDS: &str =
    ". - -2147483648 -65536 -32769 -32768 -1 0 5 32768 65535 65536 70000 2147483647";
pub const SCALINGS: [i64; 12] = [
    -2_147_483_648,
    -65536,
    -2048,
    -1,
    0,
    2048,
    32768,
    65535,
    65536,
    67583,
    67584,
    2_147_483_647,
];

/// Every place with every number, with its flag and without it, and with none; then any.
fn places(comparison: &mut Comparison, random: &mut Random) {
    let mut lines = Vec::new();
    for place in PLACE_WORDS.split(' ') {
        lines.push(format!("place {place} !"));
        lines.extend(
            SCALINGS
                .iter()
                .flat_map(|number| with_and_without(place, *number)),
        );
    }
    for _ in 0..comparison.amount(50) {
        for place in places_of_each_sort(random) {
            let numbers = numbers_of_each_sort(random).into_iter();
            lines.extend(numbers.flat_map(|number| with_and_without(&place, number)));
        }
    }
    try_all(comparison, PLACES, &lines);
}

fn with_and_without(place: &str, number: i64) -> [String; 2] {
    [
        format!("place {place} {number}"),
        format!("place {place} !{number}"),
    ]
}
